//! Lays out the kernel files for the two programs, from the folder that holds the published Rust.
//!
//! Nothing of that Rust is kept in this repository, so each build takes it from ORACLE_SRC, tests every file
//! against published.sha256, and copies it below OUT_DIR, once as it stands and once with docs/mended.patch.
//! Three things are then changed in the copies, and no more:
//!   - NINDIRECT becomes 256, document 01's number (the file shown gives 128; ORACLE_NINDIRECT=shown keeps it);
//!   - a last line opens a child module (supplied/fs/*_window.rs) in the files whose private state the
//!     answers `order`, `list` and `slots` need, and whose statics `mount` must make new;
//!   - the modules that fs/mod.rs names but that were not published are laid beside it from supplied/fs.
//!
//! ORACLE_LEAVE_OUT=NAME leaves the hunks of one mend out of the patch (used by oracle/mends).

use std::env;
use std::fs;
use std::io::Write;
use std::path::{Path, PathBuf};
use std::process::{Command, Stdio};

/// The published files whose private parts a window looks into.
const FILES_WITH_WINDOW: [&str; 4] = ["bio", "log", "inode", "superblock"];

/// The line of qemu/fs.rs with the number of addresses in an indirect block, and document 01's number there.
const NINDIRECT_SHOWN: &str = "pub const NINDIRECT: usize =  BSIZE / 8;";
const NINDIRECT_OF_DOCUMENT_01: &str = "pub const NINDIRECT: usize =  BSIZE / 4;";

fn main() {
    let here = PathBuf::from(env::var("CARGO_MANIFEST_DIR").unwrap());
    let out = PathBuf::from(env::var("OUT_DIR").unwrap());
    let source = match env::var("ORACLE_SRC") {
        Ok(folder) => PathBuf::from(folder),
        Err(_) => here.join("../../shared/docs/src"),
    };
    for variable in ["ORACLE_SRC", "ORACLE_LEAVE_OUT", "ORACLE_NINDIRECT"] {
        println!("cargo:rerun-if-env-changed={}", variable);
    }
    for path in ["published.sha256", "supplied", "../docs/mended.patch"] {
        println!("cargo:rerun-if-changed={}", here.join(path).display());
    }
    println!("cargo:rerun-if-changed={}", source.display());

    let published = tested_files(&source, &here.join("published.sha256"));
    for program in ["unmended", "mended"] {
        let tree = out.join(program);
        if tree.exists() {
            fs::remove_dir_all(&tree).unwrap();
        }
        for (name, bytes) in &published {
            write_file(&tree.join(name), bytes);
        }
        if program == "mended" {
            apply_patch(&tree, &here.join("../docs/mended.patch"));
        }
        set_nindirect(&tree.join("kernel/src/arch/riscv/qemu/fs.rs"));
        open_windows(&tree.join("kernel/src/fs"), &here.join("supplied/fs"));
        write_file(&tree.join("modules.rs"), module_list(&tree.join("kernel/src")).as_bytes());
    }
}

/// The published files by name, each with the digest that the list gives. Another byte anywhere stops the build.
fn tested_files(source: &Path, list: &Path) -> Vec<(String, Vec<u8>)> {
    let mut files = Vec::new();
    for line in fs::read_to_string(list).unwrap().lines().filter(|line| !line.starts_with('#')) {
        let (digest, name) = line.split_once("  ").expect("published.sha256: a line is DIGEST, two spaces, NAME");
        let path = source.join(name);
        let bytes = fs::read(&path).unwrap_or_else(|why| panic!("{}: {}", path.display(), why));
        assert_eq!(sha256::hex_digest(&bytes), digest, "{} is not the published file", path.display());
        files.push((name.to_string(), bytes));
    }
    files
}

fn write_file(path: &Path, bytes: &[u8]) {
    fs::create_dir_all(path.parent().unwrap()).unwrap();
    fs::write(path, bytes).unwrap();
}

/// Mends the copies with `patch`, no fuzz allowed.
fn apply_patch(tree: &Path, patch: &Path) {
    let mut text = fs::read_to_string(patch).unwrap();
    if let Ok(mend) = env::var("ORACLE_LEAVE_OUT") {
        text = without_mend(&text, &mend);
    }
    let mut child = Command::new("patch")
        .args(["-p1", "-F0", "--silent", "--no-backup-if-mismatch"])
        .current_dir(tree)
        .stdin(Stdio::piped())
        .spawn()
        .expect("the program `patch` is needed");
    child.stdin.take().unwrap().write_all(text.as_bytes()).unwrap();
    assert!(child.wait().unwrap().success(), "docs/mended.patch does not apply");
}

/// The patch without the hunks whose header names `mend`.
fn without_mend(text: &str, mend: &str) -> String {
    let mut kept = String::new();
    let mut leaving_out = false;
    let mut left_out = 0;
    for line in text.lines() {
        if line.starts_with("@@ ") {
            leaving_out = line.ends_with(&format!("@@ mend {}", mend));
            left_out += leaving_out as usize;
        } else if line.starts_with("--- ") {
            leaving_out = false;
        }
        if !leaving_out {
            kept.push_str(line);
            kept.push('\n');
        }
    }
    assert!(left_out > 0, "no hunk of docs/mended.patch is named {}", mend);
    kept
}

fn set_nindirect(path: &Path) {
    let text = fs::read_to_string(path).unwrap();
    assert_eq!(text.matches(NINDIRECT_SHOWN).count(), 1);
    if env::var("ORACLE_NINDIRECT").as_deref() != Ok("shown") {
        fs::write(path, text.replace(NINDIRECT_SHOWN, NINDIRECT_OF_DOCUMENT_01)).unwrap();
    }
}

fn open_windows(fs_folder: &Path, supplied: &Path) {
    for entry in fs::read_dir(supplied).unwrap() {
        let path = entry.unwrap().path();
        fs::copy(&path, fs_folder.join(path.file_name().unwrap())).unwrap();
    }
    for file in FILES_WITH_WINDOW {
        let window = fs_folder.join(format!("{}_window.rs", file));
        append(&fs_folder.join(format!("{}.rs", file)), &format!("\n#[path = {:?}] pub mod window;\n", window));
    }
    append(&fs_folder.join("mod.rs"), "\npub mod window;\n");
}

fn append(path: &Path, text: &str) {
    let mut file = fs::OpenOptions::new().append(true).open(path).unwrap();
    file.write_all(text.as_bytes()).unwrap();
}

/// What src/main.rs includes: the published modules at the places where they name each other.
/// They are compiled as they stand, so their warnings are not ours to mend.
fn module_list(kernel: &Path) -> String {
    let at = |name: &str| format!("#[allow(warnings)] #[path = {:?}]", kernel.join(name));
    format!(
        "{} pub mod fs;\n{} pub mod misc;\n\
         pub mod lock {{\n{} pub mod sleeplock;\n{} pub mod spinlock;\n}}\n\
         pub mod arch {{ pub mod riscv {{ pub mod qemu {{\n{} pub mod fs;\n}} }} }}\n",
        at("fs/mod.rs"),
        at("misc.rs"),
        at("lock/sleeplock.rs"),
        at("lock/spinlock.rs"),
        at("arch/riscv/qemu/fs.rs"),
    )
}
