//! The oracle: the published file system of kernel/src/fs run as a host program.
//!
//! The same source makes two programs. `unmended` holds the published text as it stands, `mended` the same text
//! with docs/mended.patch; build.rs laid out both. Around it stand the things that the kernel has and a host
//! program has not: a RAM disk, one process that cannot sleep, memory copies, two macros of other crates.
//!
//! PROGRAM [FILE]                      answers the script in FILE or on standard input, line by line
//! PROGRAM generate KIND SEED COUNT    writes a random script (see generate.rs)
//! PROGRAM numbers [FILE]              answers a script of cache steps in numbers (see numbers.rs)
//! PROGRAM compare FILE ANSWERS        compares another program's answers with its own (see compare.rs)

extern crate alloc;
// The kernel takes `array!` and `BitField` from two registry crates. Here this crate answers to both names.
extern crate self as array_macro;
extern crate self as bit_field;

/// `array![_ => VALUE; COUNT]` of the crate array-macro, in the one form that the kernel uses.
#[macro_export]
macro_rules! array {
    (_ => $value:expr; $count:expr) => {
        [const { $value }; $count]
    };
}

/// The kernel's console. Its messages are no answers, so they go nowhere.
macro_rules! println {
    ($($message:tt)*) => {{ let _ = format_args!($($message)*); }};
}

include!(concat!(env!("OUT_DIR"), "/", env!("CARGO_BIN_NAME"), "/modules.rs"));

mod bits;
pub use bits::BitField;
pub mod driver;
pub mod memory;
pub mod process;

mod card;
mod caught;
mod compare;
mod generate;
mod numbers;
mod script;

use std::io::Read;

fn main() {
    caught::install();
    let arguments: Vec<String> = std::env::args().skip(1).collect();
    let words: Vec<&str> = arguments.iter().map(String::as_str).collect();
    match words[..] {
        ["generate", kind, seed, count] => {
            let number = |word: &str| word.parse().expect("SEED and COUNT are numbers");
            std::print!("{}", generate::script(kind, number(seed), number(count)));
        }
        ["numbers"] => std::print!("{}", numbers::of_cache_steps(&read_script(None))),
        ["numbers", file] => std::print!("{}", numbers::of_cache_steps(&read_script(Some(file)))),
        ["compare", file, answers] => {
            let verdict = compare::with_answers(&read_script(Some(file)), &read_script(Some(answers)));
            std::print!("{}", verdict.report);
            std::process::exit(if verdict.differing > 0 { 1 } else { 0 });
        }
        [] => script::run(&read_script(None)),
        [file] => script::run(&read_script(Some(file))),
        _ => {
            eprintln!("usage: PROGRAM [FILE] | generate KIND SEED COUNT | numbers [FILE] | compare FILE ANSWERS");
            std::process::exit(2);
        }
    }
}

fn read_script(file: Option<&str>) -> String {
    match file {
        Some(path) => std::fs::read_to_string(path).unwrap_or_else(|why| panic!("{}: {}", path, why)),
        None => {
            let mut text = String::new();
            std::io::stdin().read_to_string(&mut text).expect("standard input is text");
            text
        }
    }
}
