//! Random scripts. The same KIND, SEED and COUNT give the same script, since every choice comes from one
//! seeded sequence and from the answers of this very program, which carries out each line as it is chosen.
//!
//!   cache    COUNT steps of the cache standing alone, `order` after each
//!   commits  COUNT cases of the log alone: blocks recorded, a commit cut anywhere, recoveries cut anywhere
//!   crashes  COUNT cases of file calls with a commit cut anywhere, recoveries cut anywhere, and a look at the files
//!   files    COUNT file calls on one volume, transactions among them
//!
//! Choices keep to what document 01 calls the oracle's domain: no step is taken after which the Rust would panic
//! half way through a change. Early refusals (a missing name, an offset past the end, busy) are in.
//! The root and every directory are kept open, so that a walk takes no slot of its own.

use crate::script::Script;

pub fn script(kind: &str, seed: u64, count: u64) -> String {
    let mut maker = Maker { script: Script::new(), text: String::new(), state: seed };
    maker.text.push_str(&format!("# generate {} {} {}\n", kind, seed, count));
    match kind {
        "cache" => cache_steps(&mut maker, count),
        "commits" => (0..count).for_each(|case| commit_case(&mut maker, case)),
        "crashes" => (0..count).for_each(|case| crash_case(&mut maker, case)),
        "files" => file_calls(&mut maker, count),
        _ => panic!("KIND is cache, commits, crashes or files"),
    }
    maker.text
}

/// Carries out each line as it is written down, so that the next choice can use its answer.
struct Maker {
    script: Script,
    text: String,
    state: u64,
}

impl Maker {
    fn line(&mut self, line: String) -> String {
        self.text.push_str(&line);
        self.text.push('\n');
        let answer = self.script.answer(&line).expect("a generated line is a call");
        assert!(!answer.starts_with("harness:"), "{}: {}", line, answer);
        answer
    }

    fn say(&mut self, line: &str) -> String {
        self.line(line.to_string())
    }

    fn comment(&mut self, text: String) {
        self.text.push_str(&format!("# {}\n", text));
    }

    /// A number below `bound` (splitmix64).
    fn below(&mut self, bound: u32) -> u32 {
        self.state = self.state.wrapping_add(0x9e3779b97f4a7c15);
        let mut z = self.state;
        z = (z ^ (z >> 30)).wrapping_mul(0xbf58476d1ce4e5b9);
        z = (z ^ (z >> 27)).wrapping_mul(0x94d049bb133111eb);
        ((z ^ (z >> 31)) % bound as u64) as u32
    }

    fn chance(&mut self, percent: u32) -> bool {
        self.below(100) < percent
    }

    fn pick<T: Clone>(&mut self, from: &[T]) -> T {
        from[self.below(from.len() as u32) as usize].clone()
    }

    /// How many blocks are recorded, and how many operations are open.
    fn recorded(&mut self) -> (u32, u32) {
        let (open, blocks) = crate::fs::window::recorded();
        (open, blocks.len() as u32)
    }
}

// ---- the cache standing alone

fn cache_steps(maker: &mut Maker, count: u64) {
    maker.say("mkfs 64 16 30");
    maker.say("cfresh");
    // (index, block) of the buffers that the script holds.
    let mut held: Vec<(u32, u32)> = Vec::new();
    for step in 0..count {
        // Waves: for a while mostly gets, until no buffer is free, then mostly releases.
        let gets = if step / 80 % 2 == 0 { 65 } else { 25 };
        let choice = maker.below(100);
        if held.is_empty() || choice < gets {
            // A second get of a held buffer would sleep, so another block is chosen.
            let block = loop {
                let block = maker.below(64);
                if held.iter().all(|&(_, other)| other != block) {
                    break block;
                }
            };
            let answer = maker.line(format!("cget {}", block));
            if let Some(index) = answer.strip_prefix("ok index ") {
                held.push((index.parse().unwrap(), block));
            }
        } else {
            let place = maker.below(held.len() as u32) as usize;
            let index = held[place].0;
            let rest = maker.below(100);
            if rest < 15 {
                maker.line(format!("cpin {}", index));
            } else if rest < 40 {
                maker.line(format!("cunpin {}", index));
            } else {
                maker.line(format!("crel {}", index));
                held.remove(place);
            }
        }
        maker.say("order");
    }
}

// ---- the log alone

fn commit_case(maker: &mut Maker, case: u64) {
    maker.comment(format!("case {}", case));
    let nlog = maker.pick(&[12, 13, 20, 30]);
    maker.line(format!("mkfs 64 16 {}", nlog));
    if maker.chance(30) {
        maker.say("fillfree ee");
    }
    maker.say("mount");
    let finished = maker.below(3);
    for _ in 0..finished {
        record_some(maker, nlog);
        maker.say("end");
        maker.say("sha");
    }
    let recorded = record_some(maker, nlog);
    let cut = maker.below(2 * recorded + 3);
    maker.line(format!("end {}", cut));
    maker.say("trace");
    recover(maker, recorded);
}

/// Opens one operation, sometimes two, and records some blocks; gives how many are distinct.
fn record_some(maker: &mut Maker, nlog: u32) -> u32 {
    maker.say("begin");
    let two = maker.chance(25);
    if two {
        maker.say("begin");
    }
    let wanted = 1 + maker.below(nlog - 2);
    let first = nlog + 2;
    while maker.recorded().1 < wanted {
        // A block twice takes no room; offsets near both ends of the block.
        let block = first + maker.below(64 - first);
        let offset = maker.pick(&[0, 5, 512, 1000]);
        let (seed, count) = (maker.below(250), 1 + maker.below(24));
        maker.line(format!("record {} {} p:{}:{}", block, offset, seed, count));
    }
    maker.say("list");
    if two {
        maker.say("end");
    }
    wanted
}

/// Recoveries, some of them cut, the last one not; then once more, which has nothing to do.
fn recover(maker: &mut Maker, recorded: u32) {
    for _ in 0..maker.below(4) {
        let cut = maker.below(recorded + 2);
        maker.line(format!("mount {}", cut));
    }
    maker.say("mount");
    maker.say("trace");
    maker.say("sha");
    if maker.chance(20) {
        maker.say("mount");
        maker.say("sha");
    }
}

// ---- file calls

/// What the generator knows of the volume: enough to stay inside the domain.
struct Files {
    nlog: u32,
    /// Blocks that may still be asked for, counted on the safe side.
    room: u32,
    /// Largest size a file may reach here.
    longest: u32,
    /// Paths of directories, each with an open handle. The root is "".
    directories: Vec<(String, u32)>,
    /// Paths of files, with their open handles and their size.
    files: Vec<(String, Vec<u32>, u32)>,
    /// Paths of devices. A create of a file there opens the device, whose handle is then used for stat alone:
    /// the Rust reads and writes devices, document 01 does not.
    devices: Vec<String>,
}

impl Files {
    /// Every path but the root's.
    fn known(&self) -> Vec<String> {
        let directories = self.directories.iter().map(|(path, _)| path).filter(|path| !path.is_empty());
        directories.chain(self.files.iter().map(|(path, _, _)| path)).chain(&self.devices).cloned().collect()
    }

    fn new(nlog: u32, room: u32, longest: u32) -> Files {
        Files { nlog, room, longest, directories: Vec::new(), files: Vec::new(), devices: Vec::new() }
    }
}

/// The handle of an answer `ok h H inode I slot S`.
fn handle_of(answer: &str) -> Option<u32> {
    answer.strip_prefix("ok h ")?.split(' ').next()?.parse().ok()
}

fn a_name(maker: &mut Maker) -> String {
    maker.pick(&[
        "a", "b", "save", "save2", "longer", "abcdefghijklmn", "abcdefghijklmnop", "x.dat", "quick", "slot-1", "slot-22",
    ])
    .to_string()
}

/// Is there room for one more call that changes something? A call touches nine blocks at most.
fn room_in_log(maker: &mut Maker, files: &Files) -> bool {
    let (open, recorded) = maker.recorded();
    open > 0 && recorded + 9 <= files.nlog.min(30) - 2
}

/// Another spelling of a path now and then: slashes doubled or at the end, "." in between, or from a directory's handle.
fn spelt(maker: &mut Maker, files: &Files, path: &str) -> String {
    let (parent, name) = path.rsplit_once('/').unwrap();
    match maker.below(10) {
        0 => format!("/{}/", path),
        1 => format!("{}/.//{}", parent, name),
        2 => {
            let handle = files.directories.iter().find(|(known, _)| known == parent).unwrap().1;
            maker.line(format!("cwd {}", handle));
            name.to_string()
        }
        3 => {
            // Down into a directory and up again, or nowhere at all where none is there.
            let below = maker.pick(&files.directories).0;
            let ups = "/..".repeat(below.matches('/').count());
            format!("{}{}{}", below, ups, path)
        }
        _ => path.to_string(),
    }
}

fn create(maker: &mut Maker, files: &mut Files) {
    // A directory takes a block, and so may its parent.
    if files.room < 2 {
        return;
    }
    let known = files.known();
    let path = if known.len() > 12 || (known.len() > 3 && maker.chance(20)) {
        // A name that is there: opened again, or of another kind.
        maker.pick(&known)
    } else {
        format!("{}/{}", maker.pick(&files.directories).0, a_name(maker))
    };
    let parent = path.rsplit_once('/').unwrap().0.to_string();
    let kind = if maker.chance(20) { 1 } else { maker.pick(&[2, 2, 2, 3]) };
    let spelt = spelt(maker, files, &path);
    let answer = match kind {
        3 => maker.line(format!("create {} 3 {} {}", spelt, 7, -1)),
        _ => maker.line(format!("create {} {}", spelt, kind)),
    };
    // The Rust cuts a component at 14 bytes, so the path that was made is the cut one.
    let cut = format!("{}/{}", parent, path.rsplit('/').next().unwrap().chars().take(14).collect::<String>());
    if let Some(handle) = handle_of(&answer) {
        files.room -= 2;
        if let Some(known) = files.files.iter_mut().find(|(other, _, _)| *other == cut) {
            known.1.push(handle);
        } else if kind == 3 || files.devices.contains(&cut) {
            maker.line(format!("stat {}", handle));
            maker.line(format!("close {}", handle));
            if !files.devices.contains(&cut) {
                files.devices.push(cut);
            }
        } else if kind == 1 {
            files.directories.push((cut, handle));
        } else {
            files.files.push((cut, vec![handle], 0));
        }
    }
    maker.say("list");
}

fn write(maker: &mut Maker, files: &mut Files) {
    let open: Vec<usize> = (0..files.files.len()).filter(|&i| !files.files[i].1.is_empty()).collect();
    if open.is_empty() {
        return;
    }
    let which = maker.pick(&open);
    let size = files.files[which].2;
    let handle = maker.pick(&files.files[which].1);
    // Mostly at the end, often inside, now and then one past the end (refused).
    let offset = match maker.below(10) {
        0 => size + 1,
        1 | 2 | 3 => maker.below(size + 1),
        _ => size,
    };
    let length = match maker.below(8) {
        0 => 0,
        1 => 1024,
        2 => 3072,
        3 | 4 => 1 + maker.below(3072),
        _ => 1 + maker.below(60),
    };
    // An indirect block, and a block for each part.
    let blocks = length / 1024 + 3;
    if offset + length > files.longest || files.room < blocks {
        return;
    }
    let seed = maker.below(250);
    let answer = maker.line(format!("write {} {} p:{}:{}", handle, offset, seed, length));
    if answer.starts_with("ok ") {
        let end = size.max(offset + length);
        files.room -= (end.div_ceil(1024) - size.div_ceil(1024)) + (size <= 12288 && end > 12288) as u32;
        files.files[which].2 = end;
    }
    maker.say("list");
}

fn truncate(maker: &mut Maker, files: &mut Files) {
    let open: Vec<usize> = (0..files.files.len()).filter(|&i| !files.files[i].1.is_empty()).collect();
    if open.is_empty() {
        return;
    }
    let which = maker.pick(&open);
    let handle = maker.pick(&files.files[which].1);
    maker.line(format!("truncate {}", handle));
    files.room += files.files[which].2.div_ceil(1024);
    files.files[which].2 = 0;
    maker.say("list");
}

fn look(maker: &mut Maker, files: &mut Files) {
    let mut handles: Vec<(u32, u32)> = files.directories.iter().map(|&(_, handle)| (handle, 64)).collect();
    for (_, open, size) in &files.files {
        handles.extend(open.iter().map(|&handle| (handle, *size)));
    }
    let (handle, size) = maker.pick(&handles);
    if maker.chance(30) {
        maker.line(format!("stat {}", handle));
    } else {
        let offset = match maker.below(6) {
            0 => size,
            1 => size + 1,
            _ => maker.below(size + 1),
        };
        let count = maker.pick(&[0, 1, 16, 64, 1000, 4096]);
        maker.line(format!("read {} {} {}", handle, offset, count));
    }
}

fn open_or_close(maker: &mut Maker, files: &mut Files) {
    if files.files.is_empty() || maker.chance(20) {
        // A name that may not be there, and a component below a file.
        let parent = maker.pick(&files.directories).0;
        let path = format!("{}//{}", parent, maker.pick(&["nothing", "Save", "b/c", "a/"]));
        let answer = maker.line(format!("open {}", path));
        if let Some(handle) = handle_of(&answer) {
            maker.line(format!("close {}", handle));
        }
        return;
    }
    let which = maker.below(files.files.len() as u32) as usize;
    if files.files[which].1.len() > 1 || (!files.files[which].1.is_empty() && maker.chance(50)) {
        let handle = files.files[which].1.pop().unwrap();
        maker.line(format!("close {}", handle));
    } else {
        let spelt = spelt(maker, files, &files.files[which].0.clone());
        let answer = maker.line(format!("open {}", spelt));
        files.files[which].1.push(handle_of(&answer).expect("a file that was made"));
    }
    maker.say("slots");
}

fn change(maker: &mut Maker, files: &mut Files) {
    if !room_in_log(maker, files) {
        return;
    }
    match maker.below(10) {
        0 | 1 | 2 => create(maker, files),
        3 => truncate(maker, files),
        _ => write(maker, files),
    }
}

fn open_root(maker: &mut Maker, files: &mut Files) {
    let handle = handle_of(&maker.say("open /")).expect("the root opens");
    files.directories.push((String::new(), handle));
}

fn file_calls(maker: &mut Maker, count: u64) {
    maker.say("mkfs 512 64 30");
    maker.say("fillfree ee");
    maker.say("mount");
    let mut files = Files::new(30, 400, 18 * 1024);
    open_root(maker, &mut files);
    for _ in 0..count {
        let (open, _) = maker.recorded();
        if open > 0 && (maker.chance(20) || !room_in_log(maker, &files)) {
            maker.say("end");
            if open == 1 {
                maker.say("sha");
            }
        } else if open == 0 || maker.chance(5) {
            maker.say("begin");
            maker.say("list");
        } else {
            match maker.below(10) {
                0 | 1 => look(maker, &mut files),
                2 => open_or_close(maker, &mut files),
                _ => change(maker, &mut files),
            }
        }
    }
    while maker.recorded().0 > 0 {
        maker.say("end");
    }
    maker.say("sha");
}

fn crash_case(maker: &mut Maker, case: u64) {
    maker.comment(format!("case {}", case));
    let nlog = maker.pick(&[12, 18, 30]);
    let layout = crate::card::Layout::of(120, 32, nlog).unwrap();
    maker.line(format!("mkfs 120 32 {}", nlog));
    if maker.chance(50) {
        maker.say("fillfree ee");
    }
    maker.say("mount");
    let mut files = Files::new(nlog, layout.nblocks - 8, 16 * 1024);
    open_root(maker, &mut files);
    for _ in 0..maker.below(4) {
        maker.say("begin");
        change_some(maker, &mut files);
        maker.say("end");
    }
    maker.say("sha");
    maker.say("begin");
    change_some(maker, &mut files);
    let recorded = maker.recorded().1;
    let cut = maker.below(2 * recorded + 3);
    maker.line(format!("end {}", cut));
    recover(maker, recorded);
    // What stands now: the old files or the new ones.
    let paths: Vec<String> =
        files.directories.iter().map(|known| known.0.clone()).chain(files.files.iter().map(|known| known.0.clone())).collect();
    for path in paths {
        let answer = maker.line(format!("open {}", if path.is_empty() { "/" } else { &path }));
        if let Some(handle) = handle_of(&answer) {
            maker.line(format!("stat {}", handle));
            maker.line(format!("read {} 0 20000", handle));
        }
    }
}

fn change_some(maker: &mut Maker, files: &mut Files) {
    for _ in 0..1 + maker.below(4) {
        change(maker, files);
    }
}
