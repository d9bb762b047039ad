//! Compares another program's answers to a script with this program's own, line by line, and allows for the
//! differences that docs/DIFFERENCES.md explains, so that every other one stands out.
//!
//! Allowed: the order of recorded blocks (and so of the writes in `trace`); slot numbers; `no N` where the Rust
//! refuses in its own way, if N is a number that fits what the Rust said.
//! Not compared: lines that only one program has; the order of clean buffers under a mounted volume; everything
//! after a panic of the Rust that left changes behind, until the next mkfs or load.

use crate::script::Script;

pub struct Verdict {
    pub report: String,
    pub differing: usize,
}

enum Line {
    Equal,
    Allowed,
    NotCompared,
    Differs,
}

pub fn with_answers(script_text: &str, answers: &str) -> Verdict {
    let mut script = Script::new();
    let mut theirs = answers.lines();
    let mut cache_alone = false;
    let mut parted = false;
    let (mut equal, mut allowed, mut not_compared, mut differing) = (0, 0, 0, 0);
    let mut report = String::new();
    for (number, line) in script_text.lines().enumerate() {
        let ours = match script.answer(line) {
            Some(answer) => answer,
            None => continue,
        };
        let their = theirs.next().unwrap_or("(no answer)");
        let call = line.split_whitespace().next().unwrap();
        match call {
            "mkfs" | "load" => parted = false,
            "cfresh" => cache_alone = true,
            "mount" => cache_alone = false,
            _ => {}
        }
        let judged = if parted { Line::NotCompared } else { judge(call, &ours, their, cache_alone) };
        match judged {
            Line::Equal => equal += 1,
            Line::Allowed => allowed += 1,
            Line::NotCompared => not_compared += 1,
            Line::Differs => {
                differing += 1;
                report.push_str(&format!("line {}: {}\n  Rust:  {}\n  other: {}\n", number + 1, line, ours, their));
            }
        }
        // What the panic left behind is in the Rust's volume and not in the other one.
        parted |= leaves_changes(&ours);
    }
    let too_many = theirs.count();
    if too_many > 0 {
        differing += 1;
        report.push_str(&format!("{} answers more than there are calls\n", too_many));
    }
    report.push_str(&format!(
        "{} equal, {} allowed, {} not compared, {} differ\n",
        equal, allowed, not_compared, differing
    ));
    Verdict { report, differing }
}

fn judge(call: &str, ours: &str, their: &str, cache_alone: bool) -> Line {
    let of_one_program = ["check", "shaall", "balloc", "isempty"];
    if of_one_program.contains(&call) || (call == "order" && !cache_alone) || (call == "trace" && !their.starts_with("ok")) {
        Line::NotCompared
    } else if ours == their {
        Line::Equal
    } else if same_but_for_order(call, ours, their) || refused_alike(ours, their) {
        Line::Allowed
    } else {
        Line::Differs
    }
}

fn sorted(text: &str, separator: char) -> Vec<&str> {
    let mut parts: Vec<&str> = text.split(separator).collect();
    parts.sort();
    parts
}

fn same_but_for_order(call: &str, ours: &str, their: &str) -> bool {
    if !ours.starts_with("ok") || !their.starts_with("ok") {
        return false;
    }
    // The last word of `list` and `trace` is a list of blocks; that of `open` and `create` is the slot.
    let (our_head, our_last) = ours.rsplit_once(' ').unwrap_or((ours, ""));
    let (their_head, their_last) = their.rsplit_once(' ').unwrap_or((their, ""));
    match call {
        "list" | "trace" => our_head == their_head && sorted(our_last, ',') == sorted(their_last, ','),
        "open" | "create" => our_head == their_head,
        "slots" => {
            let by_inode = |answer: &str| {
                let mut held: Vec<String> =
                    answer.split(' ').filter_map(|word| word.split_once(':')).map(|(_, held)| held.to_string()).collect();
                held.sort();
                held
            };
            by_inode(ours) == by_inode(their)
        }
        _ => false,
    }
}

/// Does the Rust's refusal fit the number?
fn refused_alike(ours: &str, their: &str) -> bool {
    let number: u32 = match their.strip_prefix("no ").and_then(|word| word.parse().ok()) {
        Some(number) => number,
        None => return false,
    };
    REFUSALS.iter().any(|(says, numbers, _)| ours.starts_with(says) && numbers.contains(&number))
}

fn leaves_changes(ours: &str) -> bool {
    ours.starts_with("panic")
        && !REFUSALS.iter().any(|(says, _, leaves_changes)| ours.starts_with(says) && !leaves_changes)
}

/// What the Rust says, document 01's numbers for it, and whether it may leave changes behind.
const REFUSALS: [(&str, &[u32], bool); 19] = [
    ("harness: no volume is mounted", &[1], false),
    ("harness: handle", &[4], false),
    ("busy", &[15], false),
    ("none", &[5, 6, 7], false),
    ("err create: unmatched type.", &[8], false),
    ("err inode read: offset", &[9], false),
    ("err inode write: offset", &[9], false),
    ("panic buf unpin not match", &[2], false),
    ("panic attempt to subtract with overflow", &[3], false),
    ("panic log: this log write is out of recording", &[3], true),
    ("panic called `Option::unwrap()` on a `None` value", &[4, 5, 6, 7], false),
    ("panic inode bmap: out of range.", &[5, 10], true),
    ("panic inode: not enough", &[11], true),
    ("panic not enough inode to alloc", &[12], false),
    ("panic balloc: out of the block ranges.", &[13], true),
    ("panic log: not enough space", &[14], true),
    ("panic no usable buffer", &[16], false),
    ("panic invalid file system magic num", &[17], false),
    ("panic", &[5], true),
];
