//! A script of cache steps in numbers, for a program that carries the list as bytes.
//!
//! One line a step: OP ARG ANSWER o0 o1 ... o29.
//! OP is 1 get, 2 release, 3 pin, 4 unpin; ARG is the block of a get and the index of the others; ANSWER is the
//! index that was used, or 255 where the step was refused; o0 to o29 are the buffers, most recently released first.

use crate::fs::window;
use crate::script::Script;

pub fn of_cache_steps(text: &str) -> String {
    let mut script = Script::new();
    let mut numbers = String::new();
    for line in text.lines() {
        let answer = match script.answer(line) {
            Some(answer) => answer,
            None => continue,
        };
        let words: Vec<&str> = line.split_whitespace().collect();
        let (op, argument) = match words[..] {
            ["cget", block] => (1, block),
            ["crel", index] => (2, index),
            ["cpin", index] => (3, index),
            ["cunpin", index] => (4, index),
            _ => continue,
        };
        let used = match answer.strip_prefix("ok index ") {
            Some(index) => index,
            None if answer == "ok" => argument,
            None if answer.starts_with("panic ") => "255",
            None => panic!("{}: {} has no form in numbers", line, answer),
        };
        numbers.push_str(&format!("{} {} {}", op, argument, used));
        for seen in window::order() {
            numbers.push_str(&format!(" {}", seen.index));
        }
        numbers.push('\n');
    }
    numbers
}
