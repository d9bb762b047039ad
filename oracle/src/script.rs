//! Reads the script language of the comparison programs (REPLAY.md), one call a line, and writes one answer a line.
//!
//! Beyond that language there are four lines that only the oracle has, for what no call of it reaches:
//!   `record BLOCK OFFSET DATA`   changes a block in the cache and records it (the step inside every call)  `ok`
//!   `balloc`                     takes a block                                                             `ok block B`
//!   `isempty H`                  is_dir_empty                                                              `ok true`
//!   `trace`                      the block writes of the last mount or end that reached the card           `ok A,B,C`
//!
//! Answers of the published code that are no panic and yet a refusal: `err MESSAGE` for an Err, `none` for a None.

use std::collections::VecDeque;
use std::io::Write;
use std::mem;
use std::sync::atomic::{AtomicBool, Ordering};
use std::sync::Mutex;

use crate::arch::riscv::qemu::fs::{NBUF, ROOTDEV};
use crate::caught;
use crate::card::{self, BLOCK};
use crate::fs::window::{self, Stat};
use crate::fs::{self, Buf, Inode, InodeType, BCACHE, ICACHE, LOG};
use crate::process;

/// Longest read or data that a line may ask for: past the largest file, and small enough to hold.
const LONGEST: u32 = 1 << 20;
/// What a lent buffer holds before a read, to see which bytes were changed.
const LENT: u8 = 0xe5;

#[derive(PartialEq)]
enum Life {
    /// Before the first mount, and after a cut or a mount that failed.
    NoVolume,
    Mounted,
    /// The cache standing alone, after `cfresh`.
    CacheAlone,
}

pub struct Script {
    life: Life,
    /// The handles given since mount, as document 01 has them: a slot and an inode number.
    handles: Vec<(usize, u32)>,
    /// The Rust's own values behind them, one for each reference. A handle is good while one of these has its slot
    /// and inode number, whichever open gave it.
    live: Vec<Inode>,
    /// The handle that relative paths start from.
    cwd: Option<u32>,
    /// Buffers held by `cget`, by index.
    held: Vec<Option<Buf<'static>>>,
}

/// The lines not yet answered. Static, so that another thread can go on after a panic while unwinding.
static REST: Mutex<VecDeque<String>> = Mutex::new(VecDeque::new());
/// Set while a script is answered, and not while one is generated or compared.
pub static ANSWERING: AtomicBool = AtomicBool::new(false);

/// Answers a whole script on standard output.
pub fn run(text: &str) {
    ANSWERING.store(true, Ordering::Relaxed);
    REST.lock().unwrap().extend(text.lines().map(str::to_string));
    run_rest();
}

pub fn run_rest() {
    let mut script = Script::new();
    loop {
        let line = match REST.lock().unwrap().pop_front() {
            Some(line) => line,
            None => return,
        };
        if let Some(answer) = script.answer(&line) {
            // A reader that has gone away ends the run.
            if writeln!(std::io::stdout(), "{}", answer).is_err() {
                return;
            }
        }
    }
}

/// Ok is an answer of the file system, of whatever kind; Err says why the line itself could not be carried out.
type Answer = Result<String, String>;

impl Script {
    pub fn new() -> Self {
        Script {
            life: Life::NoVolume,
            handles: Vec::new(),
            live: Vec::new(),
            cwd: None,
            held: (0..NBUF).map(|_| None).collect(),
        }
    }

    /// The answer to one line; None for an empty line or a comment.
    pub fn answer(&mut self, line: &str) -> Option<String> {
        let text = line.split('#').next().unwrap();
        let words: Vec<&str> = text.split_whitespace().collect();
        if words.is_empty() {
            return None;
        }
        Some(self.carry_out(&words).unwrap_or_else(|why| format!("harness: {}", why)))
    }

    fn carry_out(&mut self, words: &[&str]) -> Answer {
        match *words {
            ["mkfs", size, ninodes, nlog] => self.mkfs(number(size)?, number(ninodes)?, number(nlog)?),
            ["load", file] => self.load(file),
            ["save", file] => {
                let saved = card::with(|card| std::fs::write(file, &card.image));
                saved.map(|_| "ok".to_string()).map_err(|why| format!("{}: {}", file, why))
            }
            ["poke", block, offset, bytes] => poke(number(block)?, number(offset)?, &data(bytes)?),
            ["peek", block, offset, count] => peek(number(block)?, number(offset)?, number(count)?),
            ["fillfree", byte] => {
                let byte = u8::from_str_radix(byte, 16).map_err(|_| format!("{} is no byte", byte))?;
                let filled = card::with(|card| card.fill_free(byte)).ok_or("the image has no bitmap")?;
                Ok(format!("ok {} blocks", filled))
            }
            ["sha"] => {
                let digest = card::with(|card| card.digest_outside_log()).ok_or("the image has no superblock")?;
                Ok(format!("ok {}", digest))
            }
            ["shaall"] => Ok(format!("ok {}", card::with(|card| sha256::hex_digest(&card.image)))),
            ["mount"] => Ok(self.mount(None)),
            ["mount", budget] => Ok(self.mount(Some(number(budget)? as usize))),
            ["cfresh"] => {
                self.start_anew();
                self.life = Life::CacheAlone;
                Ok("ok".to_string())
            }
            ["cget", block] => self.cache_get(number(block)?),
            ["crel", index] => self.cache_release(number(index)?),
            ["cpin", index] => self.cache_pin(number(index)?, |buf| unsafe { buf.pin() }),
            ["cunpin", index] => self.cache_pin(number(index)?, |buf| unsafe { buf.unpin() }),
            ["order"] => Ok(order()),
            ["trace"] => Ok(format!("ok {}", list_of(&card::with(|card| card.trace.clone())))),
            ["check"] => Err("check is the port's alone".to_string()),
            _ => self.volume_call(words),
        }
    }

    fn volume_call(&mut self, words: &[&str]) -> Answer {
        let known = [
            "begin", "end", "create", "open", "close", "cwd", "truncate", "write", "read", "stat", "list", "slots",
            "record", "balloc", "isempty",
        ];
        if !known.contains(&words[0]) {
            return Err(format!("no such line: {}", words.join(" ")));
        }
        if self.life != Life::Mounted {
            return Err("no volume is mounted".to_string());
        }
        match *words {
            ["begin"] => Ok(done(caught::call(|| LOG.begin_op()))),
            ["end"] => Ok(self.end(None)),
            ["end", budget] => Ok(self.end(Some(number(budget)? as usize))),
            ["create", name, kind] => self.create(name, kind, "0", "0"),
            ["create", name, kind, major, minor] => self.create(name, kind, major, minor),
            ["open", name] => {
                let bytes = path(name)?;
                self.lend_cwd();
                Ok(match caught::call(|| ICACHE.namei(&bytes)) {
                    Ok(Some(inode)) => self.given(inode),
                    Ok(None) => "none".to_string(),
                    Err(panicked) => panicked,
                })
            }
            ["close", handle] => self.close(number(handle)?),
            ["cwd", handle] => {
                let handle = number(handle)?;
                self.handle(handle)?;
                self.cwd = Some(handle);
                Ok("ok".to_string())
            }
            ["truncate", handle] => {
                let inode = self.handle(number(handle)?)?;
                Ok(done(caught::call(|| inode.lock().truncate(inode))))
            }
            ["write", handle, offset, bytes] => {
                let (inode, offset, bytes) = (self.handle(number(handle)?)?, number(offset)?, data(bytes)?);
                let wrote =
                    caught::call(|| inode.lock().write(false, bytes.as_ptr() as usize, offset, bytes.len() as u32));
                Ok(result(wrote, |count| format!("ok {}", count)))
            }
            ["read", handle, offset, count] => self.read(number(handle)?, number(offset)?, number(count)?),
            ["stat", handle] => {
                let inode = self.handle(number(handle)?)?;
                let mut stat = Stat::new();
                let seen = caught::call(|| inode.lock().stat(&mut stat));
                Ok(match seen {
                    Ok(()) => format!(
                        "ok inode {} kind {} nlink {} size {}",
                        stat.inum, stat.itype as u16, stat.nlink, stat.size
                    ),
                    Err(panicked) => panicked,
                })
            }
            ["list"] => {
                let (open, recorded) = window::recorded();
                Ok(format!("ok open {} recorded {}", open, list_of(&recorded)))
            }
            ["slots"] => {
                let slots = window::slots();
                let shown: Vec<String> =
                    slots.iter().map(|seen| format!("{}:{}*{}", seen.slot, seen.inum, seen.references)).collect();
                Ok(format!("ok {}", if shown.is_empty() { "-".to_string() } else { shown.join(" ") }))
            }
            ["record", block, offset, bytes] => record(number(block)?, number(offset)?, &data(bytes)?),
            ["balloc"] => Ok(match caught::call(|| window::balloc(ROOTDEV)) {
                Ok(block) => format!("ok block {}", block),
                Err(panicked) => panicked,
            }),
            ["isempty", handle] => {
                let inode = self.handle(number(handle)?)?;
                Ok(match caught::call(|| inode.lock().is_dir_empty()) {
                    Ok(empty) => format!("ok {}", empty),
                    Err(panicked) => panicked,
                })
            }
            _ => Err(format!("not so many words: {}", words.join(" "))),
        }
    }

    /// Makes every static as at boot. What was held before belongs to a machine that is gone, so it is
    /// forgotten: dropping it would give back references that the new tables never gave.
    fn start_anew(&mut self) {
        self.handles.clear();
        self.cwd = None;
        for inode in self.live.drain(..) {
            mem::forget(inode);
        }
        for buf in self.held.iter_mut() {
            mem::forget(buf.take());
        }
        unsafe {
            process::as_at_boot();
            window::as_at_boot();
        }
        card::with(|card| card.start_counting(None));
        self.life = Life::NoVolume;
    }

    fn mkfs(&mut self, size: u32, ninodes: u32, nlog: u32) -> Answer {
        self.start_anew();
        let layout = card::with(|card| card.format(size, ninodes, nlog)).ok_or("these numbers are not good")?;
        Ok(format!(
            "ok inodestart {} bmapstart {} data {} nblocks {}",
            layout.inodestart, layout.bmapstart, layout.data, layout.nblocks
        ))
    }

    fn load(&mut self, file: &str) -> Answer {
        let image = std::fs::read(file).map_err(|why| format!("{}: {}", file, why))?;
        self.start_anew();
        card::with(|card| card.image = image);
        Ok("ok".to_string())
    }

    fn mount(&mut self, budget: Option<usize>) -> String {
        self.start_anew();
        card::with(|card| card.start_counting(budget));
        match caught::call(|| unsafe { fs::init(ROOTDEV) }) {
            Ok(()) => {
                self.life = Life::Mounted;
                self.writes_or_cut(budget)
            }
            Err(panicked) => panicked,
        }
    }

    fn end(&mut self, budget: Option<usize>) -> String {
        card::with(|card| card.start_counting(budget));
        match caught::call(|| LOG.end_op()) {
            Ok(()) => self.writes_or_cut(budget),
            Err(panicked) => panicked,
        }
    }

    /// The answer of a mount or an end. After a cut there is no volume until the next mount.
    fn writes_or_cut(&mut self, budget: Option<usize>) -> String {
        let due = card::with(|card| card.asked);
        card::with(|card| card.lift_budget());
        match budget {
            Some(given) if given < due => {
                self.life = Life::NoVolume;
                format!("cut {}", given)
            }
            _ => format!("ok writes {}", due),
        }
    }

    fn create(&mut self, name: &str, kind: &str, major: &str, minor: &str) -> Answer {
        let bytes = path(name)?;
        let kind = match kind {
            "0" => InodeType::Empty,
            "1" => InodeType::Directory,
            "2" => InodeType::File,
            "3" => InodeType::Device,
            _ => return Err(format!("the Rust has no kind {}", kind)),
        };
        let signed = |word: &str| word.parse::<i16>().map_err(|_| format!("{} is no i16", word));
        let (major, minor) = (signed(major)?, signed(minor)?);
        self.lend_cwd();
        Ok(match caught::call(|| ICACHE.create(&bytes, kind, major, minor)) {
            Ok(Ok(inode)) => self.given(inode),
            Ok(Err(why)) => format!("err {}", why),
            Err(panicked) => panicked,
        })
    }

    fn given(&mut self, inode: Inode) -> String {
        let answer = format!("ok h {} inode {} slot {}", self.handles.len(), inode.inum, inode.index);
        self.handles.push((inode.index, inode.inum));
        self.live.push(inode);
        answer
    }

    /// The place in `live` of a value behind a handle.
    fn place(&self, number: u32) -> Result<usize, String> {
        let (slot, inum) =
            *self.handles.get(number as usize).ok_or_else(|| format!("handle {} was never given", number))?;
        self.live
            .iter()
            .position(|inode| inode.index == slot && inode.inum == inum)
            .ok_or_else(|| format!("handle {} is closed", number))
    }

    fn handle(&self, number: u32) -> Result<&Inode, String> {
        self.place(number).map(|place| &self.live[place])
    }

    /// Lends the process the directory that a relative path starts from, or takes it away where its handle is closed.
    fn lend_cwd(&self) {
        let start = self.cwd.and_then(|number| self.handle(number).ok());
        process::lend_cwd(start);
    }

    fn close(&mut self, number: u32) -> Answer {
        let place = self.place(number)?;
        let inode = self.live.remove(place);
        Ok(done(caught::call(|| drop(inode))))
    }

    fn read(&mut self, handle: u32, offset: u32, count: u32) -> Answer {
        if count > LONGEST {
            return Err(format!("a read of {} is more than this program lends", count));
        }
        let inode = self.handle(handle)?;
        // One block more than is lent, to see a write past its end too.
        let mut lent = vec![LENT; count as usize + BLOCK];
        let at = lent.as_mut_ptr() as usize;
        let read = caught::call(|| inode.lock().read(false, at, offset, count));
        let touched = |from: usize| if lent[from..].iter().all(|&byte| byte == LENT) { "" } else { " TOUCHED" };
        Ok(match read {
            Ok(Ok(count)) => format!("ok {} {}{}", count, shown(&lent[..count]), touched(count)),
            Ok(Err(why)) => format!("err {}{}", why, touched(0)),
            Err(panicked) => format!("{}{}", panicked, touched(0)),
        })
    }

    fn alone(&self) -> Result<(), String> {
        if self.life == Life::CacheAlone {
            Ok(())
        } else {
            Err("cfresh first".to_string())
        }
    }

    fn cache_get(&mut self, block: u32) -> Answer {
        self.alone()?;
        Ok(match caught::call(|| BCACHE.bread(ROOTDEV, block)) {
            Ok(buf) => {
                let index = window::index_of(&buf);
                self.held[index] = Some(buf);
                format!("ok index {}", index)
            }
            Err(panicked) => panicked,
        })
    }

    fn held(&mut self, index: u32) -> Result<&mut Option<Buf<'static>>, String> {
        self.alone()?;
        match self.held.get_mut(index as usize) {
            Some(buf) if buf.is_some() => Ok(buf),
            // In the Rust only the holder of a buffer can release, pin or unpin it.
            Some(_) => Err(format!("buffer {} is not held", index)),
            None => Err(format!("there is no buffer {}", index)),
        }
    }

    fn cache_release(&mut self, index: u32) -> Answer {
        let buf = self.held(index)?.take();
        Ok(done(caught::call(|| drop(buf))))
    }

    fn cache_pin(&mut self, index: u32, change: impl FnOnce(&Buf<'static>)) -> Answer {
        let buf = self.held(index)?.as_ref().unwrap();
        Ok(done(caught::call(|| change(buf))))
    }
}

fn done(outcome: Result<(), String>) -> String {
    match outcome {
        Ok(()) => "ok".to_string(),
        Err(panicked) => panicked,
    }
}

fn result<T>(outcome: Result<Result<T, &'static str>, String>, show: impl FnOnce(T) -> String) -> String {
    match outcome {
        Ok(Ok(value)) => show(value),
        Ok(Err(why)) => format!("err {}", why),
        Err(panicked) => panicked,
    }
}

/// Changes a block in the cache and records it, as every call does inside.
fn record(block: u32, offset: u32, bytes: &[u8]) -> Answer {
    let offset = offset as usize;
    if offset + bytes.len() > BLOCK {
        return Err("past the end of the block".to_string());
    }
    Ok(done(caught::call(|| {
        let mut buf = BCACHE.bread(ROOTDEV, block);
        let to = buf.raw_data_mut() as *mut u8;
        unsafe { std::ptr::copy(bytes.as_ptr(), to.add(offset), bytes.len()) };
        LOG.write(buf);
    })))
}

fn order() -> String {
    let shown: Vec<String> = window::order()
        .iter()
        .map(|seen| match (seen.block, seen.count) {
            (None, _) => format!("{}", seen.index),
            (Some(block), 0) => format!("{}:{}", seen.index, block),
            (Some(block), count) => format!("{}:{}*{}", seen.index, block, count),
        })
        .collect();
    shown.join(" ")
}

fn poke(block: u32, offset: u32, bytes: &[u8]) -> Answer {
    let at = block as usize * BLOCK + offset as usize;
    card::with(|card| match card.image.get_mut(at..at + bytes.len()) {
        Some(part) => {
            part.copy_from_slice(bytes);
            Ok("ok".to_string())
        }
        None => Err("past the end of the image".to_string()),
    })
}

fn peek(block: u32, offset: u32, count: u32) -> Answer {
    let at = block as usize * BLOCK + offset as usize;
    card::with(|card| match card.image.get(at..at + count as usize) {
        Some(part) => Ok(format!("ok {}", shown(part))),
        None => Err("past the end of the image".to_string()),
    })
}

fn number(word: &str) -> Result<u32, String> {
    word.parse().map_err(|_| format!("{} is no number", word))
}

/// BYTES of an answer: hex, or the digest of more than 64.
fn shown(bytes: &[u8]) -> String {
    if bytes.is_empty() {
        "-".to_string()
    } else if bytes.len() > 64 {
        format!("sha256:{}", sha256::hex_digest(bytes))
    } else {
        bytes.iter().map(|byte| format!("{:02x}", byte)).collect()
    }
}

fn list_of(blocks: &[u32]) -> String {
    if blocks.is_empty() {
        "-".to_string()
    } else {
        blocks.iter().map(u32::to_string).collect::<Vec<_>>().join(",")
    }
}

fn hex(word: &str) -> Result<Vec<u8>, String> {
    let bad = || format!("{} is no hex", word);
    if word.len() % 2 != 0 || !word.is_ascii() {
        return Err(bad());
    }
    (0..word.len()).step_by(2).map(|i| u8::from_str_radix(&word[i..i + 2], 16).map_err(|_| bad())).collect()
}

/// DATA: hex, `-`, `r:BB:N` or `p:S:N`.
fn data(word: &str) -> Result<Vec<u8>, String> {
    let parts: Vec<&str> = word.split(':').collect();
    let length = |word: &str| match number(word)? {
        count if count <= LONGEST => Ok(count as usize),
        _ => Err(format!("{} is more data than this program makes", word)),
    };
    match parts[..] {
        ["-"] => Ok(Vec::new()),
        ["r", byte, count] => {
            let byte = hex(byte)?;
            match byte[..] {
                [byte] => Ok(vec![byte; length(count)?]),
                _ => Err("r: wants one byte".to_string()),
            }
        }
        ["p", seed, count] => {
            let seed = number(seed)? as usize;
            Ok((0..length(count)?).map(|i| (31 * seed + 7 * i + i / 256) as u8).collect())
        }
        [digits] => hex(digits),
        _ => Err(format!("{} is no data", word)),
    }
}

/// PATH with the NUL that the Rust wants at its end.
fn path(word: &str) -> Result<Vec<u8>, String> {
    let mut bytes = match word {
        "''" => Vec::new(),
        _ => match word.strip_prefix("x:") {
            Some(digits) => hex(digits)?,
            None => word.as_bytes().to_vec(),
        },
    };
    bytes.push(0);
    Ok(bytes)
}
