//! The card: an image in memory, a budget of block writes, and a trace of those that reached it.
//! Also what the script does to an image from outside the file system: format it, look at it, change it.

use std::sync::Mutex;


pub const BLOCK: usize = 1024;
const MAGIC: u32 = 0x10203040;
const INODES_PER_BLOCK: u32 = 16;
const BITS_PER_BLOCK: u32 = 8192;

pub struct Card {
    pub image: Vec<u8>,
    /// How many block writes still reach the card; None is no limit.
    budget: Option<usize>,
    /// Writes asked for since counting began, whether or not they reached the card.
    pub asked: usize,
    /// The blocks whose writes reached the card since counting began.
    pub trace: Vec<u32>,
}

static CARD: Mutex<Card> = Mutex::new(Card { image: Vec::new(), budget: None, asked: 0, trace: Vec::new() });

/// Runs `use_it` on the one card. It must not panic, so that the lock stays good.
pub fn with<R>(use_it: impl FnOnce(&mut Card) -> R) -> R {
    use_it(&mut CARD.lock().unwrap())
}

/// Where the parts of a volume lie, as document 01's rule for a good superblock says.
pub struct Layout {
    pub inodestart: u32,
    pub bmapstart: u32,
    pub data: u32,
    pub nblocks: u32,
}

impl Layout {
    pub fn of(size: u32, ninodes: u32, nlog: u32) -> Option<Layout> {
        if !(12..=30).contains(&nlog) || !(2..=65535).contains(&ninodes) || size > 8191 {
            return None;
        }
        let inodestart = 2 + nlog;
        let bmapstart = inodestart + ninodes / INODES_PER_BLOCK + 1;
        let data = bmapstart + size / BITS_PER_BLOCK + 1;
        if size <= data {
            return None;
        }
        Some(Layout { inodestart, bmapstart, data, nblocks: size - data })
    }
}

impl Card {
    /// Starts counting writes; from now on the first `budget` of them reach the card.
    pub fn start_counting(&mut self, budget: Option<usize>) {
        self.budget = budget;
        self.asked = 0;
        self.trace.clear();
    }

    /// Lifts the budget and keeps the counts, once a mount or an end is over.
    pub fn lift_budget(&mut self) {
        self.budget = None;
    }

    fn part(&self, block: u32) -> Option<std::ops::Range<usize>> {
        let start = block as usize * BLOCK;
        if start + BLOCK <= self.image.len() {
            Some(start..start + BLOCK)
        } else {
            None
        }
    }

    /// False where the card has no such block.
    pub fn read(&mut self, block: u32, into: &mut [u8]) -> bool {
        match self.part(block) {
            Some(part) => {
                into.copy_from_slice(&self.image[part]);
                true
            }
            None => false,
        }
    }

    /// False where the card has no such block. A write past the budget is lost and nobody is told.
    pub fn write(&mut self, block: u32, from: &[u8]) -> bool {
        let part = match self.part(block) {
            Some(part) => part,
            None => return false,
        };
        self.asked += 1;
        if self.budget.map_or(true, |budget| self.asked <= budget) {
            self.image[part].copy_from_slice(from);
            self.trace.push(block);
        }
        true
    }

    /// The image that mkfs makes with no files: a root of one block, everything else zero.
    pub fn format(&mut self, size: u32, ninodes: u32, nlog: u32) -> Option<Layout> {
        let layout = Layout::of(size, ninodes, nlog)?;
        self.image = vec![0; size as usize * BLOCK];
        let numbers =
            [MAGIC, size, layout.nblocks, ninodes, nlog, 2, layout.inodestart, layout.bmapstart];
        for (i, number) in numbers.iter().enumerate() {
            self.put(BLOCK + 4 * i, &number.to_le_bytes());
        }
        // Inode 1: a directory with one link, 1,024 bytes, and one block at the start of the data.
        let root = layout.inodestart as usize * BLOCK + 64;
        self.put(root, &1u16.to_le_bytes());
        self.put(root + 6, &1u16.to_le_bytes());
        self.put(root + 8, &(BLOCK as u32).to_le_bytes());
        self.put(root + 12, &layout.data.to_le_bytes());
        let entries = layout.data as usize * BLOCK;
        self.put(entries, &[1, 0, b'.']);
        self.put(entries + 16, &[1, 0, b'.', b'.']);
        for used in 0..=layout.data as usize {
            self.image[layout.bmapstart as usize * BLOCK + used / 8] |= 1 << (used % 8);
        }
        Some(layout)
    }

    fn put(&mut self, at: usize, bytes: &[u8]) {
        self.image[at..at + bytes.len()].copy_from_slice(bytes);
    }

    /// Number `index` of the superblock, in the order magic, size, nblocks, ninodes, nlog, logstart, inodestart, bmapstart.
    fn super_number(&self, index: usize) -> Option<usize> {
        let at = BLOCK + 4 * index;
        let bytes = self.image.get(at..at + 4)?;
        Some(u32::from_le_bytes([bytes[0], bytes[1], bytes[2], bytes[3]]) as usize)
    }

    /// Fills every block whose bit is clear, and says how many there were.
    pub fn fill_free(&mut self, byte: u8) -> Option<usize> {
        let bitmap = self.super_number(7)?.checked_mul(BLOCK)?;
        let mut filled = 0;
        for block in 0..self.image.len() / BLOCK {
            let bits = *self.image.get(bitmap + block / 8)?;
            if bits & (1 << (block % 8)) == 0 {
                self.image[block * BLOCK..(block + 1) * BLOCK].fill(byte);
                filled += 1;
            }
        }
        Some(filled)
    }

    /// The digest of the blocks outside the log, in order.
    pub fn digest_outside_log(&self) -> Option<String> {
        let (nlog, logstart) = (self.super_number(4)?, self.super_number(5)?);
        let from = logstart.checked_mul(BLOCK)?.min(self.image.len());
        let to = logstart.checked_add(nlog)?.checked_mul(BLOCK)?.min(self.image.len());
        Some(sha256::hex_digest(&[&self.image[..from], &self.image[to..]].concat()))
    }
}
