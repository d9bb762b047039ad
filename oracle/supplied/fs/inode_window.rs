//! A window into inode.rs: the slots in use, and its static made new.

use super::*;

/// One slot of the inode table with references.
pub struct SlotSeen {
    pub slot: usize,
    pub inum: u32,
    pub references: usize,
}

pub fn slots() -> Vec<SlotSeen> {
    let meta = ICACHE.meta.acquire();
    (0..NINODE)
        .filter(|&slot| meta[slot].refs > 0)
        .map(|slot| SlotSeen { slot, inum: meta[slot].inum, references: meta[slot].refs })
        .collect()
}

/// The inode table as at boot. As in log_window.rs, the whole static is written.
pub unsafe fn as_at_boot() {
    write(ptr::addr_of!(ICACHE).cast_mut(), InodeCache::new());
}
