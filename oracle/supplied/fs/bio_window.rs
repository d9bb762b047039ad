//! A window into bio.rs: the order of its list, and its static made new. A child module sees private parts.

use super::*;

/// One buffer as the list has it.
pub struct BufferSeen {
    pub index: usize,
    /// None while the buffer has never held a block (device 0 is no device).
    pub block: Option<u32>,
    pub count: usize,
}

/// The buffers from the head of the list (most recently released) to its tail.
pub fn order() -> Vec<BufferSeen> {
    let ctrl = BCACHE.ctrl.acquire();
    let mut seen = Vec::new();
    let mut at = ctrl.head;
    while let Some(buffer) = unsafe { at.as_ref() } {
        let block = if buffer.dev == 0 { None } else { Some(buffer.blockno) };
        seen.push(BufferSeen { index: buffer.index, block, count: buffer.refcnt });
        at = buffer.next;
    }
    seen
}

/// The buffer table as at boot. As in log_window.rs, the whole static is written.
pub unsafe fn as_at_boot() {
    ptr::write(ptr::addr_of!(BCACHE).cast_mut(), Bcache::new());
    BCACHE.binit();
}

/// The index of a buffer that is held.
pub fn index_of(buf: &Buf<'_>) -> usize {
    buf.index
}
