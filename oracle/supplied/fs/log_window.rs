//! A window into log.rs: how many operations are open, the recorded blocks, and its static made new.

use super::*;

/// Open operations, and the recorded home blocks in the order of the log header.
pub fn recorded() -> (u32, Vec<u32>) {
    let log = LOG.acquire();
    (log.outstanding, log.lh.blocknos[..log.lh.len as usize].to_vec())
}

/// The log as at boot, before its `init`.
/// The whole static is written, locks and all, since a call that ended in a panic may have left them held.
/// It lies in writable memory (it has interior mutability), and nothing is optimised away at level 0.
pub unsafe fn as_at_boot() {
    ptr::write(ptr::addr_of!(LOG).cast_mut(), Spinlock::new(Log::uninit(), "log"));
}
