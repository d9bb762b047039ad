//! What the script reader needs of the file system beyond its public calls.

pub use super::bio::window::{index_of, order, BufferSeen};
pub use super::bitmap::balloc;
pub use super::inode::window::{slots, SlotSeen};
pub use super::log::window::recorded;
pub use super::stat::Stat;

/// Every static of the file system as at boot, before `init`.
/// The caller has let go of (or forgotten) every guard and handle taken before.
pub unsafe fn as_at_boot() {
    super::bio::window::as_at_boot();
    super::log::window::as_at_boot();
    super::inode::window::as_at_boot();
    super::superblock::window::as_at_boot();
}
