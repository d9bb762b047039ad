//! A window into superblock.rs: its static made new, so that `init` reads the card again.

use super::*;

pub unsafe fn as_at_boot() {
    SUPER_BLOCK = SuperBlock::uninit();
}
