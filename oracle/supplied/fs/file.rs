//! Not published. fs/mod.rs names these two types; no file of the oracle uses them.

pub struct VFile;
pub struct FileType;
