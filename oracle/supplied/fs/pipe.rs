//! Not published. fs/mod.rs names this type; no file of the oracle uses it.

pub struct Pipe;
