//! Not published. fs/mod.rs names this list; no file of the oracle uses it.

pub static DEVICE_LIST: () = ();
