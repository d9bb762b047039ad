//! The kernel's memory copies. Only kernel addresses are known here: there is no user address space.

use std::ptr;

pub fn copy_to_kernel(dst: *mut u8, is_user: bool, src: usize, len: usize) -> Result<(), &'static str> {
    assert!(!is_user);
    unsafe { ptr::copy(src as *const u8, dst, len) };
    Ok(())
}

pub fn copy_from_kernel(is_user: bool, dst: usize, src: *const u8, len: usize) -> Result<(), &'static str> {
    assert!(!is_user);
    unsafe { ptr::copy(src, dst as *mut u8, len) };
    Ok(())
}
