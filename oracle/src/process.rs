//! One processor with one process. With no other process to wake it, a sleep would never end: where the kernel
//! would sleep, this process panics with the marker `WouldSleep`, and the script's answer is `busy`.

use std::cell::UnsafeCell;
use std::sync::Arc;

use crate::fs::Inode;
use crate::lock::spinlock::{Spinlock, SpinlockGuard};

/// The payload of the panic that stands for a sleep.
pub struct WouldSleep;

pub struct Resources {
    /// Where a relative path starts. It is lent by the script's handle and not counted as a reference,
    /// since the port has only the handle. Hence never drop it: see `lend_cwd`.
    pub cwd: Option<Inode>,
}

pub struct ProcData {
    pub resources: Option<Arc<Spinlock<Resources>>>,
}

pub struct Process {
    pub data: UnsafeCell<ProcData>,
}

impl Process {
    fn new() -> Self {
        let resources = Arc::new(Spinlock::new(Resources { cwd: None }, "resources"));
        Process { data: UnsafeCell::new(ProcData { resources: Some(resources) }) }
    }

    pub fn sleep<T>(&self, _channel: usize, _guard: SpinlockGuard<'_, T>) {
        std::panic::panic_any(WouldSleep);
    }

    fn start_from(&mut self, handle: Option<&Inode>) {
        let lent = handle.map(|inode| Inode { dev: inode.dev, inum: inode.inum, index: inode.index });
        let resources = self.data.get_mut().resources.as_ref().unwrap().clone();
        let old = std::mem::replace(&mut resources.acquire().cwd, lent);
        std::mem::forget(old);
    }
}

pub struct CpuManager {
    process: Option<Process>,
}

pub static mut CPU_MANAGER: CpuManager = CpuManager { process: None };

impl CpuManager {
    pub unsafe fn myproc(&mut self) -> Option<&mut Process> {
        Some(self.process.get_or_insert_with(Process::new))
    }
}

/// The process as at boot: no directory to start from, and no lock held.
pub unsafe fn as_at_boot() {
    // Written over and not dropped: the directory in it is lent.
    std::ptr::write(&raw mut CPU_MANAGER.process, None);
}

/// Sets where relative paths of the one process start, as a copy that holds no reference of its own.
pub fn lend_cwd(handle: Option<&Inode>) {
    let process = unsafe { (*&raw mut CPU_MANAGER).myproc() };
    process.unwrap().start_from(handle);
}

pub struct ProcManager;

pub static mut PROC_MANAGER: ProcManager = ProcManager;

impl ProcManager {
    /// Nobody sleeps, so nobody is woken.
    pub unsafe fn wake_up(&self, _channel: usize) {}
}

/// There are no interrupts to hold off.
pub fn push_off() {}
pub fn pop_off() {}

/// The one processor.
pub unsafe fn cpuid() -> usize {
    0
}
