//! Panics of the published code become answers.
//!
//! In the kernel a panic stops the machine. Here it unwinds: guards and handles that the call had taken are
//! dropped, and the next line of the script meets whatever the call left behind.

use std::cell::{Cell, RefCell};
use std::panic::{catch_unwind, AssertUnwindSafe};
use std::sync::atomic::Ordering;

use crate::process::WouldSleep;

thread_local! {
    static INSIDE: Cell<bool> = Cell::new(false);
    static UNWINDING: Cell<bool> = Cell::new(false);
    static MESSAGE: RefCell<String> = RefCell::new(String::new());
}

/// Runs a call of the published code. Err is the script's answer: `busy`, or `panic MESSAGE`.
pub fn call<T>(published: impl FnOnce() -> T) -> Result<T, String> {
    INSIDE.with(|inside| inside.set(true));
    let outcome = catch_unwind(AssertUnwindSafe(published));
    INSIDE.with(|inside| inside.set(false));
    UNWINDING.with(|unwinding| unwinding.set(false));
    outcome.map_err(|payload| {
        if payload.is::<WouldSleep>() {
            "busy".to_string()
        } else {
            MESSAGE.with(|message| format!("panic {}", message.borrow()))
        }
    })
}

/// Keeps the message of a panic, in one line, instead of printing it.
pub fn install() {
    std::panic::set_hook(Box::new(|info| {
        let message = match (info.payload().downcast_ref::<&str>(), info.payload().downcast_ref::<String>()) {
            (Some(text), _) => text.to_string(),
            (_, Some(text)) => text.clone(),
            _ => "would sleep".to_string(),
        }
        .replace('\n', " ");
        if !INSIDE.with(Cell::get) {
            eprintln!("oracle: {}", info);
            return;
        }
        if UNWINDING.with(|unwinding| unwinding.replace(true)) {
            let first = MESSAGE.with(|first| first.borrow().clone());
            go_on_elsewhere(&format!("panic {} AND WHILE UNWINDING {}", first, message));
        }
        MESSAGE.with(|kept| *kept.borrow_mut() = message);
    }));
}

/// A panic while another unwinds would end the process. This thread is given up as it stands, and another one
/// reads the rest of the script, with no volume until it mounts one. A script that is generated or compared ends there.
fn go_on_elsewhere(answer: &str) -> ! {
    if !crate::script::ANSWERING.load(Ordering::Relaxed) {
        eprintln!("oracle: {}", answer);
        std::process::exit(3);
    }
    std::println!("{}", answer);
    let done = std::thread::spawn(crate::script::run_rest).join();
    std::process::exit(if done.is_ok() { 0 } else { 1 });
}
