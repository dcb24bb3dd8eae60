//! Panics of the crate, caught without a word on the terminal.

use std::panic::{self, AssertUnwindSafe};
use std::sync::Once;
use std::sync::atomic::{AtomicBool, Ordering};

static ASKING_THE_CRATE: AtomicBool = AtomicBool::new(false);
static HOOK: Once = Once::new();

/// Only panics outside of the crate's calls are told.
fn install_hook() {
    let usual = panic::take_hook();
    panic::set_hook(Box::new(move |info| {
        if !ASKING_THE_CRATE.load(Ordering::Relaxed) {
            usual(info);
        }
    }));
}

/// The answer of a call, or nothing where it panics.
pub fn caught<T>(call: impl FnOnce() -> T) -> Option<T> {
    HOOK.call_once(install_hook);
    ASKING_THE_CRATE.store(true, Ordering::Relaxed);
    let answer = panic::catch_unwind(AssertUnwindSafe(call)).ok();
    ASKING_THE_CRATE.store(false, Ordering::Relaxed);
    answer
}
