//! Signals that two threads give one another.

use std::sync::atomic::{AtomicBool, Ordering};
use std::thread::sleep;
use std::time::{Clock, Duration};

/// Signals between a thread that holds something up and the thread beside it.
#[derive(Drop)]
pub struct Signals {
    /// The first thread has to wait from now on.
    pub armed: AtomicBool,
    /// The first thread has what the other asks for, and waits.
    pub entered: AtomicBool,
    /// The first thread may go on.
    pub answered: AtomicBool,
}

impl Signals {
    pub fn new() -> Signals {
        Signals {
            armed: AtomicBool::new(false),
            entered: AtomicBool::new(false),
            answered: AtomicBool::new(false),
        }
    }
}

/// Waits for a signal, ten seconds at most, and returns whether it came.
pub fn wait_for<R: Clock>(rt: &R, signal: &AtomicBool) -> bool {
    for _ in 0..1_000 {
        if signal.load(Ordering::SeqCst) {
            return true;
        }
        sleep(rt, Duration::from_millis(10));
    }
    false
}
