// A value that is published by a relaxed store.
use std::sync::atomic::{AtomicBool, Ordering};
use std::thread;

static mut VALUE: u64 = 0;
static READY: AtomicBool = AtomicBool::new(false);

fn main() {
    let other = thread::spawn(|| {
        unsafe { VALUE = 5 }; // RACE race_relaxed::VALUE
        READY.store(true, Ordering::Relaxed);
    });
    while !READY.load(Ordering::Acquire) {
        thread::yield_now();
    }
    let seen = unsafe { VALUE }; // RACE race_relaxed::VALUE
    other.join().unwrap();
    std::process::exit((seen != 5) as i32);
}
