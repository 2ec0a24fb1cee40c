// A mutable static that two threads count in.
use std::thread;

static mut COUNT: u64 = 0;

fn add() {
    for _ in 0..10 {
        unsafe { COUNT += 1 }; // RACE race_static::COUNT
    }
}

fn main() {
    let other = thread::spawn(add);
    add();
    other.join().unwrap();
}
