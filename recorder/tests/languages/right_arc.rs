// Threads that share a value until the last of them drops it.
use std::sync::Arc;
use std::thread;

struct Shared(Vec<u64>);

impl Drop for Shared {
    fn drop(&mut self) {
        self.0[0] = 9;
    }
}

fn main() {
    let shared = Arc::new(Shared(vec![1, 2]));
    let threads: Vec<_> = (0..3)
        .map(|_| {
            let own = shared.clone();
            thread::spawn(move || own.0.iter().sum::<u64>())
        })
        .collect();
    drop(shared);
    let sum: u64 = threads.into_iter().map(|t| t.join().unwrap()).sum();
    std::process::exit((sum != 9) as i32);
}
