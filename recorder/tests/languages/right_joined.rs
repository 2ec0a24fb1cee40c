// Each thread of a scope has a part of its own, and all are joined before the whole is read.
use std::thread;

fn main() {
    let mut data = vec![0u64; 64];
    thread::scope(|scope| {
        let add = |part: &mut [u64]| part.iter_mut().for_each(|x| *x += 1);
        let threads: Vec<_> = data.chunks_mut(16).map(|part| scope.spawn(move || add(part))).collect();
        for thread in threads {
            thread.join().unwrap();
        }
    });
    std::process::exit((data.iter().sum::<u64>() != 64) as i32);
}
