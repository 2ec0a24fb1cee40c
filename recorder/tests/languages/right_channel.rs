// What is sent through a channel is written before, and read after it is received, also where the receiver had to wait.
use std::sync::mpsc;
use std::thread;

fn main() {
    let (send, receive) = mpsc::channel::<Box<u64>>();
    let workers: Vec<_> = (0..2)
        .map(|worker| {
            let send = send.clone();
            thread::spawn(move || (0..10).for_each(|k| send.send(Box::new(worker * 10 + k)).unwrap()))
        })
        .collect();
    drop(send);
    let sum: u64 = receive.iter().map(|value| *value).sum();
    for worker in workers {
        worker.join().unwrap();
    }
    std::process::exit((sum != 190) as i32);
}
