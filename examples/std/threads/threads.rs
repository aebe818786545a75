//! Threads that share a lock and a condition, and send what they did over a channel.

use std::sync::{Arc, Condvar, Mutex, mpsc};
use std::thread;

const WORKERS: u32 = 3;

fn main() {
    let begun = Arc::new((Mutex::new(0), Condvar::new()));
    let (sender, sums) = mpsc::channel();
    let workers: Vec<_> = (1..=WORKERS)
        .map(|number| {
            let (begun, sender) = (Arc::clone(&begun), sender.clone());
            thread::spawn(move || {
                // Nobody goes on before all have begun.
                let (count, changed) = &*begun;
                let mut count = count.lock().unwrap();
                *count += 1;
                changed.notify_all();
                let _all = changed.wait_while(count, |count| *count < WORKERS).unwrap();
                sender.send((number, (1..=10 * number).sum::<u32>())).unwrap();
            })
        })
        .collect();
    drop(sender);

    let mut received: Vec<_> = sums.iter().collect();
    received.sort();
    for (number, sum) in received {
        println!("worker {number}: {sum}");
    }
    for worker in workers {
        worker.join().unwrap();
    }
    println!("{} workers began, and all are joined", begun.0.lock().unwrap());
}
