//! Threads that wait for one lock. Two processes of this program have their locks at the same address.

use std::env;
use std::sync::Mutex;
use std::thread;

const THREADS: u32 = 4;
const ROUNDS: u32 = 5;

static COUNT: Mutex<u32> = Mutex::new(0);

fn main() {
    thread::scope(|scope| {
        for _ in 0..THREADS {
            scope.spawn(|| {
                for _ in 0..ROUNDS {
                    let mut count = COUNT.lock().unwrap();
                    let seen = *count;
                    // The others come to the lock meanwhile, and wait.
                    for _ in 0..5 {
                        thread::yield_now();
                    }
                    *count = seen + 1;
                }
            });
        }
    });
    let name = env::args().nth(1).unwrap_or_default();
    println!("{name}: {}", COUNT.lock().unwrap());
}
