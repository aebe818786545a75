//! Panics that are caught: one by `catch_unwind`, and one by the join of its thread. What was on the stack is dropped.

use std::panic::catch_unwind;
use std::thread;

struct Guard(&'static str);

impl Drop for Guard {
    fn drop(&mut self) {
        println!("{} is dropped", self.0);
    }
}

fn main() {
    let caught = catch_unwind(|| {
        let _guard = Guard("the guard of main");
        let numbers = [1, 2, 3];
        let place = numbers.len() + std::env::args().count();
        numbers[place]
    });
    println!("main: {}", if caught.is_err() { "caught" } else { "no panic" });

    let thread = thread::spawn(|| {
        let _guard = Guard("the guard of the thread");
        panic!("the thread gives up");
    });
    let reason = thread.join().unwrap_err();
    println!("main: {}", reason.downcast_ref::<&str>().unwrap());
}
