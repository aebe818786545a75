//! Adds by two threads to the tally, each a few times with a pause, and looks whether the sum is there.

use std::time::Duration;
use std::{process, thread};

use xous::{Answer, Connection};

const ADD: u32 = 1;
const GET: u32 = 2;
const THREADS: u32 = 2;
const TIMES: u32 = 3;

fn ask(tally: Connection, id: u32, amount: u32) -> xous::Result<u32> {
    match tally.blocking_scalar(id, [amount, 0, 0, 0])? {
        Answer::One(total) => Ok(total),
        other => panic!("the tally answers {other:?}"),
    }
}

fn add(tally: Connection) -> xous::Result<()> {
    for _ in 0..TIMES {
        ask(tally, ADD, 1)?;
        thread::sleep(Duration::from_millis(1));
    }
    Ok(())
}

fn main() -> xous::Result<()> {
    let tally = Connection::to("tally".try_into()?)?;
    let tellers: Vec<_> = (0..THREADS).map(|_| thread::spawn(move || add(tally))).collect();
    for teller in tellers {
        teller.join().unwrap()?;
    }
    let total = ask(tally, GET, 0)?;
    println!("total {total} of {}", THREADS * TIMES);
    process::exit(if total == THREADS * TIMES { 0 } else { 1 })
}
