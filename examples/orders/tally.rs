//! A server that adds up what it is sent, known as "tally". Two threads serve it.
//!
//! Each access to the total has the lock, and adding has it twice: what another thread adds in between is lost.

use std::sync::Mutex;
use std::thread;

use xous::{Message, Server};

const ADD: u32 = 1;

#[derive(Default)]
struct Tally {
    total: Mutex<u32>,
    journal: Mutex<Vec<String>>,
}

impl Tally {
    fn add(&self, amount: u32) -> u32 {
        let before = *self.total.lock().unwrap();
        let after = before + amount;
        self.journal.lock().unwrap().push(format!("{before} + {amount} = {after}"));
        *self.total.lock().unwrap() = after;
        after
    }

    fn serve(&self, server: &Server) -> xous::Result<()> {
        loop {
            if let Message::BlockingScalar(asked) = server.receive()? {
                let [amount, ..] = asked.words;
                let answer = if asked.id == ADD { self.add(amount) } else { *self.total.lock().unwrap() };
                asked.answer(answer)?;
            }
        }
    }
}

fn main() -> xous::Result<()> {
    let server = Server::create("tally".try_into()?)?;
    let tally = Tally::default();
    thread::scope(|scope| {
        let second = scope.spawn(|| tally.serve(&server));
        tally.serve(&server)?;
        second.join().unwrap()
    })
}
