//! The log server: what std writes to standard output and standard error, and what it says of a panic, goes to the
//! console. It is the only process with the console's page.
//!
//! The messages are those of std's `os/xous/services/log.rs`.

use std::ops::RangeInclusive;
use xous::{Message, Server};

/// Scalars with up to 16 bytes of a panic's text; the id says how many.
const PANIC_TEXT: RangeInclusive<u32> = 1100..=1116;

fn main() -> xous::Result<()> {
    let server = Server::create("xous-log-server ".try_into()?)?;
    let mut write = xous::console()?;
    loop {
        match server.receive()? {
            // Both streams, ids 1 and 2. The page goes back where it is dropped.
            Message::Lend(text) => text.iter().take(text.valid as usize).copied().for_each(&mut write),
            Message::Scalar(part) if PANIC_TEXT.contains(&part.id) => {
                let length = (part.id - PANIC_TEXT.start()) as usize;
                part.words.iter().flat_map(|word| word.to_le_bytes()).take(length).for_each(&mut write);
            }
            // 1000 says that a panic begins; its text says so too.
            _ => {}
        }
    }
}
