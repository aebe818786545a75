//! A server of text, which is known as "text". It takes all five kinds of messages.

use xous::{Message, Server};

fn main() -> xous::Result<()> {
    let server = Server::create("text".try_into()?)?;
    loop {
        match server.receive()? {
            // Turns the text into capitals, in the sender's page.
            Message::LendMut(mut page) => {
                let valid = page.valid;
                page[..valid as usize].make_ascii_uppercase();
                page.give_back(0, valid)?;
            }
            // Counts the words.
            Message::Lend(page) => {
                let words = page[..page.valid as usize].split(|byte| *byte == b' ').count();
                page.give_back(0, words as u32)?;
            }
            // Prints what is its own from now on.
            Message::Move(page) => println!("server: {}", String::from_utf8_lossy(&page[..page.valid as usize])),
            Message::BlockingScalar(asked) => {
                let sum = asked.words.iter().sum();
                asked.answer(sum)?;
            }
            Message::Scalar(_) => return Ok(()),
        }
    }
}
