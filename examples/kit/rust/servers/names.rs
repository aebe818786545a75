//! The name server: finds servers by name for `std::os::xous::services::connect` and `try_connect`.
//!
//! The name server of Xous makes a connection for its caller. Here nobody can make one for another process, so the
//! answer is the identifier, and the bridge connects (row 9 of docs/std.md).

use std::collections::BTreeMap;
use xous::names::{BLOCKING_CONNECT, IDENTIFIER_AT, LENGTH_AT, NAME_SERVER, REGISTER, TRY_CONNECT};
use xous::{LentMut, Message, Server};

/// The first words of an answer.
const FOUND: u32 = 0;
const UNKNOWN: u32 = 1;

type Name = Vec<u8>;
type Words = [u8; 16];

/// The name in a page, where it has one.
fn name_of(page: &[u8]) -> Option<Name> {
    let length = u32::from_le_bytes(*page[LENGTH_AT..].first_chunk()?);
    Some(page[..LENGTH_AT].get(..length as usize)?.to_vec())
}

/// Writes the answer into the page that asked, which goes back where it is dropped.
fn answer(mut page: LentMut, known: Option<&Words>) {
    let first = if known.is_some() { FOUND } else { UNKNOWN };
    page[..4].copy_from_slice(&first.to_le_bytes());
    page[4..20].copy_from_slice(known.unwrap_or(&[0; 16]));
}

fn main() -> xous::Result<()> {
    let server = Server::create(NAME_SERVER.try_into()?)?;
    let mut known: BTreeMap<Name, Words> = BTreeMap::new();
    let mut waiting: Vec<(Name, LentMut)> = Vec::new();
    loop {
        match server.receive()? {
            Message::Lend(page) if page.id == REGISTER => {
                if let (Some(name), Some(words)) = (name_of(&page), page[IDENTIFIER_AT..].first_chunk()) {
                    for (_, asked) in waiting.extract_if(.., |(wanted, _)| *wanted == name) {
                        answer(asked, Some(words));
                    }
                    known.insert(name, *words);
                }
            }
            Message::LendMut(page) if page.id == BLOCKING_CONNECT => match name_of(&page) {
                Some(name) if !known.contains_key(&name) => waiting.push((name, page)),
                name => answer(page, name.and_then(|name| known.get(&name))),
            },
            Message::LendMut(page) if page.id == TRY_CONNECT => {
                let name = name_of(&page);
                answer(page, name.and_then(|name| known.get(&name)));
            }
            _ => {}
        }
    }
}
