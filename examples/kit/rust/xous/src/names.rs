//! The kit's name server: servers that are found by a name of up to 64 bytes.
//!
//! std's port asks it as that of Xous (`std::os::xous::services::connect`); how a server is made known to it is the
//! kit's own. A page that is lent to it has the name, its length and, where it is made known, the identifier.

use crate::{Connection, Error, Identifier, Pages, Result, Returned};

/// By what the name server is known.
pub const NAME_SERVER: &str = "xous-name-server";
/// The id of the message that makes a name known, by a lend.
pub const REGISTER: u32 = 0;
/// The id of std's message that waits for a name, by a mutable lend.
pub const BLOCKING_CONNECT: u32 = 6;
/// The id of std's message that asks for a name, by a mutable lend.
pub const TRY_CONNECT: u32 = 7;
/// Where the length of the name stands, behind the name.
pub const LENGTH_AT: usize = 64;
/// Where the four words of the identifier stand.
pub const IDENTIFIER_AT: usize = 68;

/// Makes a server known by a name, in place of any that had it.
pub fn register(name: &str, identifier: Identifier) -> Result<()> {
    if name.is_empty() || name.len() > LENGTH_AT {
        return Err(Error::InvalidString);
    }
    let mut page = Pages::new(1)?;
    page[..name.len()].copy_from_slice(name.as_bytes());
    page[LENGTH_AT..][..4].copy_from_slice(&(name.len() as u32).to_le_bytes());
    for (bytes, word) in page[IDENTIFIER_AT..].chunks_exact_mut(4).zip(identifier.0) {
        bytes.copy_from_slice(&word.to_le_bytes());
    }
    let words = Returned { offset: 0, valid: name.len() as u32 };
    Connection::to(NAME_SERVER.try_into()?)?.lend(REGISTER, &page, words)?;
    Ok(())
}
