//! The server's side of a connection.

use crate::call::{
    CREATE_SERVER_WITH_ADDRESS, DESTROY_SERVER, RECEIVE_MESSAGE, TRY_RECEIVE_MESSAGE, call_server, unknown_reply,
};
use crate::{Connection, Error, Message, Result};

/// The four words by which a server is known. A name of 1 to 16 bytes is one: its bytes, then zeros.
#[derive(Clone, Copy, Debug, PartialEq, Eq, PartialOrd, Ord)]
pub struct Identifier(pub [u32; 4]);

impl TryFrom<&str> for Identifier {
    type Error = Error;

    fn try_from(name: &str) -> Result<Identifier> {
        let mut bytes = [0; 16];
        if name.is_empty() || name.len() > bytes.len() {
            return Err(Error::InvalidString);
        }
        bytes[..name.len()].copy_from_slice(name.as_bytes());
        let mut words = [0; 4];
        for (word, part) in words.iter_mut().zip(bytes.as_chunks::<4>().0) {
            *word = u32::from_le_bytes(*part);
        }
        Ok(Identifier(words))
    }
}

/// A server of this process. It is destroyed when it is dropped.
#[derive(Debug)]
pub struct Server {
    identifier: Identifier,
    connection: Connection,
}

impl Server {
    /// A new server, known by `identifier` (CreateServerWithAddress).
    pub fn create(identifier: Identifier) -> Result<Server> {
        // SAFETY: the call reads and writes no memory.
        let reply = unsafe { call_server(CREATE_SERVER_WITH_ADDRESS, identifier.0) }?;
        Ok(Server { identifier, connection: Connection::from_number(reply[5]) })
    }

    /// The connection of this process to it.
    pub fn connection(&self) -> Connection {
        self.connection
    }

    /// By what it is known.
    pub fn identifier(&self) -> Identifier {
        self.identifier
    }

    /// The oldest message, which is waited for (ReceiveMessage).
    pub fn receive(&self) -> Result<Message<'_>> {
        // SAFETY: pages come to places of this process that had none, so that no reference to them is there.
        let reply = unsafe { call_server(RECEIVE_MESSAGE, self.identifier.0) }?;
        Message::of(reply).map_or_else(unknown_reply, Ok)
    }

    /// The oldest message, or none where there is none (TryReceiveMessage).
    pub fn try_receive(&self) -> Result<Option<Message<'_>>> {
        // SAFETY: as in `receive`.
        let reply = unsafe { call_server(TRY_RECEIVE_MESSAGE, self.identifier.0) }?;
        Ok(Message::of(reply))
    }
}

impl Drop for Server {
    fn drop(&mut self) {
        // SAFETY: pages that are lent to the server go. Each message with such pages borrows it, so none is left, nor a
        // reference to their pages.
        let _ = unsafe { call_server(DESTROY_SERVER, self.identifier.0) };
    }
}
