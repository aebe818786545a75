//! The client's side of a connection: the five kinds of a send.

use crate::call::{CONNECT, SEND_MESSAGE, TRY_CONNECT, TRY_SEND_MESSAGE, call, call_server, unknown_reply};
use crate::{Error, Identifier, Pages, Result};

const LEND_MUT: u32 = 1;
const LEND: u32 = 2;
const MOVE: u32 = 3;
const SCALAR: u32 = 4;
const BLOCKING_SCALAR: u32 = 5;

const SCALAR_1: u32 = 14;
const SCALAR_2: u32 = 15;
const MEMORY_RETURNED: u32 = 18;

/// What a blocking scalar is answered.
#[derive(Clone, Copy, Debug, PartialEq, Eq)]
pub enum Answer {
    One(u32),
    Two(u32, u32),
}

/// The two words with which lent pages come back.
#[derive(Clone, Copy, Debug, PartialEq, Eq)]
pub struct Returned {
    pub offset: u32,
    pub valid: u32,
}

/// A connection of this process to a server.
#[derive(Clone, Copy, Debug, PartialEq, Eq)]
pub struct Connection {
    number: u32,
    send: u32,
}

impl Connection {
    /// Connects to the server that has this identifier, and waits until one has it (Connect).
    pub fn to(identifier: Identifier) -> Result<Connection> {
        // SAFETY: the call reads and writes no memory.
        let reply = unsafe { call_server(CONNECT, identifier.0) }?;
        Ok(Connection::from_number(reply[1]))
    }

    /// Connects to the server that has this identifier; ServerNotFound where none has it (TryConnect).
    pub fn try_to(identifier: Identifier) -> Result<Connection> {
        // SAFETY: the call reads and writes no memory.
        let reply = unsafe { call_server(TRY_CONNECT, identifier.0) }?;
        Ok(Connection::from_number(reply[1]))
    }

    pub(crate) fn from_number(number: u32) -> Connection {
        Connection { number, send: SEND_MESSAGE }
    }

    /// The same connection, whose sends are refused by ServerQueueFull where all slots of the server are in use, and
    /// don't wait for one (TrySendMessage).
    pub fn trying(self) -> Connection {
        Connection { send: TRY_SEND_MESSAGE, ..self }
    }

    /// Sends numbers, and doesn't wait.
    pub fn scalar(self, id: u32, [w0, w1, w2, w3]: [u32; 4]) -> Result<()> {
        // SAFETY: the call reads and writes no memory.
        unsafe { call([self.send, self.number, SCALAR, id, w0, w1, w2, w3]) }.map(|_| ())
    }

    /// Sends numbers, and waits for the answer.
    pub fn blocking_scalar(self, id: u32, [w0, w1, w2, w3]: [u32; 4]) -> Result<Answer> {
        // SAFETY: the call reads and writes no memory.
        match unsafe { call([self.send, self.number, BLOCKING_SCALAR, id, w0, w1, w2, w3]) }? {
            [SCALAR_1, value, ..] => Ok(Answer::One(value)),
            [SCALAR_2, first, second, ..] => Ok(Answer::Two(first, second)),
            _ => unknown_reply(),
        }
    }

    /// Lends pages to read, and waits until they are back.
    pub fn lend(self, id: u32, pages: &Pages, words: Returned) -> Result<Returned> {
        // SAFETY: the server reads the pages, and nobody writes to them until the call is answered; `pages` is borrowed
        // shared for as long, and a read beside shared references is allowed.
        unsafe { self.send_memory(LEND, id, pages.span(), words) }
    }

    /// Lends pages to read and write, and waits until they are back.
    pub fn lend_mut(self, id: u32, pages: &mut Pages, words: Returned) -> Result<Returned> {
        // SAFETY: the server writes to the pages until the call is answered. `pages` is borrowed exclusively for as long,
        // and all references to its memory borrow it, so there is none: `span` makes none either.
        unsafe { self.send_memory(LEND_MUT, id, pages.span(), words) }
    }

    /// Sends the pages at an address, which is no reference: the server may write to them meanwhile.
    ///
    /// # Safety
    ///
    /// Until the call is answered there is no exclusive reference to the pages, and for a mutable lend none at all.
    unsafe fn send_memory(
        self,
        kind: u32,
        id: u32,
        (address, length): (usize, usize),
        Returned { offset, valid }: Returned,
    ) -> Result<Returned> {
        let (address, length) = (address as u32, length as u32);
        // SAFETY: the call reads and writes the pages alone, and what refers to them is as the caller says.
        match unsafe { call([self.send, self.number, kind, id, address, length, offset, valid]) }? {
            [MEMORY_RETURNED, offset, valid, ..] => Ok(Returned { offset, valid }),
            _ => unknown_reply(),
        }
    }

    /// Gives pages away, and doesn't wait. Where that is refused, they are here still.
    pub fn give(self, id: u32, pages: Pages, words: Returned) -> std::result::Result<(), (Error, Pages)> {
        let (address, length) = pages.into_parts();
        let Returned { offset, valid } = words;
        // SAFETY: the pages go, and no reference to them is left, since `pages` was passed by value.
        let reply = unsafe { call([self.send, self.number, MOVE, id, address as u32, length as u32, offset, valid]) };
        // SAFETY: a send that is refused changes nothing, so the pages are this process's, and nothing refers to them.
        reply.map(|_| ()).map_err(|error| (error, unsafe { Pages::from_parts(address, length) }))
    }
}

#[cfg(target_os = "xous")]
impl From<std::os::xous::ffi::Connection> for Connection {
    /// A connection by std, such as `std::os::xous::services::connect` makes by name.
    fn from(connection: std::os::xous::ffi::Connection) -> Connection {
        Connection::from_number(connection.into())
    }
}
