//! What a server receives, and how it answers.
//!
//! A lend, a mutable lend or a blocking scalar that is dropped is answered too, with zeros, so that no sender waits for
//! ever. Each message borrows its server: pages that were lent to it are there no longer than the server.

use crate::call::{RETURN_MEMORY, RETURN_SCALAR_1, RETURN_SCALAR_2, UNMAP_MEMORY, call};
use crate::{Result, Server};
use std::marker::PhantomData;
use std::mem::ManuallyDrop;
use std::ops::{Deref, DerefMut};
use std::{ptr, slice};

const MESSAGE: u32 = 9;

/// A message, by its kind.
#[derive(Debug)]
pub enum Message<'server> {
    LendMut(LentMut<'server>),
    Lend(Lent<'server>),
    Move(Moved),
    Scalar(Scalar),
    BlockingScalar(BlockingScalar<'server>),
}

impl Message<'_> {
    /// The message of a reply, where it has one.
    pub(crate) fn of(reply: [u32; 8]) -> Option<Self> {
        let [MESSAGE, token, kind, id, words @ ..] = reply else {
            return None;
        };
        let server = PhantomData;
        let memory = || Memory { token, address: words[0] as usize, length: words[1] as usize, server };
        let [_, _, offset, valid] = words;
        Some(match kind {
            1 => Message::LendMut(LentMut { id, offset, valid, memory: memory() }),
            2 => Message::Lend(Lent { id, offset, valid, memory: memory() }),
            3 => Message::Move(Moved { id, offset, valid, address: words[0] as usize, length: words[1] as usize }),
            4 => Message::Scalar(Scalar { id, words }),
            5 => Message::BlockingScalar(BlockingScalar { id, words, token, server }),
            _ => return None,
        })
    }

    /// The id that the sender gave it.
    pub fn id(&self) -> u32 {
        match self {
            Message::LendMut(lent) => lent.id,
            Message::Lend(lent) => lent.id,
            Message::Move(moved) => moved.id,
            Message::Scalar(scalar) => scalar.id,
            Message::BlockingScalar(asked) => asked.id,
        }
    }
}

/// Numbers whose sender doesn't wait.
#[derive(Debug)]
pub struct Scalar {
    pub id: u32,
    pub words: [u32; 4],
}

/// Numbers whose sender waits for one or two numbers.
#[derive(Debug)]
pub struct BlockingScalar<'server> {
    pub id: u32,
    pub words: [u32; 4],
    token: u32,
    server: PhantomData<&'server Server>,
}

impl BlockingScalar<'_> {
    /// Answers one number (ReturnScalar1).
    pub fn answer(self, value: u32) -> Result<()> {
        self.return_scalar([RETURN_SCALAR_1, value, 0])
    }

    /// Answers two numbers (ReturnScalar2).
    pub fn answer_two(self, first: u32, second: u32) -> Result<()> {
        self.return_scalar([RETURN_SCALAR_2, first, second])
    }

    fn return_scalar(self, [number, first, second]: [u32; 3]) -> Result<()> {
        let token = ManuallyDrop::new(self).token;
        // SAFETY: the call reads and writes no memory.
        unsafe { call([number, token, first, second, 0, 0, 0, 0]) }.map(|_| ())
    }
}

impl Drop for BlockingScalar<'_> {
    fn drop(&mut self) {
        // SAFETY: the call reads and writes no memory.
        let _ = unsafe { call([RETURN_SCALAR_1, self.token, 0, 0, 0, 0, 0, 0]) };
    }
}

/// Pages that are lent to this process.
#[derive(Debug)]
struct Memory<'server> {
    token: u32,
    address: usize,
    length: usize,
    server: PhantomData<&'server Server>,
}

impl Memory<'_> {
    fn bytes(&self) -> &[u8] {
        // SAFETY: provenance: the pages are the kernel's, and their address is exposed. They are here until they are
        // returned, which takes `self`. Aliasing: `self` is borrowed shared, the sender waits, and its other threads can
        // read lent pages, but not write to them.
        unsafe { slice::from_raw_parts(ptr::with_exposed_provenance(self.address), self.length) }
    }

    fn give_back(self, offset: u32, valid: u32) -> Result<()> {
        ManuallyDrop::new(self).return_memory(offset, valid)
    }

    /// Ends the loan; nothing may refer to the pages any more.
    fn return_memory(&self, offset: u32, valid: u32) -> Result<()> {
        let (address, length) = (self.address as u32, self.length as u32);
        // SAFETY: the pages go, and no reference to them is left, since each borrows `self`, which nobody uses after this.
        unsafe { call([RETURN_MEMORY, self.token, address, length, offset, valid, 0, 0]) }.map(|_| ())
    }
}

impl Drop for Memory<'_> {
    fn drop(&mut self) {
        let _ = self.return_memory(0, 0);
    }
}

/// Pages to read. Their sender waits until they are given back.
#[derive(Debug)]
pub struct Lent<'server> {
    pub id: u32,
    pub offset: u32,
    pub valid: u32,
    memory: Memory<'server>,
}

impl Lent<'_> {
    /// Gives the pages back, with two words (ReturnMemory).
    pub fn give_back(self, offset: u32, valid: u32) -> Result<()> {
        self.memory.give_back(offset, valid)
    }
}

impl Deref for Lent<'_> {
    type Target = [u8];

    fn deref(&self) -> &[u8] {
        self.memory.bytes()
    }
}

/// Pages to read and write. Their sender waits, and can't reach them, until they are given back.
#[derive(Debug)]
pub struct LentMut<'server> {
    pub id: u32,
    pub offset: u32,
    pub valid: u32,
    memory: Memory<'server>,
}

impl LentMut<'_> {
    /// Gives the pages back, with two words (ReturnMemory).
    pub fn give_back(self, offset: u32, valid: u32) -> Result<()> {
        self.memory.give_back(offset, valid)
    }
}

impl Deref for LentMut<'_> {
    type Target = [u8];

    fn deref(&self) -> &[u8] {
        self.memory.bytes()
    }
}

impl DerefMut for LentMut<'_> {
    fn deref_mut(&mut self) -> &mut [u8] {
        let Memory { address, length, .. } = self.memory;
        // SAFETY: provenance as in `Memory::bytes`; a page that is lent mutably has the right to write. Aliasing: `self` is
        // borrowed exclusively, and the sender's process can't reach the pages until they are back.
        unsafe { slice::from_raw_parts_mut(ptr::with_exposed_provenance_mut(address), length) }
    }
}

/// Pages that are this process's now, to read: their former owner may have had no right to write. They are unmapped when
/// they are dropped.
#[derive(Debug)]
pub struct Moved {
    pub id: u32,
    pub offset: u32,
    pub valid: u32,
    address: usize,
    length: usize,
}

impl Deref for Moved {
    type Target = [u8];

    fn deref(&self) -> &[u8] {
        // SAFETY: provenance: the pages are the kernel's, and their address is exposed. They are this process's alone now.
        // Aliasing: `self` is borrowed shared, and nothing writes to them.
        unsafe { slice::from_raw_parts(ptr::with_exposed_provenance(self.address), self.length) }
    }
}

impl Drop for Moved {
    fn drop(&mut self) {
        // SAFETY: the pages go, and no reference to them is left, since each borrows `self`.
        let _ = unsafe { call([UNMAP_MEMORY, self.address as u32, self.length as u32, 0, 0, 0, 0, 0]) };
    }
}
