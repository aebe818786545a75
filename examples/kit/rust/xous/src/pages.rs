//! Whole pages of memory, which is what messages carry.

use crate::Result;
use crate::call::{MAP_MEMORY, UNMAP_MEMORY, call};
use std::mem::ManuallyDrop;
use std::ops::{Deref, DerefMut};
use std::{ptr, slice};

/// The bytes of a page.
pub const PAGE_SIZE: usize = 4096;

const READ_WRITE: u32 = 2 | 4;
const CONSOLE: u32 = 0xf000_0000;

/// Pages of this process that nobody else refers to. They are unmapped when they are dropped.
pub struct Pages {
    address: usize,
    length: usize,
}

impl Pages {
    /// So many new pages of zeros (MapMemory).
    pub fn new(count: usize) -> Result<Pages> {
        let length = count.saturating_mul(PAGE_SIZE);
        // SAFETY: the pages are new, so that no reference to them is there.
        let reply = unsafe { call([MAP_MEMORY, 0, 0, length as u32, READ_WRITE, 0, 0, 0]) }?;
        Ok(Pages { address: reply[1] as usize, length })
    }

    /// Pages that came to this process.
    ///
    /// # Safety
    ///
    /// They are pages of this process, with the right to write, and nothing else refers to them.
    pub(crate) unsafe fn from_parts(address: usize, length: usize) -> Pages {
        Pages { address, length }
    }

    /// Address and length of the pages, for a call that lends them. No reference to them is made.
    pub(crate) fn span(&self) -> (usize, usize) {
        (self.address, self.length)
    }

    /// Address and length of the pages, which aren't unmapped any more.
    pub(crate) fn into_parts(self) -> (usize, usize) {
        let kept = ManuallyDrop::new(self);
        (kept.address, kept.length)
    }
}

impl Deref for Pages {
    type Target = [u8];

    fn deref(&self) -> &[u8] {
        // SAFETY: provenance: the pages are the kernel's, and their address is exposed. They are there as long as `self`
        // is, and each byte has a value. Aliasing: `self` is borrowed shared, so `deref_mut` and `lend_mut`, which take it
        // exclusively, can't write meanwhile; a lend that the server reads is beside a shared reference.
        unsafe { slice::from_raw_parts(ptr::with_exposed_provenance(self.address), self.length) }
    }
}

impl DerefMut for Pages {
    fn deref_mut(&mut self) -> &mut [u8] {
        // SAFETY: provenance as in `deref`; a page of `Pages` has the right to write. Aliasing: `self` is borrowed
        // exclusively, and `Pages` is all that refers to its pages.
        unsafe { slice::from_raw_parts_mut(ptr::with_exposed_provenance_mut(self.address), self.length) }
    }
}

impl Drop for Pages {
    fn drop(&mut self) {
        // SAFETY: the pages go, and no reference to them is left, since each borrows `self`. They can't be on loan: a
        // lend borrows `self` until they are back.
        let _ = unsafe { call([UNMAP_MEMORY, self.address as u32, self.length as u32, 0, 0, 0, 0, 0]) };
    }
}

/// The console, as a function that writes a byte. One process at a time can have it.
pub fn console() -> Result<impl FnMut(u8)> {
    // SAFETY: the page is new to this process, so that no reference to it is there.
    let reply = unsafe { call([MAP_MEMORY, CONSOLE, 0, PAGE_SIZE as u32, READ_WRITE, 0, 0, 0]) }?;
    let place = ptr::with_exposed_provenance_mut::<u8>(reply[1] as usize);
    // SAFETY: provenance: the console's page is the kernel's, and stays mapped; its first byte takes what is written.
    // Aliasing: no reference to it is ever made, and a volatile store through a raw pointer needs none.
    Ok(move |byte| unsafe { place.write_volatile(byte) })
}
