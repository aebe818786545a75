//! The timer of the machine: how many steps were done.

use crate::Result;
use crate::call::{CLAIM_INTERRUPT, call};

const INTERRUPT: u32 = 20;
const STEPS: *const u32 = std::ptr::without_provenance(0xf000_1000);

/// The timer, which one process at a time can have.
#[derive(Debug)]
pub struct Timer(());

/// Ends at once: the timer is read, and never armed.
extern "C" fn handle_nothing() {}

impl Timer {
    /// Claims the timer for this process, which keeps it to its end (ClaimInterrupt of 20).
    pub fn claim() -> Result<Timer> {
        let handler = handle_nothing as *const () as u32;
        // SAFETY: the call reads and writes no memory, and the handler, which may come at any time, none either.
        unsafe { call([CLAIM_INTERRUPT, INTERRUPT, handler, 0, 0, 0, 0, 0]) }?;
        Ok(Timer(()))
    }

    /// The steps that the machine has done.
    pub fn steps(&self) -> u32 {
        // SAFETY: the register is outside of all memory that Rust has, where a volatile load needs no provenance, and it is
        // there for a process that has claimed the timer, as whoever has a `Timer` did.
        unsafe { STEPS.read_volatile() }
    }
}
