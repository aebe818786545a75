//! Messages of the modelled machine as safe functions, for programs over std: the five kinds of a send, receiving, and
//! returning. std's port for Xous keeps its own to itself.
//!
//! A server is a [`Server`], and what it receives is a [`Message`]. A client sends over a [`Connection`]; memory that is
//! sent is [`Pages`].
//!
//! On another system than Xous the crate compiles, so that `cargo test` of a package goes there too, and each call is
//! refused by [`Error::UnhandledSyscall`].
//!
//! # Unsafe code
//!
//! Each `unsafe` block says why it keeps Rust's rules as Miri has them: that a pointer may reach what it reaches
//! (provenance), and that no memory is written while a shared reference to it lives, or reached at all by others while an
//! exclusive one lives (aliasing). Pages come from the kernel, outside of what Rust allocates. Their addresses are numbers:
//! a pointer to them is made by `with_exposed_provenance`, and the kernel, as foreign code, reaches them by the same right.
//!
//! ```no_run
//! let server = xous::Server::create("echo".try_into().unwrap()).unwrap();
//! loop {
//!     if let xous::Message::BlockingScalar(asked) = server.receive().unwrap() {
//!         let [first, ..] = asked.words;
//!         asked.answer(first).unwrap();
//!     }
//! }
//! ```

mod call;
mod check;
#[cfg(not(target_os = "xous"))]
mod host;
mod message;
pub mod names;
mod pages;
mod send;
mod server;
pub mod timer;

pub use check::CHECK_FAILED;
#[doc(hidden)]
pub use check::end_by_check;
pub use message::{BlockingScalar, Lent, LentMut, Message, Moved, Scalar};
pub use pages::{PAGE_SIZE, Pages, console};
pub use send::{Answer, Connection, Returned};
pub use server::{Identifier, Server};
/// Why a call is refused, by the name of its number (docs/calls.md).
#[cfg(target_os = "xous")]
pub use std::os::xous::ffi::Error;

#[cfg(not(target_os = "xous"))]
pub use host::Error;

/// What a call answers.
pub type Result<T> = std::result::Result<T, Error>;
