//! One system call: eight words there and back.

use crate::Result;

pub(crate) const MAP_MEMORY: u32 = 2;
pub(crate) const CLAIM_INTERRUPT: u32 = 5;
pub(crate) const CREATE_SERVER_WITH_ADDRESS: u32 = 14;
pub(crate) const RECEIVE_MESSAGE: u32 = 15;
pub(crate) const SEND_MESSAGE: u32 = 16;
pub(crate) const CONNECT: u32 = 17;
pub(crate) const UNMAP_MEMORY: u32 = 19;
pub(crate) const RETURN_MEMORY: u32 = 20;
#[cfg(target_os = "xous")]
pub(crate) const TERMINATE_PROCESS: u32 = 22;
pub(crate) const TRY_SEND_MESSAGE: u32 = 24;
pub(crate) const TRY_CONNECT: u32 = 25;
pub(crate) const RETURN_SCALAR_1: u32 = 26;
pub(crate) const RETURN_SCALAR_2: u32 = 27;
pub(crate) const TRY_RECEIVE_MESSAGE: u32 = 28;
pub(crate) const DESTROY_SERVER: u32 = 41;

const ERROR: u32 = 1;

/// The reply to a call, or its refusal. Away from the machine every call is refused by UnhandledSyscall.
///
/// # Safety
///
/// A call can read and write memory of this process, and take pages away or bring some. Of this, what the call does has
/// to be allowed to code that Rust can't see: it may reach the memory whose address was exposed, as all memory of `Pages`
/// is, and no memory that a reference has for itself meanwhile; and no reference may stay to pages that go.
pub(crate) unsafe fn call(words: [u32; 8]) -> Result<[u32; 8]> {
    // SAFETY: as the caller says.
    let reply = unsafe { trap(words) };
    if reply[0] == ERROR { Err((reply[1] as usize).into()) } else { Ok(reply) }
}

/// ECALL, with a0 to a7 there and back.
#[cfg(target_os = "xous")]
unsafe fn trap(words: [u32; 8]) -> [u32; 8] {
    let mut reply = words;
    let [a0, a1, a2, a3, a4, a5, a6, a7] = &mut reply;
    // SAFETY: the block says that it changes a0 to a7. It isn't `nomem`, so the compiler takes it to read and write any
    // memory whose address is exposed, which is what a call may do.
    unsafe {
        std::arch::asm!(
            "ecall",
            inlateout("a0") *a0,
            inlateout("a1") *a1,
            inlateout("a2") *a2,
            inlateout("a3") *a3,
            inlateout("a4") *a4,
            inlateout("a5") *a5,
            inlateout("a6") *a6,
            inlateout("a7") *a7,
        );
    }
    reply
}

/// There is no kernel here that knows the call.
#[cfg(not(target_os = "xous"))]
unsafe fn trap(_: [u32; 8]) -> [u32; 8] {
    [ERROR, crate::Error::UnhandledSyscall as u32, 0, 0, 0, 0, 0, 0]
}

/// The reply to a call that names a server.
///
/// # Safety
///
/// As for [`call`].
pub(crate) unsafe fn call_server(number: u32, [s0, s1, s2, s3]: [u32; 4]) -> Result<[u32; 8]> {
    // SAFETY: as the caller says.
    unsafe { call([number, s0, s1, s2, s3, 0, 0, 0]) }
}

/// Says that a reply isn't one that this call has: the kernel is another one.
pub(crate) fn unknown_reply<T>() -> Result<T> {
    Err(crate::Error::InternalError)
}
