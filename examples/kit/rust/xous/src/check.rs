//! What has to hold in each order of the threads.

/// The exit word of a process whose check failed, as in the kit for C. 101 is that of a panic.
pub const CHECK_FAILED: u32 = 121;

/// Ends the process by [`CHECK_FAILED`] if a condition doesn't hold, and a search of the orders tells that exit
/// (docs/orders.md). Nothing is written, so a check brings no message into an order.
///
/// ```
/// let total = 1 + 2;
/// xous::xous_check!(total == 3);
/// ```
#[macro_export]
macro_rules! xous_check {
    ($condition:expr $(,)?) => {
        if !$condition {
            $crate::end_by_check::<{ line!() }>();
        }
    };
}

/// Ends the process, for [`xous_check!`]. The number of the line keeps the compiler from making one of two checks.
#[doc(hidden)]
#[inline(always)]
#[cfg(target_os = "xous")]
pub fn end_by_check<const LINE: u32>() -> ! {
    use crate::call::{TERMINATE_PROCESS, call};

    // SAFETY: the call ends the process, and so nothing of it is reached later.
    let _ = unsafe { call([TERMINATE_PROCESS, CHECK_FAILED, 0, 0, 0, 0, 0, 0]) };
    // SAFETY: it is a comment.
    unsafe { std::arch::asm!("/* the check of line {} */", const LINE) };
    unreachable!("a process that ended")
}

#[doc(hidden)]
#[cfg(not(target_os = "xous"))]
pub fn end_by_check<const LINE: u32>() -> ! {
    std::process::exit(CHECK_FAILED as i32)
}
