//! The systime server: the time of day for `SystemTime` (std's `os/xous/services/systime.rs`). A run begins at the same
//! time each time, and goes on as the ticktimer's clock does.

use xous::{Answer, Connection, Message, Server};

/// When the ticktimer's clock was 0: midnight at the start of 2026 (UTC), in milliseconds from the start of 1970.
const START: u64 = 1_767_225_600_000;

const GET_UTC_TIME_MS: u32 = 3;
const ELAPSED_MS: u32 = 0; // of the ticktimer

fn main() -> xous::Result<()> {
    let server = Server::create("timeserverpublic".try_into()?)?;
    let ticktimer = Connection::to("ticktimer-server".try_into()?)?;
    loop {
        if let Message::BlockingScalar(asked) = server.receive()?
            && asked.id == GET_UTC_TIME_MS
            && let Answer::Two(low, high) = ticktimer.blocking_scalar(ELAPSED_MS, [0; 4])?
        {
            let now = START + (u64::from(high) << 32 | u64::from(low));
            asked.answer_two(now as u32, (now >> 32) as u32)?;
        }
    }
}
