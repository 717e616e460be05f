//! L8, "The host's verdict" on a heartbeat.

use crate::message::{Message, LENGTH};
use crate::numbers::{packed, Outcome, Refusal};

const PASSED: usize = 1;
const FAILED: usize = 2;
const DAMAGED: usize = 3;
const TIMED_OUT: usize = 4;

/// Judges what came; `time_ran_out` is 0 for no. First value: 1 passed, 2 failed, 3 damaged, 4 timed out. Second: where it failed,
/// 256 x count + flags.
pub fn verdict(message: &[u8], time_ran_out: u8) -> u32 {
    packed(judge(message, time_ran_out != 0))
}

fn judge(message: &[u8], late: bool) -> Outcome {
    if message.is_empty() && late {
        return Ok((TIMED_OUT, 0));
    }
    let came: &[u8; LENGTH] = message.try_into().map_err(|_| Refusal::LengthWrong)?;
    Ok(if late { (TIMED_OUT, 0) } else { in_time(came) })
}

fn in_time(came: &[u8; LENGTH]) -> (usize, usize) {
    match Message::opened(came) {
        None => (DAMAGED, 0),
        Some(Message::PASS) => (PASSED, 0),
        Some(Message { count, flags }) => (FAILED, 256 * usize::from(count) + usize::from(flags)),
    }
}
