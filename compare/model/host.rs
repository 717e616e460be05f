//! The host: the frames that it builds, and by L5 the check of one payload and "Two ends of the chain".

use crate::chain::monitors_right;
use crate::check_words::{check_bytes, command_bytes, payload_right};
use crate::commands::{listed, Command};
use crate::monitor::MOST_COUNT;
use crate::numbers::{packed, Outcome, Refusal};

const FILLER: u8 = 0xFF;
const RIGHT: usize = 1;
const DAMAGED: usize = 2;
const COUNTER_DIFFERS: usize = 3;
const PORT_A: usize = 1;
const PORT_B: usize = 2;
const PORT_A_DIFFERS: usize = 3;
const PORT_B_DIFFERS: usize = 4;

/// Builds the frame of a command at the start of `out`; values are a write's data bytes for each monitor, nearest first, else none.
/// Second value: the length of the frame.
pub fn host_frame(command: u16, monitors: usize, values: &[u8], out: &mut [u8]) -> u32 {
    packed(build(command, monitors, values, out))
}

fn build(code: u16, monitors: usize, values: &[u8], out: &mut [u8]) -> Outcome {
    let command = listed(code).ok_or(Refusal::CodeNotListed)?;
    if !monitors_right(monitors) {
        return Err(Refusal::PositionWrong);
    }
    let owed = match command {
        Command::Write(write) => write.data_bytes() * monitors,
        Command::Read(_) | Command::Bare(_) => 0,
    };
    if values.len() != owed {
        return Err(Refusal::CountWrong);
    }
    let length = 4 + command.length_after_four(monitors);
    let out = out.get_mut(..length).ok_or(Refusal::NoRoom)?;
    let (head, rest) = out.split_at_mut(4);
    head.copy_from_slice(&command_bytes(code));
    match command {
        Command::Write(write) => {
            let nearest_first = values.chunks_exact(write.data_bytes());
            for (payload, sent) in rest.chunks_exact_mut(write.payload_bytes()).zip(nearest_first.rev()) {
                let (data, check) = payload.split_at_mut(sent.len());
                data.copy_from_slice(sent);
                check.copy_from_slice(&check_bytes(sent, 0));
            }
        }
        Command::Read(_) | Command::Bare(_) => rest.fill(FILLER),
    }
    Ok((0, length))
}

/// What eight bytes of a reply are to a host that expects a counter: a wrong check makes them damaged, whatever counter they carry.
enum Found {
    Right,
    CounterDiffers(u8),
    Damaged,
}

fn found(eight: &[u8], expected: u8) -> Found {
    let received = eight[6] >> 2;
    if !payload_right(eight) {
        Found::Damaged
    } else if received == expected {
        Found::Right
    } else {
        Found::CounterDiffers(received)
    }
}

/// Before every other refusal.
fn counter_right(expected: u8) -> Result<(), Refusal> {
    if expected <= MOST_COUNT {
        Ok(())
    } else {
        Err(Refusal::PositionWrong)
    }
}

/// Checks one payload of eight bytes against the counter that the host expects. First value: 1 right, 2 damaged, 3 right but for its counter.
/// Second: the counter received, where it differs.
pub fn check(payload: &[u8], expected: u8) -> u32 {
    packed(judge(payload, expected))
}

fn judge(payload: &[u8], expected: u8) -> Outcome {
    counter_right(expected)?;
    if payload.len() != 8 {
        return Err(Refusal::LengthWrong);
    }
    Ok(match found(payload, expected) {
        Found::Right => (RIGHT, 0),
        Found::Damaged => (DAMAGED, 0),
        Found::CounterDiffers(received) => (COUNTER_DIFFERS, received.into()),
    })
}

/// The eight bytes of the monitor at a position: port A's if right, else port B's if right, else port A's if only their counter differs from
/// the expected one, else port B's likewise. First value: 1 port A, 2 port B, 3 port A and its counter differs, 4 port B likewise. Second: the
/// byte of that port's reply at which they start.
pub fn two_ports(a: &[u8], b: &[u8], monitors: usize, position: usize, expected: u8) -> u32 {
    packed(choose(a, b, monitors, position, expected))
}

fn choose(a: &[u8], b: &[u8], monitors: usize, position: usize, expected: u8) -> Outcome {
    counter_right(expected)?;
    if !monitors_right(monitors) || !(1..=monitors).contains(&position) {
        return Err(Refusal::PositionWrong);
    }
    if a.len() != 8 * monitors || b.len() != 8 * monitors {
        return Err(Refusal::LengthWrong);
    }
    let in_a = 8 * (position - 1);
    let in_b = 8 * (monitors - position);
    match (found(&a[in_a..][..8], expected), found(&b[in_b..][..8], expected)) {
        (Found::Right, _) => Ok((PORT_A, in_a)),
        (_, Found::Right) => Ok((PORT_B, in_b)),
        (Found::CounterDiffers(_), _) => Ok((PORT_A_DIFFERS, in_a)),
        (_, Found::CounterDiffers(_)) => Ok((PORT_B_DIFFERS, in_b)),
        (Found::Damaged, Found::Damaged) => Err(Refusal::BothDamaged),
    }
}
