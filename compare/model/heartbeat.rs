//! L8, "Operations on the table": a manager wakes, a message reaches a monitor, a whole heartbeat, and the time runs out.

use crate::chain::{index_of, record_at, records_mut};
use crate::message::{Message, LENGTH};
use crate::numbers::{packed, Outcome, Refusal};
use crate::turn::{reached, time_runs_out, wakes, Port};

const NOTHING_SENT: (usize, usize) = (0, 0);
const SENT_ON: usize = 1;

/// The monitor at a position wakes. First value: the port that it sends towards, 1 A and 2 B, or 0. Second: 8 or 0.
pub fn wake(table: &mut [u8], position: usize, out: &mut [u8]) -> u32 {
    packed(wake_at(table, position, out))
}

fn wake_at(table: &mut [u8], position: usize, out: &mut [u8]) -> Outcome {
    let record = record_at(table, position)?;
    let out = room(out)?;
    Ok(sent(wakes(record), out))
}

/// A message reaches the monitor at a position. First value: 1 where it is sent on, else 0. Second: 8 or 0.
pub fn relay(table: &mut [u8], position: usize, message: &[u8], out: &mut [u8]) -> u32 {
    packed(relay_at(table, position, message, out))
}

fn relay_at(table: &mut [u8], position: usize, message: &[u8], out: &mut [u8]) -> Outcome {
    let record = record_at(table, position)?;
    let came = message.try_into().map_err(|_| Refusal::LengthWrong)?;
    let out = room(out)?;
    let sent_on = Message::opened(came).and_then(|came| reached(record, came));
    Ok(handed_out(sent_on.map(|message| (SENT_ON, message)), out))
}

/// A whole heartbeat from the monitor at a position on. First value: the port that it left the chain at, or 0. Second: 8 or 0.
/// It is not made of the two above, so that it can be held against them: what passes between monitors is not sealed here.
pub fn heartbeat(table: &mut [u8], position: usize, out: &mut [u8]) -> u32 {
    packed(whole(table, position, out))
}

fn whole(table: &mut [u8], position: usize, out: &mut [u8]) -> Outcome {
    let index = index_of(table, position)?;
    let out = room(out)?;
    let (nearer, rest) = records_mut(table).split_at_mut(index);
    let (manager, farther) = rest.split_first_mut().expect("a position of the table");
    let left = wakes(manager).and_then(|(port, started)| {
        let ended = match port {
            Port::A => nearer.iter_mut().rev().try_fold(started, |message, record| reached(record, message)),
            Port::B => farther.iter_mut().try_fold(started, |message, record| reached(record, message)),
        };
        ended.map(|message| (port, message))
    });
    Ok(sent(left, out))
}

/// The time runs out at the monitor in a position. First value: 1 where it is a timeout monitor in LPCM, else 0.
pub fn time_out(table: &mut [u8], position: usize) -> u32 {
    packed(record_at(table, position).map(|record| (usize::from(time_runs_out(record)), 0)))
}

/// Asked for also where nothing will be sent.
fn room(out: &mut [u8]) -> Result<&mut [u8; LENGTH], Refusal> {
    out.first_chunk_mut().ok_or(Refusal::NoRoom)
}

fn sent(message: Option<(Port, Message)>, out: &mut [u8; LENGTH]) -> (usize, usize) {
    handed_out(message.map(|(port, message)| (port as usize, message)), out)
}

/// A message is written with its first value beside it; where there is none the buffer stays.
fn handed_out(message: Option<(usize, Message)>, out: &mut [u8; LENGTH]) -> (usize, usize) {
    let Some((first, message)) = message else { return NOTHING_SENT };
    *out = message.sealed();
    (first, LENGTH)
}
