//! "The table", and a whole frame, a store, a compare and a load, each with its refusals in the paper's order.

use crate::commands::{received, Command};
use crate::monitor::{self, Record, CLEARED, RECORD};
use crate::numbers::{packed, Outcome, Refusal};

const MOST_MONITORS: usize = 32;

/// N of a sound table.
pub fn sound(table: &[u8]) -> Result<usize, Refusal> {
    let (records, rest) = table.as_chunks::<RECORD>();
    let some = !records.is_empty() && records.len() <= MOST_MONITORS && rest.is_empty();
    if some && records.iter().all(monitor::sound) {
        Ok(records.len())
    } else {
        Err(Refusal::TableNotSound)
    }
}

pub fn monitors_right(monitors: usize) -> bool {
    (1..=MOST_MONITORS).contains(&monitors)
}

pub fn records(table: &[u8]) -> &[Record] {
    table.as_chunks().0
}

pub fn records_mut(table: &mut [u8]) -> &mut [Record] {
    table.as_chunks_mut().0
}

/// A whole frame. Values: how many monitors took it, and the length of the reply.
pub fn frame(table: &mut [u8], frame: &[u8], reply: &mut [u8]) -> u32 {
    packed(whole(table, frame, reply))
}

fn whole(table: &mut [u8], frame: &[u8], reply: &mut [u8]) -> Outcome {
    let monitors = sound(table)?;
    let (&head, rest) = frame.split_first_chunk::<4>().ok_or(Refusal::FrameShort)?;
    let command = received(head)?;
    if rest.len() != command.length_after_four(monitors) {
        return Err(Refusal::LengthWrong);
    }
    let records = records_mut(table);
    match command {
        Command::Read(read) => {
            let reply = reply.get_mut(..8 * monitors).ok_or(Refusal::NoRoom)?;
            for (record, eight) in records.iter_mut().zip(reply.as_chunks_mut::<8>().0) {
                *eight = monitor::reply(record, read);
                monitor::lock(record);
            }
            Ok((monitors, 8 * monitors))
        }
        Command::Write(write) => {
            // The first payload travels to monitor N.
            let far_end_first = rest.chunks_exact(write.payload_bytes());
            let pairs = records.iter_mut().zip(far_end_first.rev());
            let taken = pairs.map(|(record, sent)| usize::from(monitor::write(record, write, sent))).sum();
            Ok((taken, 0))
        }
        Command::Bare(bare) => {
            for record in records {
                monitor::bare(record, bare);
            }
            Ok((monitors, 0))
        }
    }
}

/// Stores 16 codes as the cells of the monitor at a position, 1 to N.
pub fn store(table: &mut [u8], position: usize, codes: &[i16]) -> u32 {
    packed(with_codes(table, position, codes, monitor::store))
}

/// Loads 16 codes into the monitor at a position, 1 to N.
pub fn load(table: &mut [u8], position: usize, codes: &[i16]) -> u32 {
    packed(with_codes(table, position, codes, monitor::load))
}

fn with_codes(table: &mut [u8], position: usize, codes: &[i16], act: fn(&mut Record, &[i16; 16])) -> Outcome {
    let record = record_at(table, position)?;
    let codes: &[i16; 16] = codes.try_into().map_err(|_| Refusal::CountWrong)?;
    if codes.contains(&CLEARED) {
        return Err(Refusal::CodeCleared);
    }
    act(record, codes);
    Ok((0, 0))
}

/// Compares the stored cells of the monitor at a position, 1 to N, with its thresholds.
pub fn compare(table: &mut [u8], position: usize) -> u32 {
    packed(record_at(table, position).map(|record| {
        monitor::compare(record);
        (0, 0)
    }))
}

/// The record of the monitor at a position, 1 to N: refusals 1 and 7.
pub fn record_at(table: &mut [u8], position: usize) -> Result<&mut Record, Refusal> {
    let index = index_of(table, position)?;
    Ok(&mut records_mut(table)[index])
}

/// Which record of a table the monitor at a position, 1 to N, has: refusals 1 and 7.
pub fn index_of(table: &[u8], position: usize) -> Result<usize, Refusal> {
    let monitors = sound(table)?;
    if (1..=monitors).contains(&position) {
        Ok(position - 1)
    } else {
        Err(Refusal::PositionWrong)
    }
}
