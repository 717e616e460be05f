//! L2: which of a monitor's sixteen discharge outputs are on, and which row of the sheet's Table 27 decided each.

use crate::chain::{index_of, records};
use crate::commands::at;
use crate::monitor::{Record, MUTE_ST};
use crate::numbers::{packed, Outcome, Refusal};

const LAST_PHASE: u8 = 14;

/// Added to an output's row where the output is on.
pub const OUTPUT_ON: u8 = 0x80;

/// What may go on at the monitor meanwhile, one bit each. The other four bits are not looked at.
pub mod event {
    pub const SHUTDOWN: u8 = 1;
    pub const MEASUREMENT: u8 = 2;
    pub const WRCFGB: u8 = 4;
    pub const WRPWM: u8 = 8;
}

/// `out[c - 1]` becomes the row that decided the output of cell c, marked where it is on. First value: how many are on.
pub fn discharge(table: &[u8], position: usize, events: u8, phase: u8, out: &mut [u8]) -> u32 {
    packed(outputs(table, position, events, phase, out))
}

fn outputs(table: &[u8], position: usize, events: u8, phase: u8, out: &mut [u8]) -> Outcome {
    let record = &records(table)[index_of(table, position)?];
    if phase > LAST_PHASE {
        return Err(Refusal::PositionWrong);
    }
    let out = out.first_chunk_mut::<16>().ok_or(Refusal::NoRoom)?;
    let mut on = 0;
    for (cell, output) in out.iter_mut().enumerate() {
        let (row, is_on) = decided(record, cell, events, phase);
        *output = row | if is_on { OUTPUT_ON } else { 0 };
        on += usize::from(is_on);
    }
    Ok((on, 0))
}

/// Table 27 from the top: the first row whose event holds decides, and whether the output is then on. Row 1, the PWM itself, takes what
/// is left. Row 4 goes by the cell's own bit, and DCTO is not looked at (house rules of L2).
fn decided(record: &Record, cell: usize, events: u8, phase: u8) -> (u8, bool) {
    let meanwhile = |event: u8| events & event != 0;
    let rows = [
        (7, meanwhile(event::SHUTDOWN), false),
        (6, record[at::CONFIGURATION_A + 5] & MUTE_ST != 0, false),
        (5, meanwhile(event::WRCFGB), false),
        (4, dcc(record, cell), true),
        (3, meanwhile(event::MEASUREMENT), false),
        (2, meanwhile(event::WRPWM), false),
    ];
    match rows.into_iter().find(|&(_, holds, _)| holds) {
        Some((row, _, on)) => (row, on),
        None => (1, phase < duty(record, cell)),
    }
}

/// DCC of cells 1 to 8 is configuration B's byte 4, of 9 to 16 its byte 5. Cells count from 0 here.
fn dcc(record: &Record, cell: usize) -> bool {
    record[at::CONFIGURATION_B + 4 + cell / 8] >> (cell % 8) & 1 == 1
}

/// Tables 95 and 96: two cells a byte, the lower one in the low half; twelve of them in group A.
fn duty(record: &Record, cell: usize) -> u8 {
    let pair = if cell < 12 { record[at::PWM_A + cell / 2] } else { record[at::PWM_B + (cell - 12) / 2] };
    if cell % 2 == 0 {
        pair & 0x0F
    } else {
        pair >> 4
    }
}
