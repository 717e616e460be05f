//! What makes a table sound: its length, and two bytes of each record. Tried on each of the eleven functions that are lent a table.

use crate::beats::{heartbeat, relay, time_out, wake};
use crate::both::{compare, discharge, frame, load, store};
use crate::clocks::Clocks;
use crate::inputs::{self, at, head, MOST, RECORD};
use crate::lent::{Both, Lent};
use crate::messages::{sealed, LENGTH, PASS_COUNT};
use crate::outputs::{Question, OUTPUTS};
use crate::run::{Done, Run};

const RSTCC: u16 = 0x002E;

/// The lengths of a record before L2, before L6 and before L8, which is where their parts begin.
const EARLIER_RECORDS: [usize; 3] = [at::PWM_A, at::COPY, at::LPCM_CONFIGURATION];

pub fn cases(run: &mut Run) -> Done {
    let mut clocks = Clocks::new(run)?;
    lengths(run, &mut clocks)?;
    earlier_lengths(run, &mut clocks)?;
    each_value(run, &mut clocks)?;
    each_record(run, &mut clocks)
}

/// A bare command, a store, a compare, a load, a question, the four operations of the heartbeat, and a bare command clocked with this table at
/// byte four and at the release.
fn try_table(run: &mut Run, clocks: &mut Clocks, bytes: &[u8]) -> Done {
    let mut table = Both::new(&mut run.random, bytes);
    frame(run, &mut table, &head(RSTCC), 0)?;
    let mut table = Both::new(&mut run.random, bytes);
    store(run, &mut table, 1, &[0; 16])?;
    let mut table = Both::new(&mut run.random, bytes);
    compare(run, &mut table, 1)?;
    let mut table = Both::new(&mut run.random, bytes);
    load(run, &mut table, 1, &[0; 16])?;
    let mut table = Both::new(&mut run.random, bytes);
    discharge(run, &mut table, Question { position: 1, events: 0, phase: 0 }, OUTPUTS)?;

    let mut table = Both::new(&mut run.random, bytes);
    wake(run, &mut table, 1, LENGTH)?;
    let mut table = Both::new(&mut run.random, bytes);
    relay(run, &mut table, 1, &sealed(PASS_COUNT, 0), LENGTH)?;
    let mut table = Both::new(&mut run.random, bytes);
    heartbeat(run, &mut table, 1, LENGTH)?;
    let mut table = Both::new(&mut run.random, bytes);
    time_out(run, &mut table, 1)?;

    let lent = Lent::new(&mut run.random, bytes);
    for byte in head(RSTCC) {
        clocks.byte(run, &lent, bytes, byte)?;
    }
    let mut table = Both::new(&mut run.random, bytes);
    clocks.release(run, &mut table)?;
    Ok(())
}

fn lengths(run: &mut Run, clocks: &mut Clocks) -> Done {
    for monitors in (0..=40).chain([64, 65, 128, 255, 256, 257, 288]) {
        let records = inputs::table(&mut run.random, monitors + 1);
        let whole = RECORD * monitors;
        for length in [whole.saturating_sub(1), whole, whole + 1, whole + run.random.below(RECORD)] {
            try_table(run, clocks, &records[..length])?;
        }
    }
    Ok(())
}

/// Tables of records without the parts that came later. Seventeen records of 70 bytes are as long as seven of today's.
fn earlier_lengths(run: &mut Run, clocks: &mut Clocks) -> Done {
    for (monitors, length) in (1..=MOST).flat_map(|monitors| EARLIER_RECORDS.map(|length| (monitors, length))) {
        let records = inputs::table(&mut run.random, monitors);
        let shorter: Vec<u8> = records.chunks(RECORD).flat_map(|record| record[..length].to_vec()).collect();
        try_table(run, clocks, &shorter)?;
    }
    Ok(())
}

/// Every value of the counter and of byte 69, at any record.
fn each_value(run: &mut Run, clocks: &mut Clocks) -> Done {
    for value in 0..=255 {
        for place in [at::COUNTER, at::UNLOCKED] {
            let monitors = run.random.within(1, MOST);
            let mut bytes = inputs::table(&mut run.random, monitors);
            bytes[run.random.below(monitors) * RECORD + place] = value;
            try_table(run, clocks, &bytes)?;
        }
    }
    Ok(())
}

/// The smallest wrong value at each record of the longest table; any other byte is free.
fn each_record(run: &mut Run, clocks: &mut Clocks) -> Done {
    for record in 0..MOST {
        let mut bytes = inputs::table(&mut run.random, MOST);
        for (place, wrong) in [(at::COUNTER, 64), (at::UNLOCKED, 2)] {
            let judged = record * RECORD + place;
            let right = std::mem::replace(&mut bytes[judged], wrong);
            try_table(run, clocks, &bytes)?;
            bytes[judged] = right;
        }
        for place in (0..RECORD).filter(|place| ![at::COUNTER, at::UNLOCKED].contains(place)) {
            bytes[record * RECORD + place] = 0xFF;
        }
        try_table(run, clocks, &bytes)?;
    }
    Ok(())
}
