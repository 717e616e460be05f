//! Snapshots (L6): a long read is of one moment, whatever comes between its frames, and after UNSNAP it is of the live cells. By both
//! engines.

use crate::chain::Chain;
use crate::difference::Difference;
use crate::events::{
    any_frame, clovuv, clrcell, clrflag, compare, heartbeat, load, refused_unsnap, store, store_and_compare, wrcfga, Event,
};
use crate::inputs::{self, at, head, part_shown, snapped, CELLS, CELL_READS, COPY, MOST, RECORD, SNAP, STATUS_C, STATUS_D, UNSNAP};
use crate::run::{expect, Done, Run};
use crate::surface::Function;
use crate::tally::Situation;
use std::ops::Range;

const RDSTATC: u16 = 0x0032;
const RDSTATD: u16 = 0x0033;

pub fn cases(run: &mut Run) -> Done {
    every_read_at_every_n(run)?;
    in_any_order(run)?;
    status_stays_live(run)?;
    snapped_again(run)?;
    for monitors in 1..=MOST {
        let turns = if monitors <= 8 { 10 } else { 2 };
        for turn in 0..turns {
            long_read(run, monitors, turn % 2 == 1)?;
        }
    }
    Ok(())
}

/// A part of each record, nearest monitor first.
fn parts(table: &[u8], part: impl Fn(&[u8]) -> Range<usize>) -> Vec<Vec<u8>> {
    table.chunks(RECORD).map(|record| record[part(record)].to_vec()).collect()
}

/// What the cell reads show of each monitor, all six together.
fn shown(table: &[u8]) -> Vec<Vec<u8>> {
    parts(table, |record| if snapped(record) { COPY } else { CELLS })
}

/// SNAP or UNSNAP. Every monitor takes it, counts it and is locked after it, and no other byte changes than these rules say.
fn send(run: &mut Run, chain: &mut Chain, code: u16) -> Done {
    let before = chain.table().to_vec();
    let mut expected = before.clone();
    for record in expected.chunks_mut(RECORD) {
        record[at::COUNTER] = record[at::COUNTER] % 63 + 1;
        record[at::UNLOCKED] = 0;
        if code == SNAP && !snapped(record) {
            record.copy_within(CELLS, COPY.start);
        }
        inputs::set_snap_st(record, code == SNAP);
    }
    let monitors = chain.monitors();
    let (answer, _) = chain.frame(run, &head(code))?;
    expect(run, Function::Frame, (answer, (monitors as u32) << 8), &before, monitors)?;
    expect(run, Function::Frame, (chain.table(), &expected), &before, monitors)
}

/// A cell read, which must show its part of these cells of each monitor. Gives whether the copy and the live cells differ in that part
/// at some monitor, so that one taken for the other would have shown.
fn read_cells(run: &mut Run, chain: &mut Chain, code: u16, cells: &[Vec<u8>]) -> Result<bool, Box<Difference>> {
    let part = part_shown(code).expect("a cell read");
    let told = chain.table().chunks(RECORD).any(|record| record[CELLS][part.clone()] != record[COPY][part.clone()]);
    let expected = cells.iter().map(|cells| {
        let mut six = cells[part.clone()].to_vec();
        six.resize(6, 0xFF);
        six
    });
    let found = chain.read(run, code)?;
    expect(run, Function::Frame, (found, expected.collect()), chain.table(), chain.monitors())?;
    Ok(told)
}

fn reads_in_any_order(run: &mut Run) -> [u16; 6] {
    let mut reads = CELL_READS;
    run.random.shuffle(&mut reads);
    reads
}

/// Lent snapshots, with any copies, beside monitors without one.
fn every_read_at_every_n(run: &mut Run) -> Done {
    for (monitors, code) in (1..=MOST).flat_map(|monitors| CELL_READS.map(|code| (monitors, code))) {
        let mut chain = Chain::new(run, monitors)?;
        let shown = shown(chain.table());
        read_cells(run, &mut chain, code, &shown)?;
    }
    Ok(())
}

/// One event after another, now and then SNAP or UNSNAP, and a cell read after each.
fn in_any_order(run: &mut Run) -> Done {
    for (monitors, events) in [(1, 300), (2, 200), (3, 200), (6, 100), (MOST, 20)] {
        let mut chain = Chain::new(run, monitors)?;
        for _ in 0..events {
            let event = run.random.pick(&[store, compare, load, clrcell, wrcfga, any_frame, refused_unsnap, heartbeat]);
            event(run, &mut chain)?;
            if run.random.once_in(3) {
                let code = run.random.pick(&[SNAP, UNSNAP]);
                send(run, &mut chain, code)?;
            }
            let code = run.random.pick(&CELL_READS);
            let shown = shown(chain.table());
            read_cells(run, &mut chain, code, &shown)?;
        }
    }
    Ok(())
}

/// Flags that a compare sets after SNAP, and that CLOVUV and CLRFLAG clear: the status reads show it at once.
fn status_stays_live(run: &mut Run) -> Done {
    let changes: [(Event, u16, Range<usize>, Situation); 3] = [
        (store_and_compare, RDSTATD, STATUS_D, Situation::FlagsSetInSnapshot),
        (clovuv, RDSTATD, STATUS_D, Situation::FlagsClearedInSnapshot),
        (clrflag, RDSTATC, STATUS_C, Situation::StatusCClearedInSnapshot),
    ];
    for (_, (event, code, status, situation)) in (0..150).flat_map(|turn| changes.clone().map(|change| (turn, change))) {
        let monitors = run.random.pick(&[1, 1, 2, 3]);
        let mut chain = Chain::new(run, monitors)?;
        send(run, &mut chain, SNAP)?;
        let at_snap = parts(chain.table(), |_| status.clone());
        event(run, &mut chain)?;
        let live = parts(chain.table(), |_| status.clone());
        run.tally.saw_if(situation, live != at_snap);
        let found = chain.read(run, code)?;
        expect(run, Function::Frame, (found, live), chain.table(), monitors)?;
    }
    Ok(())
}

/// A second snapshot, once the first has ended, is of its own moment.
fn snapped_again(run: &mut Run) -> Done {
    for _ in 0..60 {
        let monitors = run.random.pick(&[1, 1, 2, 3, 5]);
        let mut chain = Chain::new(run, monitors)?;
        let mut moments = Vec::new();
        for _ in 0..2 {
            store(run, &mut chain)?;
            send(run, &mut chain, UNSNAP)?;
            moments.push(parts(chain.table(), |_| CELLS));
            send(run, &mut chain, SNAP)?;
        }
        store(run, &mut chain)?;
        for code in reads_in_any_order(run) {
            read_cells(run, &mut chain, code, &moments[1])?;
        }
        run.tally.saw_if(Situation::SnappedAgain, moments[0] != moments[1]);
    }
    Ok(())
}

/// What comes between the six reads of a long read: two after each but the last, so that all of them come.
const MEANWHILE: [Event; 10] = [store, store, compare, load, clrcell, second_snap, wrcfga, status, any_frame, any_frame];
/// One of them comes before each read after UNSNAP.
const AFTERWARDS: [Event; 5] = [store, compare, load, clrcell, refused_unsnap];

/// SNAP and six cell reads, UNSNAP and six more. One monitor at least is lent with a snapshot, or none has one.
fn long_read(run: &mut Run, monitors: usize, lent: bool) -> Done {
    let mut bytes = inputs::table(&mut run.random, monitors);
    if lent {
        let one = RECORD * run.random.below(monitors);
        inputs::set_snap_st(&mut bytes[one..one + RECORD], true);
    }
    let mut chain = Chain::of(run, &bytes)?;
    if !lent {
        send(run, &mut chain, UNSNAP)?;
    }
    let lent_shows = bytes.chunks(RECORD).any(|record| snapped(record) && record[COPY] != record[CELLS]);
    let moment = shown(chain.table());
    send(run, &mut chain, SNAP)?;

    let mut meanwhile = MEANWHILE;
    run.random.shuffle(&mut meanwhile);
    let mut between = meanwhile.chunks(2);
    let mut told = false;
    for (turn, code) in reads_in_any_order(run).into_iter().enumerate() {
        if turn > 0 {
            for event in between.next().unwrap_or_default() {
                event(run, &mut chain)?;
            }
        }
        let unsnap_refused = run.random.once_in(2);
        if unsnap_refused {
            refused_unsnap(run, &mut chain)?;
        }
        told = read_cells(run, &mut chain, code, &moment)?;
        run.tally.saw_if(Situation::RefusedUnsnap, unsnap_refused && told);
    }
    // The last read comes after every store and CLRCELL: live cells there, after the moment's in the first one, would have been a mixture.
    run.tally.saw_if(if lent { Situation::LongReadOfLent } else { Situation::LongRead }, told && (lent_shows || !lent));

    send(run, &mut chain, UNSNAP)?;
    let mut all_told = true;
    for code in reads_in_any_order(run) {
        let event = run.random.pick(&AFTERWARDS);
        event(run, &mut chain)?;
        let live = parts(chain.table(), |_| CELLS);
        all_told &= read_cells(run, &mut chain, code, &live)?;
    }
    run.tally.saw_if(Situation::LiveAfterUnsnap, all_told);
    Ok(())
}

fn second_snap(run: &mut Run, chain: &mut Chain) -> Done {
    send(run, chain, SNAP)
}

fn status(run: &mut Run, chain: &mut Chain) -> Done {
    let code = run.random.pick(&[RDSTATC, RDSTATD]);
    chain.read(run, code)?;
    Ok(())
}
