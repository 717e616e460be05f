//! What an accepted read or bare command met of snapshots: read off the table that the read shows, or off the one before and after.

use crate::inputs::{at, part_shown, snapped, CELLS, COPY, RECORD, SNAP, UNSNAP};
use crate::lent::Both;
use crate::run::Run;
use crate::tally::{Effect, Engine, OfCommand};

const RDSTATC: u16 = 0x0032;
const RDSTATD: u16 = 0x0033;
const CLRCELL: u16 = 0x0711;

/// The copy is not what the live cells are: a command that took one for the other would show.
fn differs(record: &[u8]) -> bool {
    record[COPY] != record[CELLS]
}

pub fn note_read(run: &mut Run, engine: Engine, code: u16, shown: &[u8]) {
    let mut records = shown.chunks(RECORD);
    match code {
        RDSTATC => run.tally.did_if(engine, Effect::StatusCInSnapshot, records.any(snapped)),
        RDSTATD => run.tally.did_if(engine, Effect::StatusDInSnapshot, records.any(snapped)),
        _ => {}
    }
    let Some(part) = part_shown(code) else { return };
    for (what, copy) in [(OfCommand::ShowedCopy, true), (OfCommand::ShowedLive, false)] {
        let told = |record: &[u8]| snapped(record) == copy && record[COPY][part.clone()] != record[CELLS][part.clone()];
        run.tally.of_command_if(engine, code, what, shown.chunks(RECORD).any(told));
    }
}

pub fn note_bare(run: &mut Run, engine: Engine, code: u16, table: &Both<u8>) {
    let any = |such: &dyn Fn(&[u8], &[u8]) -> bool| {
        table.before.chunks(RECORD).zip(table.contents().chunks(RECORD)).any(|(before, after)| such(before, after))
    };
    let ends_unlocking = |before: &[u8], after: &[u8]| before[at::UNLOCKED] == 1 && after[at::UNLOCKED] == 0;
    let mut did_if = |effect, came_up| run.tally.did_if(engine, effect, came_up);
    match code {
        SNAP => {
            let copies = any(&|before, after| !snapped(before) && after[COPY] != before[COPY]);
            let keeps = any(&|before, _| snapped(before) && differs(before));
            did_if(Effect::SnapCopies, copies);
            did_if(Effect::SnapKeepsCopy, keeps);
            did_if(Effect::SnapBoth, copies && keeps);
            did_if(Effect::SecondSnapAfter63, any(&|before, after| snapped(before) && [before, after].map(counter) == [63, 1]));
            did_if(Effect::SecondSnapLocks, any(&|before, after| snapped(before) && ends_unlocking(before, after)));
        }
        UNSNAP => {
            did_if(Effect::UnsnapEnds, any(&|before, _| snapped(before) && differs(before)));
            did_if(Effect::UnsnapOfNone, any(&|before, _| !snapped(before) && differs(before)));
            did_if(Effect::UnsnapLocks, any(&|before, after| ends_unlocking(before, after)));
        }
        CLRCELL => did_if(Effect::ClrcellInSnapshot, any(&|before, after| snapped(before) && differs(after))),
        _ => {}
    }
}

fn counter(record: &[u8]) -> u8 {
    record[at::COUNTER]
}
