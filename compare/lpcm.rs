//! What an accepted read or bare command met of low power cell monitoring (L8): read off the table that the read shows, or off the one
//! before and after.

use crate::inputs::{at, in_lpcm, snapped, CELLS, CMDIS, CMEN, CMF0, CMF1, COPY, LAST, RECORD, SNAP};
use crate::lent::Both;
use crate::run::Run;
use crate::tally::{Effect, Engine, OfCommand};

const ULRR: u16 = 0x0038;
const CLRCELL: u16 = 0x0711;
/// What CMEN makes of CMF1 where CMC_EN is clear.
const ENABLED: u8 = 0x83;

pub fn note_read(run: &mut Run, engine: Engine, code: u16, shown: &[u8]) {
    run.tally.of_command_if(engine, code, OfCommand::TakenInLpcm, shown.chunks(RECORD).any(in_lpcm));
}

/// The last measurement is not what the live cells are: a command that took them would show.
fn differs(record: &[u8]) -> bool {
    record[LAST] != record[CELLS]
}

pub fn note_bare(run: &mut Run, engine: Engine, code: u16, table: &Both<u8>) {
    let any = |such: &dyn Fn(&[u8], &[u8]) -> bool| {
        table.before.chunks(RECORD).zip(table.contents().chunks(RECORD)).any(|(before, after)| such(before, after))
    };
    let on = any(&|before, _| in_lpcm(before));
    let both = on && any(&|before, _| !in_lpcm(before));
    let unlocked = |record: &[u8]| record[at::UNLOCKED] == 1;
    let ends_unlocking = |before: &[u8], after: &[u8]| unlocked(before) && !unlocked(after);
    run.tally.of_command_if(engine, code, OfCommand::TakenInLpcm, on);
    let mut did_if = |effect, came_up| run.tally.did_if(engine, effect, came_up);
    match code {
        CMEN => {
            let enables = |before: &[u8], after: &[u8]| !in_lpcm(before) && differs(before) && !differs(after);
            did_if(Effect::CmenEnables, any(&enables));
            did_if(Effect::CmenOtherBits, any(&|before, after| !in_lpcm(before) && before[CMF1] & !ENABLED != 0 && after[CMF1] == ENABLED));
            did_if(Effect::CmenKeepsLast, any(&|before, after| in_lpcm(before) && differs(after)));
            did_if(Effect::CmenKeepsCmf1, any(&|before, after| in_lpcm(before) && after[CMF1] != ENABLED));
            did_if(Effect::CmenBoth, both);
            did_if(Effect::CmenKeepsCmf0, any(&|before, after| enables(before, after) && after[CMF0] != 0));
            let not_the_copy = |before: &[u8], after: &[u8]| enables(before, after) && snapped(before) && after[COPY] != after[LAST];
            did_if(Effect::CmenInSnapshot, any(&not_the_copy));
            did_if(Effect::SecondCmenAfter63, any(&|before, _| in_lpcm(before) && before[at::COUNTER] == 63));
            did_if(Effect::SecondCmenLocks, any(&|before, after| in_lpcm(before) && ends_unlocking(before, after)));
        }
        CMDIS => {
            let ends = |before: &[u8], after: &[u8]| in_lpcm(before) && after[CMF1] != 0 && after[CMF0] != 0 && differs(after);
            did_if(Effect::CmdisEnds, any(&ends));
            did_if(Effect::CmdisOfNone, any(&|before, after| !in_lpcm(before) && differs(after)));
            did_if(Effect::CmdisBoth, both);
            did_if(Effect::CmdisLocks, any(&ends_unlocking));
        }
        SNAP => {
            let copies = |before: &[u8], after: &[u8]| in_lpcm(before) && after[COPY] != before[COPY] && after[LAST] != after[COPY];
            did_if(Effect::SnapInLpcm, any(&copies));
        }
        CLRCELL => did_if(Effect::ClrcellInLpcm, any(&|before, after| in_lpcm(before) && differs(after))),
        ULRR => did_if(Effect::UlrrInLpcm, any(&|before, after| in_lpcm(before) && !unlocked(before) && unlocked(after))),
        _ => {}
    }
}
