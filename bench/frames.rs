//! Section 2: whole frames, a load, and the question of discharge.

use crate::inputs::{snapped, Frames, Random, COUNTER, INPUTS, RECORD, SIZES};
use crate::sides::Side;
use crate::table::{row, table, Goal};
use crate::work::{self, timed};

pub fn whole(sides: &[Side], names: &[&str], random: &mut Random) {
    let mut rows = Vec::new();
    for n in SIZES {
        let lent = random.live_table(n);
        let frames = Frames::new(&sides[0], n, random);
        let mut unsound = lent.clone();
        unsound[(n - 1) * RECORD + COUNTER] = 64;
        let mut add = |what: &str, lent: &[u8], set: &[Vec<u8>]| {
            let what = format!("N = {n}: {what}");
            let found = timed(&what, lent, sides, |s| work::frame(s, set));
            rows.push(row(what, found, sides.len(), Goal::Ratio));
        };
        add("write (WRCFGB)", &lent, &frames.writes);
        add("read (RDCVA)", &lent, &frames.reads);
        add("read in a snapshot", &snapped(&lent), &frames.reads);
        add("16 commands in turn", &lent, &frames.mixed);
        add("SNAP and UNSNAP in turn", &lent, &frames.snaps);
        add("refused, 1: last record", &unsound, &frames.writes);
        add("refused, 3", &lent, &frames.command_wrong);
        add("refused, 5: a byte short", &lent, &frames.length_wrong);
        let codes: Vec<Vec<i16>> = (0..INPUTS).map(|_| random.codes(16)).collect();
        let load = timed("load", &lent, sides, |s| work::load(s, &codes));
        rows.push(row(format!("N = {n}: load at position N"), load, sides.len(), Goal::None));
        // Row 6 would decide all outputs at once.
        let mut unmuted = lent;
        unmuted[(n - 1) * RECORD + 5] &= !0x10;
        let discharge = timed("discharge", &unmuted, sides, work::discharge);
        rows.push(row(format!("N = {n}: discharge at position N"), discharge, sides.len(), Goal::None));
    }
    table("2. Whole frames", names, &rows);
}
