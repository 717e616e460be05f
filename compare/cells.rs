//! Which situations an accepted store, compare or load was: cell by cell, read off the table before and after.

use crate::inputs::{at, limits, snapped, CELLS, CLEARED, COPY, RECORD};
use crate::lent::Both;
use crate::run::Run;
use crate::tally::Situation;

const UV: u8 = 1;
const OV: u8 = 2;

/// One cell as the call left it, and its two flags: those that its code calls for, those that its copy would call for while a snapshot is
/// on, those before and those after.
struct Cell {
    code: i16,
    due: u8,
    due_by_copy: Option<u8>,
    before: u8,
    after: u8,
}

impl Cell {
    fn set(&self) -> u8 {
        self.after & !self.before
    }

    /// A flag stands that the code does not call for.
    fn kept(&self) -> bool {
        self.code != CLEARED && self.before & self.after & !self.due != 0
    }

    /// A flag is set that the copy would not call for, or one that it would is not.
    fn not_by_copy(&self) -> bool {
        self.due_by_copy.is_some_and(|due| self.set() & !due != 0 || due & !self.after != 0)
    }
}

fn cells(table: &Both<u8>, position: usize) -> [Cell; 16] {
    let place = RECORD * (position - 1)..RECORD * position;
    let (before, after) = (&table.before[place.clone()], &table.contents()[place]);
    let (lower, upper) = limits(after);
    let due = |code: i16| {
        let below = u8::from(i32::from(code) < lower) * UV;
        let above = u8::from(i32::from(code) > upper) * OV;
        below | above
    };
    std::array::from_fn(|cell| {
        let [code, copy] = [CELLS, COPY].map(|cells| {
            let bytes = &after[cells][2 * cell..];
            i16::from_le_bytes([bytes[0], bytes[1]])
        });
        let flags = |record: &[u8]| record[at::STATUS_D + cell / 4] >> (2 * (cell % 4)) & (UV | OV);
        let due_by_copy = snapped(after).then(|| if copy == CLEARED { 0 } else { due(copy) });
        Cell { code, due: due(code), due_by_copy, before: flags(before), after: flags(after) }
    })
}

pub fn note_store(run: &mut Run, table: &Both<u8>, position: usize) {
    let cells = cells(table, position);
    run.tally.saw_if(Situation::StoreFlagsNothing, cells.iter().any(|cell| cell.due & !cell.after != 0));
    run.tally.saw_if(Situation::StoreKeepsFlag, cells.iter().any(Cell::kept));
    let record = &table.contents()[RECORD * (position - 1)..][..RECORD];
    run.tally.saw_if(Situation::StoreInSnapshot, snapped(record) && record[CELLS] != record[COPY]);
}

pub fn note_compare(run: &mut Run, table: &Both<u8>, position: usize) {
    let cells = cells(table, position);
    run.tally.saw_if(Situation::CompareSetsUv, cells.iter().any(|cell| cell.set() & UV != 0));
    run.tally.saw_if(Situation::CompareSetsOv, cells.iter().any(|cell| cell.set() & OV != 0));
    run.tally.saw_if(Situation::CompareKeepsFlag, cells.iter().any(Cell::kept));
    // Skipping shows only here: the lowest code of all is above no threshold, and below none where VUV is -2048.
    run.tally.saw_if(Situation::CompareSkipsCleared, cells.iter().any(|cell| cell.code == CLEARED && cell.due & !cell.after != 0));
    run.tally.saw_if(Situation::CompareInSnapshot, cells.iter().any(Cell::not_by_copy));
    run.tally.saw_if(Situation::CompareChangesNothing, table.contents() == table.before);
}

pub fn note_load(run: &mut Run, table: &Both<u8>, position: usize) {
    let cells = cells(table, position);
    run.tally.saw_if(Situation::LoadSetsUv, cells.iter().any(|cell| cell.set() & UV != 0));
    run.tally.saw_if(Situation::LoadSetsOv, cells.iter().any(|cell| cell.set() & OV != 0));
    run.tally.saw_if(Situation::LoadKeepsFlag, cells.iter().any(Cell::kept));
    run.tally.saw_if(Situation::LoadInSnapshot, cells.iter().any(Cell::not_by_copy));
}
