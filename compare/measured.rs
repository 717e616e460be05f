//! Which situations one monitor's measurement was (L8): read off its record before and after it.

use crate::asleep::{limits, masks, Limits, CDVN, CDVP, COV, CUV, DIAGNOSTICS};
use crate::inputs::{at, limits_from, snapped, CLEARED, CMF0, LAST};
use crate::run::Run;
use crate::tally::Situation;

struct Cell {
    code: i32,
    last: i32,
    /// What the cell reads show while a snapshot is on.
    copy: i32,
    left_out: bool,
}

fn cells(record: &[u8]) -> [Cell; 16] {
    let masks = masks(record);
    std::array::from_fn(|cell| {
        let [code, last, copy] = [at::CELLS, at::LAST, at::COPY].map(|first| {
            let bytes = &record[first + 2 * cell..];
            i32::from(i16::from_le_bytes([bytes[0], bytes[1]]))
        });
        Cell { code, last, copy, left_out: masks >> cell & 1 == 1 }
    })
}

/// The flags that a cell calls for with this code.
fn due(limits: &Limits, code: i32, last: i32) -> u8 {
    let flags =
        [(CUV, code < limits.lower), (COV, code > limits.upper), (CDVN, last - code > limits.jump), (CDVP, code - last > limits.jump)];
    flags.into_iter().fold(0, |all, (flag, past)| if past { all | flag } else { all })
}

pub fn note(run: &mut Run, before: &[u8], after: &[u8]) {
    let pending = DIAGNOSTICS.iter().any(|&(byte, mask)| before[byte] & mask != 0);
    let tally = &mut run.tally;
    let (stood, stands) = (before[CMF0], after[CMF0]);
    tally.saw_if(Situation::DiagnosticPending, pending && stood == 0 && stands == 0xFF);
    tally.saw_if(Situation::OtherStatusBits, DIAGNOSTICS.iter().all(|&(byte, mask)| before[byte] & !mask != 0) && stands == 0);
    tally.saw_if(Situation::FlagsStay, stood != 0 && stands == stood);
    tally.saw_if(Situation::FlagsJoin, stood != 0 && stands != stood);
    for (situation, flag) in
        [(Situation::CuvAlone, CUV), (Situation::CovAlone, COV), (Situation::CdvnAlone, CDVN), (Situation::CdvpAlone, CDVP)]
    {
        tally.saw_if(situation, stood == 0 && stands == flag);
    }
    if !pending {
        note_limits(run, before, after);
        note_cells(run, before, after);
    }
}

/// The farthest cells of those that are measured, and the limits that they lie within or past.
fn note_limits(run: &mut Run, before: &[u8], after: &[u8]) {
    let limits = limits(before);
    let measured: Vec<Cell> = cells(before).into_iter().filter(|cell| !cell.left_out).collect();
    let farthest = |distance: &dyn Fn(&Cell) -> i32| measured.iter().map(distance).max();
    let (clear, set) = (|flags: u8| after[CMF0] & flags == 0, |flag: u8| after[CMF0] & !before[CMF0] & flag != 0);
    // How far past each limit the farthest cell is: 0 at the limit, which is not violated yet.
    let past = [
        (CUV, farthest(&|cell| limits.lower - cell.code), Situation::AtCuv, Situation::BelowCuv),
        (COV, farthest(&|cell| cell.code - limits.upper), Situation::AtCov, Situation::AboveCov),
        (CDVN, farthest(&|cell| cell.last - cell.code - limits.jump), Situation::FallOfCdv, Situation::FallOfMore),
        (CDVP, farthest(&|cell| cell.code - cell.last - limits.jump), Situation::RiseOfCdv, Situation::RiseOfMore),
    ];
    let tally = &mut run.tally;
    for (flag, distance, at, past) in past {
        tally.saw_if(at, distance == Some(0) && clear(flag));
        tally.saw_if(past, distance == Some(1) && set(flag));
    }
    tally.saw_if(Situation::AllLeftOut, measured.is_empty() && after[CMF0] == 0);
    // Read without its sign a CUV would be above every code, and a COV too; CDV with one would be below every jump.
    tally.saw_if(Situation::CuvBelowZero, limits.lower < 0 && !measured.is_empty() && clear(CUV));
    tally.saw_if(Situation::CovBelowZero, limits.upper < 0 && set(COV));
    tally.saw_if(Situation::CdvWithoutSign, limits.cdv >= 0x800 && !measured.is_empty() && clear(CDVN | CDVP));
    let above_cdv = before[at::LPCM_CELL_THRESHOLDS + 4] & 0xF0 != 0;
    tally.saw_if(Situation::CdvBitsAbove, above_cdv && set(CDVN | CDVP));
    let widest = farthest(&|cell| (cell.code - cell.last).abs());
    tally.saw_if(Situation::WideJump, widest > Some(32767) && set(CDVN | CDVP));
}

fn note_cells(run: &mut Run, before: &[u8], after: &[u8]) {
    let limits = limits(before);
    let cells = cells(before);
    let of_all = |due: &dyn Fn(&Cell) -> u8| cells.iter().filter(|cell| !cell.left_out).fold(0, |flags, cell| flags | due(cell));
    let by_code = of_all(&|cell| due(&limits, cell.code, cell.last));
    let some_clear = |flags: u8| flags & !after[CMF0] != 0;
    let tally = &mut run.tally;
    let is_cleared = |cell: &Cell| cell.code == i32::from(CLEARED) && !cell.left_out;
    let others = of_all(&|cell| if is_cleared(cell) { 0 } else { due(&limits, cell.code, cell.last) });
    tally.saw_if(Situation::ClearedIsLow, others & CUV == 0 && after[CMF0] & !before[CMF0] & CUV != 0);
    tally.saw_if(Situation::ClearedPasses, cells.iter().any(is_cleared) && after[CMF0] == 0);
    tally.saw_if(Situation::LeftOut, cells.iter().any(|cell| cell.left_out && some_clear(due(&limits, cell.code, cell.last))));
    tally.saw_if(Situation::LeftOutKept, cells.iter().any(|cell| cell.left_out && cell.code != cell.last));
    let by_copy = of_all(&|cell| due(&limits, cell.copy, cell.last));
    tally.saw_if(Situation::NotTheCopy, snapped(before) && (some_clear(by_copy) || by_code & !by_copy & !before[CMF0] != 0));
    let (lower, upper) = limits_from(before, at::CONFIGURATION_B);
    let by_b = Limits { lower, upper, ..limits };
    tally.saw_if(Situation::NotByVuvAndVov, some_clear(of_all(&|cell| due(&by_b, cell.code, cell.last))));
    tally.saw_if(Situation::SameMeasurement, before[LAST] == after[LAST]);
}
