//! L8, "One monitor's measurement": its cells, live and of the time before, by the thresholds of LPCM (the sheet's Table 115).

use crate::commands::at;
use crate::monitor::{code_of, keep_measurement, thresholds, Record};

/// In CMF0. The four bits above them are of the GPIOs, which nothing measures here.
const CUV: u8 = 1 << 0;
const COV: u8 = 1 << 1;
const CDVN: u8 = 1 << 2;
const CDVP: u8 = 1 << 3;
const ALL_FLAGS: u8 = 0xFF;

/// In status C: VA_OV, VA_UV, VD_OV and VD_UV; VDE, VDEL, SPIFLT, TMODCHK and OSCCHK.
const DIAGNOSTICS: [(usize, u8); 2] = [(at::STATUS_C + 4, 0xF0), (at::STATUS_C + 5, 0xD3)];

/// Measures. What is violated joins CMF0, where it stays until it is cleared, and the live cells are kept for the next time, those that are
/// left out too. Gives whether the monitor passes: CMF0 is 0 after it.
pub fn measure(record: &mut Record) -> bool {
    record[at::LPCM_FLAGS] |= if diagnostic_pending(record) { ALL_FLAGS } else { violations(record) };
    keep_measurement(record);
    record[at::LPCM_FLAGS] == 0
}

fn diagnostic_pending(record: &Record) -> bool {
    DIAGNOSTICS.iter().any(|&(byte, mask)| record[byte] & mask != 0)
}

fn violations(record: &Record) -> u8 {
    (0..16).filter(|&cell| !left_out(record, cell)).fold(0, |flags, cell| flags | violations_of(record, cell))
}

/// CMM_C: cells 1 to 8 in byte 2 of the configuration, 9 to 16 in byte 3. Cells count from 0 here.
fn left_out(record: &Record, cell: usize) -> bool {
    record[at::LPCM_CONFIGURATION + 2 + cell / 8] >> (cell % 8) & 1 == 1
}

/// A cleared cell is its code like any other.
fn violations_of(record: &Record, cell: usize) -> u8 {
    let (cuv, cov) = thresholds(record, at::LPCM_CELL_THRESHOLDS);
    let [code, last] = [at::CELLS, at::LAST].map(|cells| i32::from(code_of(record, cells, cell)));
    let step = 8 * delta_threshold(record);
    let flags =
        [(CUV, code < 16 * i32::from(cuv)), (COV, code > 16 * i32::from(cov)), (CDVN, last - code > step), (CDVP, code - last > step)];
    flags.into_iter().filter(|&(_, violated)| violated).fold(0, |all, (flag, _)| all | flag)
}

/// CDV: twelve bits that have no sign, in steps of 8 codes. What stands above them in its second byte is not looked at.
fn delta_threshold(record: &Record) -> i32 {
    let [low, high] = [3, 4].map(|byte| i32::from(record[at::LPCM_CELL_THRESHOLDS + byte]));
    (high & 0x0F) << 8 | low
}
