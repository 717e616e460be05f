//! L8's measurement by hand, from the sheet's Tables 97, 98 and 115.

use crate::measurement::measure;
use crate::*;

/// 2.5 V is CUV 1A1h and so 6672 codes, 4.2 V is COV 465h and 18000, 0.2 V is CDV 0A7h and 1336.
const USUAL: [u8; 6] = [0xA1, 0x51, 0x46, 0xA7, 0x00, 0x00];
const USUAL_CODE: i16 = 14000;

const CUV: u8 = 0x01;
const COV: u8 = 0x02;
const CDVN: u8 = 0x04;
const CDVP: u8 = 0x08;

/// A monitor in LPCM that passes: every cell has this code and had it before, and no flag stands. Its snapshot is on, and the copy, VUV, VOV and
/// the thresholds of the GPIOs are such that by them all cells would fail.
fn asleep(thresholds: [u8; 6], code: i16) -> [u8; RECORD] {
    let mut record = [0x5A; RECORD];
    record[5] = 0x20;
    record[6..9].copy_from_slice(&[0xFF, 0x07, 0x80]);
    record[48..50].copy_from_slice(&[0x0F, 0x2C]);
    record[68..70].copy_from_slice(&[33, 1]);
    record[82..114].fill(0x80);
    record[114..120].copy_from_slice(&[0x00, 0x48, 0x00, 0x00, 0x03, 0x00]);
    record[120..126].copy_from_slice(&thresholds);
    record[126..132].copy_from_slice(&[0xFF, 0x07, 0x80, 0x00, 0x00, 0x00]);
    record[132..134].copy_from_slice(&[0x00, 0x83]);
    for cell in 1..=16 {
        set(&mut record, cell, code, code);
    }
    record
}

/// The cell's code now and before.
fn set(record: &mut [u8; RECORD], cell: usize, code: i16, last: i16) {
    record[12 + 2 * (cell - 1)..][..2].copy_from_slice(&code.to_le_bytes());
    record[138 + 2 * (cell - 1)..][..2].copy_from_slice(&last.to_le_bytes());
}

/// CMF0 after a measurement. No other byte may change but those of the last measurement, which become the live cells.
fn measured(record: [u8; RECORD]) -> u8 {
    let mut after = record;
    let passes = measure(&mut after);
    let cmf0 = after[132];
    let mut expected = record;
    expected[132] = cmf0;
    expected[138..170].copy_from_slice(&record[12..44]);
    assert_eq!(after, expected);
    assert_eq!(passes, cmf0 == 0);
    cmf0
}

/// With this code now and that before, at each cell in turn.
fn of_one_cell(thresholds: [u8; 6], others: i16, code: i16, last: i16) -> u8 {
    let found = (1..=16).map(|cell| {
        let mut record = asleep(thresholds, others);
        set(&mut record, cell, code, last);
        measured(record)
    });
    let found: Vec<u8> = found.collect();
    assert!(found.iter().all(|&flags| flags == found[0]), "{found:02X?}");
    found[0]
}

#[test]
fn one_step_within_each_limit_and_one_outside() {
    assert_eq!(measured(asleep(USUAL, USUAL_CODE)), 0);
    for (code, last, flags) in [
        (6672, 6672, 0),
        (6671, 6671, CUV),
        (18000, 18000, 0),
        (18001, 18001, COV),
        (15336, 14000, 0),
        (15337, 14000, CDVP),
        (12664, 14000, 0),
        (12663, 14000, CDVN),
        // A cell that falls below the lower limit has both, also by one code; so has one that rises above the upper one.
        (6671, 8007, CUV),
        (6671, 8008, CUV | CDVN),
        (18001, 16665, COV),
        (18001, 16664, COV | CDVP),
        // It may come from outside.
        (6672, 5336, 0),
        (6672, 5335, CDVP),
    ] {
        assert_eq!(of_one_cell(USUAL, USUAL_CODE, code, last), flags, "{code} after {last}");
    }
}

/// CUV and COV have twelve bits and a sign: 800h is -32768 codes, FFFh -16, 7FFh 32752.
#[test]
fn the_sign_of_a_limit() {
    let cases: [([u8; 3], &[(i16, u8)]); 6] = [
        // CUV 800h, COV 7FFh: nothing is too low.
        ([0x00, 0xF8, 0x7F], &[(-32768, 0), (0, 0), (32752, 0), (32753, COV), (32767, COV)]),
        // CUV 801h, COV 7FEh.
        ([0x01, 0xE8, 0x7F], &[(-32768, CUV), (-32753, CUV), (-32752, 0), (32736, 0), (32737, COV)]),
        // CUV FFFh, COV 000h.
        ([0xFF, 0x0F, 0x00], &[(-17, CUV), (-16, 0), (0, 0), (1, COV)]),
        // Crossed: CUV 000h, COV FFFh.
        ([0x00, 0xF0, 0xFF], &[(-17, CUV), (-16, CUV), (-15, CUV | COV), (-1, CUV | COV), (0, COV), (1, COV)]),
        // CUV 7FFh, COV 7FFh; and both 800h.
        ([0xFF, 0xF7, 0x7F], &[(32751, CUV), (32752, 0), (32753, COV), (-32768, CUV)]),
        ([0x00, 0x08, 0x80], &[(-32768, 0), (-32767, COV), (32767, COV)]),
    ];
    for ([low, middle, high], codes) in cases {
        for &(code, flags) in codes {
            assert_eq!(measured(asleep([low, middle, high, 0x00, 0x00, 0x00], code)), flags, "{low:02X} {middle:02X} {high:02X}, {code}");
        }
    }
}

/// CDV has twelve bits and no sign. What a record was lent with above them, and in the sixth byte, is nothing to it.
#[test]
fn the_size_of_a_jump() {
    for (cdv, code, last, flags) in [
        ([0x00, 0x00, 0x00], 1, 1, 0),
        ([0x00, 0x00, 0x00], 2, 1, CDVP),
        ([0x00, 0x00, 0x00], 1, 2, CDVN),
        ([0x01, 0x00, 0x00], 8, 0, 0),
        ([0x01, 0x00, 0x00], 9, 0, CDVP),
        ([0x01, 0x00, 0x00], -8, 0, 0),
        ([0x01, 0x00, 0x00], -9, 0, CDVN),
        // 800h is 16384 codes and FFFh 32760.
        ([0x00, 0x08, 0x00], 16384, 0, 0),
        ([0x00, 0x08, 0x00], 16385, 0, CDVP),
        ([0x00, 0xF8, 0xFF], 16384, 0, 0),
        ([0x00, 0xF8, 0xFF], 16385, 0, CDVP),
        ([0xFF, 0x0F, 0x00], -8, -32768, 0),
        ([0xFF, 0x0F, 0x00], -7, -32768, CDVP),
        ([0xFF, 0x0F, 0x00], 7, 32767, 0),
        ([0xFF, 0x0F, 0x00], 6, 32767, CDVN),
        // In sixteen bits these would be one code down, and one up.
        ([0xFF, 0x0F, 0x00], 32767, -32768, CDVP),
        ([0xFF, 0x0F, 0x00], -32768, 32767, CDVN),
    ] {
        // CUV 800h and COV 7FFh; a code above 32752 would be too high all the same.
        let thresholds = [0x00, 0xF8, 0x7F, cdv[0], cdv[1], cdv[2]];
        let too_high = if code > 32752 { COV } else { 0 };
        assert_eq!(of_one_cell(thresholds, 0, code, last), flags | too_high, "CDV {cdv:02X?}, {code} after {last}");
    }
}

/// A cell that was never measured is below every CUV but 800h.
#[test]
fn a_cleared_cell() {
    assert_eq!(of_one_cell(USUAL, USUAL_CODE, -32768, -32768), CUV);
    assert_eq!(of_one_cell(USUAL, USUAL_CODE, -32768, USUAL_CODE), CUV | CDVN);
    assert_eq!(of_one_cell(USUAL, USUAL_CODE, USUAL_CODE, -32768), CDVP);
    assert_eq!(of_one_cell([0x00, 0xF8, 0x7F, 0xFF, 0x0F, 0x00], 0, -32768, -32768), 0);
}

/// CMM_C: a bit set leaves its cell out, and no other. Its code is the last measurement all the same, which `measured` sees to.
#[test]
fn cells_left_out() {
    for cell in 1..=16 {
        for (code, last, flags) in
            [(6671, 6671, CUV), (18001, 18001, COV), (12663, 14000, CDVN), (15337, 14000, CDVP), (-32768, 0, CUV | CDVN)]
        {
            let mut record = asleep(USUAL, USUAL_CODE);
            set(&mut record, cell, code, last);
            for masked in 1..=16 {
                let mut record = record;
                record[116 + (masked - 1) / 8] = 1 << ((masked - 1) % 8);
                assert_eq!(measured(record), if masked == cell { 0 } else { flags }, "cell {cell}, {masked} left out");
            }
            record[116..118].fill(0xFF);
            assert_eq!(measured(record), 0);
            // CMM_C17 and CMM_C18 have no cell here, and CMM_G none either: all of bytes 4 and 5.
            record[116..120].copy_from_slice(&[0x00, 0x00, 0xFF, 0xFF]);
            assert_eq!(measured(record), flags);
        }
    }
}

/// Nine bits of status C, in byte 4 (mask F0) and byte 5 (mask D3). With none of them, and all the others, a monitor passes.
#[test]
fn a_diagnostic_pending() {
    for (byte, mask) in [(48, 0xF0), (49, 0xD3)] {
        for bit in (0..8).map(|bit| 1 << bit) {
            for mask_of_cells in [0x00, 0xFF] {
                let mut record = asleep(USUAL, USUAL_CODE);
                record[44..50].copy_from_slice(&[0xFF, 0xFF, 0xFF, 0xFF, 0x00, 0x00]);
                record[byte] = bit;
                record[116..118].fill(mask_of_cells);
                assert_eq!(measured(record), if bit & mask != 0 { 0xFF } else { 0 }, "byte {byte}, bit {bit:02X}");
            }
        }
    }
}

/// A flag stands until CLRCMFLAG, of the GPIOs too, and a monitor with one does not pass. Other ones join.
#[test]
fn flags_stay() {
    for stood in [0x01, 0x10, 0x80, 0xFF] {
        let mut record = asleep(USUAL, USUAL_CODE);
        record[132] = stood;
        assert_eq!(measured(record), stood);
        set(&mut record, 16, 18001, 18001);
        assert_eq!(measured(record), stood | COV);
    }
    // Twice: a jump is one only the first time, and its flag stays.
    let mut record = asleep(USUAL, USUAL_CODE);
    set(&mut record, 3, 15337, 14000);
    assert!(!measure(&mut record));
    assert_eq!(record[132], CDVP);
    assert_eq!(measured(record), CDVP);
    record[132] = 0;
    assert_eq!(measured(record), 0);
}

/// Several cells, each with another fault.
#[test]
fn the_flags_of_all_cells() {
    let mut record = asleep(USUAL, USUAL_CODE);
    for (cell, code, last, flags) in [(1, 6671, 6671, 0x01), (8, 18001, 18001, 0x03), (9, 12663, 14000, 0x07), (16, 15337, 14000, 0x0F)] {
        set(&mut record, cell, code, last);
        assert_eq!(measured(record), flags);
    }
}
