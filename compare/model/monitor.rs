//! One monitor's record: what a command does to it, what it replies, and its cells stored, compared and loaded ("Effects", "Counter",
//! "Thresholds", L1, the PWM groups of L2, retention by L3, the copy of the cells of L6, and what L8 has of settings and enabling; its
//! heartbeat is in `measurement` and `turn`).

use crate::check_words::{payload, payload_right};
use crate::commands::{at, Bare, Read, Write};

pub const RECORD: usize = 170;
pub type Record = [u8; RECORD];

/// The counter has six bits.
pub const MOST_COUNT: u8 = 63;

/// The cells, their copy and the last measurement as well: sixteen of two bytes.
const CELL_BYTES: usize = 32;
pub const CLEARED: i16 = -32768;

const WRCFGA_MASKS: [u8; 6] = [0x87, 0xFF, 0xF8, 0xFF, 0x03, 0x0F];
pub const MUTE_ST: u8 = 1 << 4;
pub const SNAP_ST: u8 = 1 << 5;
/// What CLRFLAG may clear in status C: nothing in bytes 2 and 3, nor bit 5 of byte 5.
const CLRFLAG_MASKS: [u8; 6] = [0xFF, 0xFF, 0x00, 0x00, 0xFF, 0xDF];
/// Bytes 2 to 5 of PWM group B: the memory map has all ones there, so what is sent for them is lost.
const PWM_B_FIXED: [u8; 4] = [0xFF; 4];
/// What WRCMCELLT and WRCMGPIOT store (Tables 98 and 99): the rest of both groups is 0.
const LPCM_THRESHOLD_MASKS: [u8; 6] = [0xFF, 0xFF, 0xFF, 0xFF, 0x0F, 0x00];
/// CMF1 (Table 100): LPCM is on; and the two flags of a timeout monitor, which stand until its first pass.
pub const CMC_EN: u8 = 1 << 7;
pub const CMF_BTMWD: u8 = 1 << 1;
pub const CMF_BTMCMP: u8 = 1 << 0;

pub fn sound(record: &Record) -> bool {
    record[at::COUNTER] <= MOST_COUNT && record[at::UNLOCKED] <= 1
}

pub fn reply(record: &Record, read: Read) -> [u8; 8] {
    let cells = if snapshot_on(record) { at::COPY } else { at::CELLS };
    let six = match read {
        Read::SixFrom(first) => std::array::from_fn(|byte| record[first + byte]),
        Read::CellsFrom(first) => std::array::from_fn(|byte| record[cells + first + byte]),
        Read::Cell16 => [record[cells + 30], record[cells + 31], 0xFF, 0xFF, 0xFF, 0xFF],
    };
    payload(six, record[at::COUNTER])
}

/// Also in a record that was lent so: its copy is then what the reads show, whatever it holds.
fn snapshot_on(record: &Record) -> bool {
    record[at::CONFIGURATION_A + 5] & SNAP_ST != 0
}

/// Every command but ULRR ends an unlocking, whether the monitor takes it or not.
pub fn lock(record: &mut Record) {
    record[at::UNLOCKED] = 0;
}

/// Also in a record that was lent so.
pub fn in_lpcm(record: &Record) -> bool {
    record[at::LPCM_FLAGS + 1] & CMC_EN != 0
}

/// Whether the monitor took the payload, which in LPCM it never does.
pub fn write(record: &mut Record, write: Write, sent: &[u8]) -> bool {
    let unlocked = record[at::UNLOCKED] == 1;
    lock(record);
    if in_lpcm(record) || write.needs_check() && !payload_right(sent) {
        return false;
    }
    let data = &sent[..write.data_bytes()];
    match write {
        Write::Wrcfga => {
            let kept = record[at::CONFIGURATION_A + 5] & (SNAP_ST | MUTE_ST);
            for byte in 0..6 {
                record[at::CONFIGURATION_A + byte] = data[byte] & WRCFGA_MASKS[byte];
            }
            record[at::CONFIGURATION_A + 5] |= kept;
        }
        Write::Wrcfgb => record[at::CONFIGURATION_B..][..6].copy_from_slice(data),
        Write::Wrrr => {
            if unlocked {
                record[at::RETENTION..][..6].copy_from_slice(data);
            }
        }
        Write::Clrflag => {
            for byte in 0..6 {
                record[at::STATUS_C + byte] &= !(data[byte] & CLRFLAG_MASKS[byte]);
            }
        }
        Write::Clovuv => {
            for byte in 0..4 {
                record[at::STATUS_D + byte] &= !data[byte];
            }
        }
        Write::Wrpwma => record[at::PWM_A..][..6].copy_from_slice(data),
        Write::Wrpwmb => {
            record[at::PWM_B..][..2].copy_from_slice(&data[..2]);
            record[at::PWM_B + 2..][..4].copy_from_slice(&PWM_B_FIXED);
        }
        Write::Wrcmcfg => record[at::LPCM_CONFIGURATION..][..6].copy_from_slice(data),
        Write::Wrcmcellt => store_masked(record, at::LPCM_CELL_THRESHOLDS, data),
        Write::Wrcmgpiot => store_masked(record, at::LPCM_GPIO_THRESHOLDS, data),
        // Of CMF0 alone: the second byte does nothing.
        Write::Clrcmflag => record[at::LPCM_FLAGS] &= !data[0],
    }
    count(record);
    true
}

fn store_masked(record: &mut Record, first: usize, data: &[u8]) {
    for byte in 0..6 {
        record[first + byte] = data[byte] & LPCM_THRESHOLD_MASKS[byte];
    }
}

pub fn bare(record: &mut Record, bare: Bare) {
    lock(record);
    count(record);
    match bare {
        Bare::Mute => record[at::CONFIGURATION_A + 5] |= MUTE_ST,
        Bare::Unmute => record[at::CONFIGURATION_A + 5] &= !MUTE_ST,
        Bare::Rstcc => record[at::COUNTER] = 0,
        Bare::Ulrr => record[at::UNLOCKED] = 1,
        Bare::Clrcell => {
            for cell in 0..16 {
                set_cell(record, cell, CLEARED);
            }
        }
        // A second one leaves the moment of the first.
        Bare::Snap if snapshot_on(record) => {}
        Bare::Snap => {
            record.copy_within(at::CELLS..at::CELLS + CELL_BYTES, at::COPY);
            record[at::CONFIGURATION_A + 5] |= SNAP_ST;
        }
        Bare::Unsnap => record[at::CONFIGURATION_A + 5] &= !SNAP_ST,
        // A second one takes no other measurement: a jump since the last would be hidden.
        Bare::Cmen if in_lpcm(record) => {}
        Bare::Cmen => {
            record[at::LPCM_FLAGS + 1] = CMC_EN | CMF_BTMWD | CMF_BTMCMP;
            keep_measurement(record);
        }
        Bare::Cmdis => record[at::LPCM_FLAGS + 1] &= !CMC_EN,
    }
}

/// The live cells become those of the last measurement.
pub fn keep_measurement(record: &mut Record) {
    record.copy_within(at::CELLS..at::CELLS + CELL_BYTES, at::LAST);
}

/// After the most comes 1: 0 stands for a reset.
fn count(record: &mut Record) {
    record[at::COUNTER] = if record[at::COUNTER] == MOST_COUNT { 1 } else { record[at::COUNTER] + 1 };
}

fn set_cell(record: &mut Record, cell: usize, code: i16) {
    record[at::CELLS + 2 * cell..][..2].copy_from_slice(&code.to_le_bytes());
}

/// Of the sixteen cells that begin at this byte.
pub fn code_of(record: &Record, first: usize, cell: usize) -> i16 {
    i16::from_le_bytes([record[first + 2 * cell], record[first + 2 * cell + 1]])
}

/// The lower and the upper threshold in the three bytes from this one on, as steps of 16 codes: VUV and VOV, or CUV and COV.
pub fn thresholds(record: &Record, first: usize) -> (i16, i16) {
    let [low, middle, high] = [0, 1, 2].map(|byte| u16::from(record[first + byte]));
    (twelve_bits((middle & 0x0F) << 8 | low), twelve_bits(high << 4 | middle >> 4))
}

fn twelve_bits(bits: u16) -> i16 {
    (bits << 4) as i16 >> 4
}

/// Sets the flags of a cell with this code; a flag that stands is left standing.
fn set_flags(record: &mut Record, cell: usize, code: i16) {
    let (vuv, vov) = thresholds(record, at::CONFIGURATION_B);
    let uv = i32::from(code) < 16 * i32::from(vuv);
    let ov = i32::from(code) > 16 * i32::from(vov);
    record[at::STATUS_D + cell / 4] |= (u8::from(ov) << 1 | u8::from(uv)) << (2 * (cell % 4));
}

pub fn store(record: &mut Record, codes: &[i16; 16]) {
    for (cell, &code) in codes.iter().enumerate() {
        set_cell(record, cell, code);
    }
}

/// The cells as they stand now, with the thresholds as they stand now. A cleared cell is no reading and is skipped.
pub fn compare(record: &mut Record) {
    for cell in 0..16 {
        let code = code_of(record, at::CELLS, cell);
        if code != CLEARED {
            set_flags(record, cell, code);
        }
    }
}

/// The load of document 01, which L1 wants store and compare to equal. It is not made of the two, so that it can be held against them.
pub fn load(record: &mut Record, codes: &[i16; 16]) {
    for (cell, &code) in codes.iter().enumerate() {
        set_cell(record, cell, code);
        set_flags(record, cell, code);
    }
}
