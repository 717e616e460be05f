//! Monitors in LPCM to try (L8): what each of them is, and settings and cells that pass, or fail by one thing alone.

use crate::inputs::{self, at, in_lpcm, limits_from, set_lpcm, set_thresholds, CLEARED, CMF0, RECORD};
use crate::random::Random;
pub use crate::surface::{PORT_A, PORT_B};
use std::ops::RangeInclusive;

pub const CUV: u8 = 1 << 0;
pub const COV: u8 = 1 << 1;
pub const CDVN: u8 = 1 << 2;
pub const CDVP: u8 = 1 << 3;

/// Places of the LPCM configuration, and bits in them.
pub const ROLE: usize = at::LPCM_CONFIGURATION;
pub const NDEV: usize = at::LPCM_CONFIGURATION + 1;
pub const MASKS: usize = at::LPCM_CONFIGURATION + 2;
pub const DIRECTION: usize = at::LPCM_CONFIGURATION + 4;
pub const MAN: u8 = 0x80;
pub const BTM: u8 = 0x08;
const DIR: u8 = 0x20;

/// Pending diagnostics in status C.
pub const DIAGNOSTICS: [(usize, u8); 2] = [(at::STATUS_C + 4, 0xF0), (at::STATUS_C + 5, 0xD3)];

pub const PORTS: [u32; 2] = [PORT_A, PORT_B];

#[derive(Clone, Copy, Debug, PartialEq, Eq)]
pub enum Role {
    Manager,
    TimeoutMonitor,
    Monitor,
    Awake,
}

pub fn role(record: &[u8]) -> Role {
    match (in_lpcm(record), record[ROLE] & MAN != 0, record[ROLE] & BTM != 0) {
        (false, _, _) => Role::Awake,
        (true, true, _) => Role::Manager,
        (true, false, true) => Role::TimeoutMonitor,
        (true, false, false) => Role::Monitor,
    }
}

/// The other bits of the byte stay; a manager may have CMC_BTM set too, and a monitor that is not in LPCM any of both.
pub fn set_role(random: &mut Random, record: &mut [u8], role: Role) {
    let any = random.byte();
    record[ROLE] = record[ROLE] & !(MAN | BTM)
        | match role {
            Role::Manager => MAN | any & BTM,
            Role::TimeoutMonitor => BTM,
            Role::Monitor => 0,
            Role::Awake => any & (MAN | BTM),
        };
    set_lpcm(record, role != Role::Awake);
}

pub fn set_port(record: &mut [u8], port: u32) {
    record[DIRECTION] = record[DIRECTION] & !DIR | if port == PORT_A { DIR } else { 0 };
}

/// The port that a manager sends towards.
pub fn port(record: &[u8]) -> u32 {
    if record[DIRECTION] & DIR != 0 {
        PORT_A
    } else {
        PORT_B
    }
}

/// Where a message goes from the monitor at this position on, nearest first.
pub fn on_the_way(monitors: usize, position: usize, port: u32) -> Vec<usize> {
    if port == PORT_A {
        (1..position).rev().collect()
    } else {
        (position + 1..=monitors).collect()
    }
}

/// A right measurement lies within: 16 CUV to 16 COV, and no farther than 8 CDV from the last.
pub struct Limits {
    pub lower: i32,
    pub upper: i32,
    pub cdv: i32,
    pub jump: i32,
}

pub fn limits(record: &[u8]) -> Limits {
    let (lower, upper) = limits_from(record, at::LPCM_CELL_THRESHOLDS);
    let [low, high] = [3, 4].map(|byte| i32::from(record[at::LPCM_CELL_THRESHOLDS + byte]));
    let cdv = (high & 0x0F) << 8 | low;
    Limits { lower, upper, cdv, jump: 8 * cdv }
}

/// What stands above the twelve bits of CDV stays.
pub fn set_cdv(record: &mut [u8], cdv: u16) {
    let [low, high] = [3, 4].map(|byte| at::LPCM_CELL_THRESHOLDS + byte);
    record[low] = cdv as u8;
    record[high] = record[high] & 0xF0 | (cdv >> 8) as u8;
}

/// CMM_C, cell 1 lowest.
pub fn masks(record: &[u8]) -> u16 {
    u16::from_le_bytes([record[MASKS], record[MASKS + 1]])
}

pub fn set_masks(record: &mut [u8], masks: u16) {
    record[MASKS..][..2].copy_from_slice(&masks.to_le_bytes());
}

/// The code of a cell now, and at the last measurement. Cells count from 0.
pub fn set_codes(record: &mut [u8], cell: usize, code: i16, last: i16) {
    for (first, code) in [(at::CELLS, code), (at::LAST, last)] {
        record[first + 2 * cell..][..2].copy_from_slice(&code.to_le_bytes());
    }
}

fn between(random: &mut Random, range: RangeInclusive<i32>) -> i32 {
    let (low, high) = range.into_inner();
    low + random.below((high - low + 1) as usize) as i32
}

/// One of the ends, or any.
fn mostly_ends(random: &mut Random, low: i32, high: i32) -> i32 {
    let any = between(random, low..=high);
    random.pick(&[low, high, any, any])
}

/// No flag stands, nothing is pending, and every cell that is not left out lies within the limits, often at one: the monitor passes.
pub fn set_passing(random: &mut Random, record: &mut [u8]) {
    let lower = mostly_ends(random, -2048, 2047);
    let upper = mostly_ends(random, lower, 2047);
    set_thresholds(record, at::LPCM_CELL_THRESHOLDS, lower as i16, upper as i16);
    let cdv = random.below(0x1000) as u16;
    let cdv = random.pick(&[0, 1, 0x0A7, 0x7FF, 0x800, 0xFFF, cdv]);
    set_cdv(record, cdv);
    let some = random.next() as u16 & random.next() as u16;
    // One cell at least is measured.
    let masks = random.pick(&[0, 0, some, !some]) & !(1 << random.below(16));
    set_masks(record, masks);
    set_cells(random, record);
    clear_flags(record);
}

pub fn clear_flags(record: &mut [u8]) {
    record[CMF0] = 0;
    for (byte, mask) in DIAGNOSTICS {
        record[byte] &= !mask;
    }
}

/// Cells that pass by the limits as they stand, and any where they are left out.
pub fn set_cells(random: &mut Random, record: &mut [u8]) {
    let Limits { lower, upper, jump, .. } = limits(record);
    let masks = masks(record);
    for cell in 0..16 {
        let (code, last) = if masks >> cell & 1 == 1 {
            (random.code(), random.code())
        } else {
            let code = mostly_ends(random, lower, upper);
            let last = code + mostly_ends(random, -jump, jump);
            (code as i16, last.clamp(-32768, 32767) as i16)
        };
        set_codes(record, cell, code, last);
    }
}

/// One thing alone that makes a monitor fail.
#[derive(Clone, Copy, Debug, PartialEq, Eq)]
pub enum Violation {
    Low,
    High,
    Fall,
    Rise,
    Cleared,
    Diagnostic,
    Stood,
}

pub const VIOLATIONS: [Violation; 7] =
    [Violation::Low, Violation::High, Violation::Fall, Violation::Rise, Violation::Cleared, Violation::Diagnostic, Violation::Stood];

/// Of a record that passes. Gives what CMF0 is after its measurement, or nothing where the limits have no room for such a cell.
pub fn violate(random: &mut Random, record: &mut [u8], violation: Violation) -> Option<u8> {
    let measured: Vec<usize> = (0..16).filter(|cell| masks(record) >> cell & 1 == 0).collect();
    let cell = random.pick(&measured);
    violate_at(random, record, violation, cell)
}

/// The same by this cell, by one code.
pub fn violate_at(random: &mut Random, record: &mut [u8], violation: Violation, cell: usize) -> Option<u8> {
    let Limits { lower, upper, jump, .. } = limits(record);
    let any = random.byte();
    let (code, last, flags) = match violation {
        Violation::Diagnostic => {
            let bits = DIAGNOSTICS.map(|(byte, mask)| (0..8).map(move |bit| (byte, mask & 1 << bit))).into_iter().flatten();
            let bits: Vec<(usize, u8)> = bits.filter(|(_, bit)| *bit != 0).collect();
            let (byte, bit) = random.pick(&bits);
            record[byte] |= bit;
            return Some(0xFF);
        }
        Violation::Stood => {
            record[CMF0] = any.max(1);
            return Some(any.max(1));
        }
        Violation::Low => (lower - 1, lower - 1, CUV),
        Violation::High => (upper + 1, upper + 1, COV),
        Violation::Cleared if lower == i32::from(CLEARED) => return None,
        Violation::Cleared => (i32::from(CLEARED), i32::from(CLEARED), CUV),
        Violation::Fall => {
            let highest = upper.min(32767 - jump - 1);
            let code = if lower <= highest { between(random, lower..=highest) } else { return None };
            (code, code + jump + 1, CDVN)
        }
        Violation::Rise => {
            let lowest = lower.max(-32768 + jump + 1);
            let code = if lowest <= upper { between(random, lowest..=upper) } else { return None };
            (code, code - jump - 1, CDVP)
        }
    };
    let (code, last) = (i16::try_from(code).ok()?, i16::try_from(last).ok()?);
    set_codes(record, cell, code, last);
    Some(flags)
}

/// Any of them that there is room for.
pub fn violate_any(random: &mut Random, record: &mut [u8]) -> u8 {
    loop {
        let violation = random.pick(&VIOLATIONS);
        if let Some(flags) = violate(random, record, violation) {
            return flags;
        }
    }
}

/// A record that passes; its other bytes are any, a snapshot may be on, and the flags of a timeout monitor may stand.
pub fn record(random: &mut Random, role: Role) -> Vec<u8> {
    let mut record = inputs::record(random);
    set_passing(random, &mut record);
    set_role(random, &mut record, role);
    record
}

/// A chain of monitors that all pass. The manager at this position sends towards this port, and CMC_NDEV counts those on the way.
pub fn chain(random: &mut Random, monitors: usize, position: usize, port: u32) -> Vec<u8> {
    let mut bytes: Vec<u8> = (0..monitors).flat_map(|_| record(random, Role::Monitor)).collect();
    let manager = at_position(&mut bytes, position);
    set_role(random, manager, Role::Manager);
    set_port(manager, port);
    manager[NDEV] = 0x42 + 1 + on_the_way(monitors, position, port).len() as u8;
    bytes
}

pub fn at_position(table: &mut [u8], position: usize) -> &mut [u8] {
    &mut table[RECORD * (position - 1)..RECORD * position]
}

/// Each monitor any of the four, mostly a plain one, and a third of them failing.
pub fn table(random: &mut Random, monitors: usize) -> Vec<u8> {
    let mut bytes = Vec::with_capacity(RECORD * monitors);
    for _ in 0..monitors {
        let role =
            random.pick(&[Role::Manager, Role::Manager, Role::TimeoutMonitor, Role::Awake, Role::Monitor, Role::Monitor, Role::Monitor]);
        let mut record = record(random, role);
        if random.once_in(3) {
            violate_any(random, &mut record);
        }
        bytes.extend(record);
    }
    bytes
}
