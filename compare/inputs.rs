//! Tables, frames, payloads and codes to try: mostly good ones, and each way in which one can be bad.

use crate::random::Random;
pub use model::{at, RECORD};
use model::{CMC_EN, MUTE_ST, SNAP_ST};
use std::ops::Range;

pub const MOST: usize = 32;
pub const CLEARED: i16 = -32768;
pub const CELLS: Range<usize> = at::CELLS..at::STATUS_C;
pub const STATUS_C: Range<usize> = at::STATUS_C..at::STATUS_D;
pub const STATUS_D: Range<usize> = at::STATUS_D..at::STATUS_D + 6;
/// The copy of the cells (L6).
pub const COPY: Range<usize> = at::COPY..at::LPCM_CONFIGURATION;
/// The cells of the last measurement, which L8 has as the record's last part.
pub const LAST: Range<usize> = at::LAST..RECORD;
pub const CMF0: usize = at::LPCM_FLAGS;
pub const CMF1: usize = at::LPCM_FLAGS + 1;

/// Every command, in the paper's order: reads, writes, bare ones.
pub const LISTED: [(u16, &str); 38] = [
    (0x0002, "RDCFGA"),
    (0x0026, "RDCFGB"),
    (0x0004, "RDCVA"),
    (0x0006, "RDCVB"),
    (0x0008, "RDCVC"),
    (0x000A, "RDCVD"),
    (0x0009, "RDCVE"),
    (0x000B, "RDCVF"),
    (0x0032, "RDSTATC"),
    (0x0033, "RDSTATD"),
    (0x002C, "RDSID"),
    (0x003A, "RDRR"),
    (0x0022, "RDPWMA"),
    (0x0023, "RDPWMB"),
    (RDCMCFG, "RDCMCFG"),
    (RDCMCELLT, "RDCMCELLT"),
    (RDCMGPIOT, "RDCMGPIOT"),
    (RDCMFLAG, "RDCMFLAG"),
    (0x0001, "WRCFGA"),
    (0x0024, "WRCFGB"),
    (0x0039, "WRRR"),
    (0x0717, "CLRFLAG"),
    (0x0715, "CLOVUV"),
    (0x0020, "WRPWMA"),
    (0x0021, "WRPWMB"),
    (WRCMCFG, "WRCMCFG"),
    (WRCMCELLT, "WRCMCELLT"),
    (WRCMGPIOT, "WRCMGPIOT"),
    (CLRCMFLAG, "CLRCMFLAG"),
    (0x0028, "MUTE"),
    (0x0029, "UNMUTE"),
    (RSTCC, "RSTCC"),
    (0x0038, "ULRR"),
    (0x0711, "CLRCELL"),
    (SNAP, "SNAP"),
    (UNSNAP, "UNSNAP"),
    (CMEN, "CMEN"),
    (CMDIS, "CMDIS"),
];
const READS: Range<usize> = 0..18;
const WRITES: Range<usize> = 18..29;
pub const WRRR: u16 = 0x0039;
pub const RSTCC: u16 = 0x002E;
pub const SNAP: u16 = 0x002D;
pub const UNSNAP: u16 = 0x002F;
pub const CMDIS: u16 = 0x0040;
pub const CMEN: u16 = 0x0041;
pub const WRCMCFG: u16 = 0x0058;
pub const RDCMCFG: u16 = 0x0059;
pub const WRCMCELLT: u16 = 0x005A;
pub const RDCMCELLT: u16 = 0x005B;
pub const WRCMGPIOT: u16 = 0x005C;
pub const RDCMGPIOT: u16 = 0x005D;
pub const CLRCMFLAG: u16 = 0x005E;
pub const RDCMFLAG: u16 = 0x005F;
/// Sent by devices, and not listed for the host.
pub const CMHB: u16 = 0x0043;

/// RDCVA to RDCVF.
pub const CELL_READS: [u16; 6] = [0x0004, 0x0006, 0x0008, 0x000A, 0x0009, 0x000B];

/// Which bytes of the cells, or of their copy, a cell read shows: six, and RDCVF the last two.
pub fn part_shown(code: u16) -> Option<Range<usize>> {
    let first = 6 * CELL_READS.iter().position(|&read| read == code)?;
    Some(first..CELLS.len().min(first + 6))
}

#[derive(Clone, Copy, PartialEq, Eq)]
pub enum Shape {
    Read,
    Write,
    Bare,
}

/// An unlisted code has no shape.
pub fn shape(code: u16) -> Option<Shape> {
    let place = LISTED.iter().position(|(listed, _)| *listed == code)?;
    Some(if READS.contains(&place) {
        Shape::Read
    } else if WRITES.contains(&place) {
        Shape::Write
    } else {
        Shape::Bare
    })
}

/// The code that a frame begins with.
pub fn first_code(frame: &[u8]) -> u16 {
    u16::from_be_bytes([frame[0], frame[1]])
}

pub fn reads() -> impl Iterator<Item = u16> {
    LISTED[READS].iter().map(|(code, _)| *code)
}

pub fn writes() -> impl Iterator<Item = u16> {
    LISTED[WRITES].iter().map(|(code, _)| *code)
}

pub fn bare_commands() -> impl Iterator<Item = u16> {
    LISTED[WRITES.end..].iter().map(|(code, _)| *code)
}

/// One monitor's bytes of a reply: six of data and two of check.
pub const REPLY: usize = 8;

/// One monitor's bytes of a frame of this code: of a CLRCMFLAG two of data and two of check (L8).
pub fn own_bytes(code: u16) -> usize {
    match shape(code) {
        Some(Shape::Bare) => 0,
        _ if code == CLRCMFLAG => 4,
        _ => REPLY,
    }
}

/// How many bytes the host is lent for a frame of this code, and how many the frame has.
pub fn values_owed(code: u16, monitors: usize) -> usize {
    if shape(code) == Some(Shape::Write) {
        (own_bytes(code) - 2) * monitors
    } else {
        0
    }
}

pub fn frame_length(code: u16, monitors: usize) -> usize {
    4 + own_bytes(code) * monitors
}

pub fn any_listed(random: &mut Random) -> u16 {
    random.pick(&LISTED).0
}

/// A code that is not listed, often one bit away from one that is.
pub fn any_unlisted(random: &mut Random) -> u16 {
    loop {
        let code = if random.once_in(2) { any_listed(random) ^ 1 << random.below(16) } else { random.next() as u16 };
        if shape(code).is_none() {
            return code;
        }
    }
}

pub fn head(code: u16) -> [u8; 4] {
    let [high, low] = code.to_be_bytes();
    let [pec_high, pec_low] = (model::command_pec(&[high, low]) << 1).to_be_bytes();
    [high, low, pec_high, pec_low]
}

/// The writes that a monitor takes only with a right data PEC: all but one (L3).
pub fn needs_check(code: u16) -> bool {
    shape(code) == Some(Shape::Write) && code != WRRR
}

/// Data with these counter bits, and the PEC that belongs to them.
pub fn with_check(data: &[u8], counter: u8) -> Vec<u8> {
    let [pec_high, pec_low] = model::data_pec_with_counter(data, counter).to_be_bytes();
    [data, &[counter << 2 | pec_high, pec_low]].concat()
}

/// The data of a payload: all but its check.
pub fn data_of(payload: &[u8]) -> &[u8] {
    &payload[..payload.len() - 2]
}

/// A right payload of so many bytes; its counter bits are often 0, as our host sends them, and otherwise any.
pub fn payload(random: &mut Random, bytes: usize) -> Vec<u8> {
    let data = match random.below(4) {
        0 => vec![random.pick(&[0x00, 0xFF]); bytes - 2],
        _ => random.bytes(bytes - 2),
    };
    let counter = if random.once_in(2) { 0 } else { random.below(64) as u8 };
    with_check(&data, counter)
}

/// One or more wrong bits: one, two, or a byte that is another one.
pub fn damage(random: &mut Random, bytes: &mut [u8]) {
    let place = random.below(bytes.len());
    match random.below(3) {
        0 => bytes[place] ^= 1 << random.below(8),
        1 => {
            bytes[place] ^= 1 << random.below(8);
            let other = random.below(bytes.len());
            bytes[other] ^= 1 << random.below(8);
        }
        _ => bytes[place] = bytes[place].wrapping_add(1 + random.below(255) as u8),
    }
}

/// By the counter bits as they were sent, whatever the number of data bytes.
pub fn is_damaged(payload: &[u8]) -> bool {
    let data = data_of(payload);
    with_check(data, payload[data.len()] >> 2) != payload
}

/// A payload that is damaged for certain: wrong bits may undo one another.
pub fn damaged_payload(random: &mut Random, bytes: usize) -> Vec<u8> {
    loop {
        let mut damaged = payload(random, bytes);
        damage(random, &mut damaged);
        if is_damaged(&damaged) {
            return damaged;
        }
    }
}

/// The counter has six bits.
pub const MOST_COUNT: u8 = 63;

/// What eight bytes of a reply are to a host that expects a counter (L5).
#[derive(Clone, Copy, Debug, PartialEq, Eq)]
pub enum Part {
    Right,
    /// Right but for its counter.
    Differs,
    Damaged,
}

impl Part {
    pub const ALL: [Part; 3] = [Part::Right, Part::Differs, Part::Damaged];

    pub fn of(eight: &[u8], expected: u8) -> Part {
        if is_damaged(eight) {
            Part::Damaged
        } else if carried(eight) == expected {
            Part::Right
        } else {
            Part::Differs
        }
    }

    /// Any such part, where the host expects a counter of 0 to 63. A damaged one carries that counter or another.
    pub fn any(self, random: &mut Random, expected: u8) -> Vec<u8> {
        let data = random.bytes(6);
        match self {
            Part::Right => with_check(&data, expected),
            Part::Differs => with_check(&data, other_counter(random, expected)),
            Part::Damaged => loop {
                let sealed = if random.once_in(2) { expected } else { other_counter(random, expected) };
                let mut eight = with_check(&data, sealed);
                if random.once_in(3) {
                    carry(&mut eight, expected);
                }
                damage(random, &mut eight);
                if is_damaged(&eight) {
                    return eight;
                }
            },
        }
    }
}

/// The counter bits of a payload of eight bytes, whatever its check.
pub fn carried(eight: &[u8]) -> u8 {
    eight[6] >> 2
}

/// Other counter bits, and the check as it was.
pub fn carry(eight: &mut [u8], counter: u8) {
    eight[6] = counter << 2 | eight[6] & 0x03;
}

/// A counter of 0 to 63 that is not this one: one bit away, one beside it, or any.
pub fn other_counter(random: &mut Random, counter: u8) -> u8 {
    loop {
        let [bit, any] = [1 << random.below(6), random.below(64) as u8];
        let other = random.pick(&[counter ^ bit, counter.wrapping_add(1), counter.wrapping_sub(1), 0, any]);
        if other != counter && other <= MOST_COUNT {
            return other;
        }
    }
}

/// An expected counter that is none, often with the six low bits of this one.
pub fn no_counter(random: &mut Random, counter: u8) -> u8 {
    let high = random.pick(&[0x40, 0x80, 0xC0]);
    match random.below(3) {
        0 => random.pick(&[64, 65, 127, 128, 255]),
        1 => high | random.below(64) as u8,
        _ => high | counter,
    }
}

/// Right payloads of so many bytes, or some damaged, or all.
pub fn payloads(random: &mut Random, bytes: usize, monitors: usize) -> Vec<u8> {
    let damaged_of_four = random.pick(&[0, 0, 1, 2, 4]);
    let mut all = Vec::with_capacity(bytes * monitors);
    for _ in 0..monitors {
        let mut own = payload(random, bytes);
        if random.below(4) < damaged_of_four {
            damage(random, &mut own);
        }
        all.extend(own);
    }
    all
}

/// A frame of this code with the length that it should have for so many monitors.
pub fn frame_of(random: &mut Random, code: u16, monitors: usize) -> Vec<u8> {
    let mut frame = head(code).to_vec();
    match shape(code) {
        Some(Shape::Write) => frame.extend(payloads(random, own_bytes(code), monitors)),
        Some(Shape::Read) if random.once_in(2) => frame.resize(4 + 8 * monitors, 0xFF),
        Some(Shape::Read) => frame.extend(random.bytes(8 * monitors)),
        Some(Shape::Bare) => {}
        None => frame.extend(random.bytes(8 * monitors)),
    }
    frame
}

/// A wrong length: under four, one, four or eight off, with twice or half the bytes for each monitor, or any up to more than 33 monitors'.
pub fn miscut(random: &mut Random, frame: &mut Vec<u8>) {
    let length = frame.len();
    let wrong = match random.below(10) {
        0 => random.below(4),
        1 => length - 1,
        2 => length + 1,
        3 => length.saturating_sub(8),
        4 => length + 8,
        5 => length.saturating_sub(4),
        6 => length + 4,
        7 => 4 + 2 * (length - 4),
        8 => 4 + (length - 4) / 2,
        _ => random.below(4 + 8 * 33 + 10),
    };
    let more = random.bytes(wrong.saturating_sub(length));
    frame.truncate(wrong);
    frame.extend(more);
}

/// Any frame for a chain of so many monitors: half of them without a fault in command and length.
pub fn frame(random: &mut Random, monitors: usize) -> Vec<u8> {
    let good = random.once_in(2);
    let code = if !good && random.once_in(5) { any_unlisted(random) } else { any_listed(random) };
    let mut frame = frame_of(random, code, monitors);
    if !good {
        if random.once_in(4) {
            damage(random, &mut frame[..4]);
        }
        if random.once_in(8) {
            frame[3] |= 1;
        }
        if random.once_in(2) {
            miscut(random, &mut frame);
        }
    }
    frame
}

/// One record that is sound: any bytes, or all alike, or with clear flags and near thresholds, so that a compare shows. Half have
/// SNAP_ST set, and a third CMC_EN.
pub fn record(random: &mut Random) -> Vec<u8> {
    let mut record = match random.below(4) {
        0 => vec![random.pick(&[0x00, 0xFF]); RECORD],
        _ => random.bytes(RECORD),
    };
    if random.once_in(2) {
        record[STATUS_D].fill(0);
    }
    if random.once_in(3) {
        let edges = [(-2048, 2047), (2047, -2048), (0, 0), (-1, 0), (0, -1), (-2048, -2048), (2047, 2047), (-1, -1), (100, 100)];
        let (vuv, vov) = random.pick(&edges);
        set_thresholds(&mut record, at::CONFIGURATION_B, vuv, vov);
    }
    if random.once_in(2) {
        set_copy(random, &mut record);
    }
    if random.once_in(2) {
        set_lpcm_flags(random, &mut record);
    }
    let lpcm = random.once_in(3);
    set_lpcm(&mut record, lpcm);
    record[at::COUNTER] = if random.once_in(2) { random.pick(&[0, 1, 61, 62, 63]) } else { random.below(64) as u8 };
    record[at::UNLOCKED] = random.below(2) as u8;
    record
}

/// Two records of one monitor differ in more than its counter and its lock.
pub fn differ(one: &[u8], other: &[u8]) -> bool {
    one[..at::COUNTER] != other[..at::COUNTER] || one[at::PWM_A..] != other[at::PWM_A..]
}

/// A copy of any bytes, or of the live cells, whole or but for one bit.
fn set_copy(random: &mut Random, record: &mut [u8]) {
    record.copy_within(CELLS, COPY.start);
    match random.below(4) {
        0 => {}
        1 => record[COPY.start + random.below(COPY.len())] ^= 1 << random.below(8),
        _ => record[COPY].copy_from_slice(&random.bytes(COPY.len())),
    }
}

/// A snapshot is on, lent so or taken.
pub fn snapped(record: &[u8]) -> bool {
    record[at::CONFIGURATION_A + 5] & SNAP_ST != 0
}

pub fn set_snap_st(record: &mut [u8], on: bool) {
    let flags = &mut record[at::CONFIGURATION_A + 5];
    *flags = *flags & !SNAP_ST | if on { SNAP_ST } else { 0 };
}

/// Flags as CMEN, CMDIS, CLRCMFLAG and the first pass leave them; and the live cells as the last measurement, or the copy, or any others.
fn set_lpcm_flags(random: &mut Random, record: &mut [u8]) {
    record[CMF0] = random.pick(&[0x00, 0x01, 0x80, 0xFF]);
    record[CMF1] = random.pick(&[0x00, 0x03, 0x80, 0x83]);
    match random.below(4) {
        0 => record.copy_within(CELLS, LAST.start),
        1 => record.copy_within(COPY, LAST.start),
        _ => {}
    }
}

/// In LPCM, lent so or enabled.
pub fn in_lpcm(record: &[u8]) -> bool {
    record[CMF1] & CMC_EN != 0
}

pub fn set_lpcm(record: &mut [u8], on: bool) {
    let flags = &mut record[CMF1];
    *flags = *flags & !CMC_EN | if on { CMC_EN } else { 0 };
}

/// A lower and an upper threshold in the three bytes from this one on: VUV and VOV, or CUV and COV.
pub fn set_thresholds(record: &mut [u8], first: usize, lower: i16, upper: i16) {
    let (lower, upper) = (lower as u16 & 0xFFF, upper as u16 & 0xFFF);
    record[first] = lower as u8;
    record[first + 1] = (lower >> 8 | (upper & 0xF) << 4) as u8;
    record[first + 2] = (upper >> 4) as u8;
}

/// A record with clear flags and this threshold, VUV or VOV; the other one is any.
pub fn record_with(random: &mut Random, value: i32, as_vov: bool) -> Vec<u8> {
    let bits = value as u16 & 0xFFF;
    let mut record = record(random);
    record[STATUS_D].fill(0);
    if as_vov {
        record[7] = record[7] & 0x0F | (bits << 4) as u8;
        record[8] = (bits >> 4) as u8;
    } else {
        record[6] = bits as u8;
        record[7] = record[7] & 0xF0 | (bits >> 8) as u8;
    }
    record
}

/// A sound table, where N is 1 to 32: half of them with no monitor in LPCM, others with some, or all.
pub fn table(random: &mut Random, monitors: usize) -> Vec<u8> {
    let lpcm_of_six = random.pick(&[0, 0, 0, 2, 3, 6]);
    table_with(random, monitors, |random| random.below(6) < lpcm_of_six)
}

/// The same with no monitor in LPCM.
pub fn table_out_of_lpcm(random: &mut Random, monitors: usize) -> Vec<u8> {
    table_with(random, monitors, |_| false)
}

/// The same with all of them in LPCM, but for this one of several.
pub fn table_in_lpcm(random: &mut Random, monitors: usize, but_for: Option<usize>) -> Vec<u8> {
    let mut bytes = table_with(random, monitors, |_| true);
    if let Some(one) = but_for {
        set_lpcm(&mut bytes[RECORD * one..][..RECORD], false);
    }
    bytes
}

fn table_with(random: &mut Random, monitors: usize, lpcm: impl Fn(&mut Random) -> bool) -> Vec<u8> {
    let mut bytes: Vec<u8> = (0..monitors).flat_map(|_| record(random)).collect();
    for record in bytes.chunks_mut(RECORD) {
        set_lpcm(record, lpcm(random));
    }
    bytes
}

/// A table with at least one reason not to be sound.
pub fn unsound(random: &mut Random) -> Vec<u8> {
    let monitors = random.within(1, MOST);
    let mut bytes = table(random, monitors);
    match random.below(4) {
        0 => {
            let place = random.below(monitors) * RECORD + at::COUNTER;
            bytes[place] = random.within(64, 255) as u8;
        }
        1 => {
            let place = random.below(monitors) * RECORD + at::UNLOCKED;
            bytes[place] = random.within(2, 255) as u8;
        }
        2 => {
            let monitors = random.pick(&[0, 33, 34, 64, 256]);
            bytes = table(random, monitors);
        }
        _ => {
            let length = bytes.len() + random.within(1, RECORD - 1);
            bytes = table(random, monitors + 1);
            bytes.truncate(length);
        }
    }
    bytes
}

/// The refusal to be given for reasons in the paper's order, each with its number: the first that holds, or none.
pub fn first_of(reasons: &[(bool, u32)]) -> u32 {
    reasons.iter().find(|(holds, _)| *holds).map_or(0, |(_, number)| *number)
}

/// The codes that the cells of a record are compared with: 16 VUV and 16 VOV.
pub fn limits(record: &[u8]) -> (i32, i32) {
    limits_from(record, at::CONFIGURATION_B)
}

/// The same of the three bytes from this one on.
pub fn limits_from(record: &[u8], first: usize) -> (i32, i32) {
    let [low, middle, high] = [0, 1, 2].map(|byte| i32::from(record[first + byte]));
    let codes = |step: i32| 16 * if step >= 2048 { step - 4096 } else { step };
    (codes(low | (middle & 0x0F) << 8), codes(middle >> 4 | high << 4))
}

/// A position that a chain of so many monitors does not have; one of them times a record's bytes would wrap and lie within the table.
pub fn wrong_position(random: &mut Random, monitors: usize) -> usize {
    random.pick(&[0, monitors + 1, 33, 34, 256, 1 << 32, usize::MAX / RECORD + 2, usize::MAX - 1, usize::MAX])
}

/// A code to store or load into this record: at, beside and far from its thresholds, never -32768.
pub fn code_for(random: &mut Random, record: &[u8]) -> i16 {
    let (lower, upper) = limits(record);
    let at = if random.once_in(2) { lower } else { upper };
    let code = match random.below(6) {
        0 => at - 1,
        1 => at,
        2 => at + 1,
        3 => random.pick(&[-32767, -1, 0, 1, 32767]),
        _ => i32::from(random.code()),
    };
    code.clamp(-32767, 32767) as i16
}

pub fn codes_for(random: &mut Random, record: &[u8]) -> Vec<i16> {
    (0..16).map(|_| code_for(random, record)).collect()
}

/// Cells for a compare to find in this record: as stored, some cleared, some with a byte of the cleared code or its bytes swapped.
pub fn set_cells(random: &mut Random, record: &mut [u8]) {
    let cleared_of_eight = random.pick(&[0, 1, 4, 8]);
    for cell in 0..16 {
        let code = match random.below(8) {
            chance if chance < cleared_of_eight => CLEARED,
            7 => random.pick(&[-32767, -32512, 0, 128]),
            _ => code_for(random, record),
        };
        record[at::CELLS + 2 * cell..][..2].copy_from_slice(&code.to_le_bytes());
    }
}

/// The duty of a cell, 1 to 16: two cells a byte, an odd one in the low half, the last four in group B.
pub fn set_duty(record: &mut [u8], cell: usize, duty: u8) {
    let place = if cell > 12 { at::PWM_B + (cell - 13) / 2 } else { at::PWM_A + (cell - 1) / 2 };
    let (kept, shift) = if cell % 2 == 1 { (0xF0, 0) } else { (0x0F, 4) };
    record[place] = record[place] & kept | duty << shift;
}

pub fn set_mute(record: &mut [u8], muted: bool) {
    let flags = &mut record[at::CONFIGURATION_A + 5];
    *flags = *flags & !MUTE_ST | if muted { MUTE_ST } else { 0 };
}

/// Two bytes of DCC bits, cell 1 lowest.
pub fn set_dcc(record: &mut [u8], dcc: u16) {
    record[at::CONFIGURATION_B + 4..][..2].copy_from_slice(&dcc.to_le_bytes());
}

/// What a question in this phase may find: DCC bits none, one, some or all, duties at, beside and far from the phase, seldom a mute.
pub fn set_discharge(random: &mut Random, record: &mut [u8], phase: u8) {
    let phase = phase.min(14);
    let muted = random.once_in(5);
    set_mute(record, muted);
    let dcc = match random.below(4) {
        0 => random.pick(&[0, 0xFFFF]),
        1 => 1 << random.below(16),
        2 => random.next() as u16 & random.next() as u16,
        _ => random.next() as u16,
    };
    set_dcc(record, dcc);
    for cell in 1..=16 {
        let any = random.below(16) as u8;
        let duty = random.pick(&[0, phase, phase + 1, 15, any, any]);
        set_duty(record, cell, duty);
    }
}

/// A sound table whose monitors are to be asked in this phase.
pub fn discharging(random: &mut Random, monitors: usize, phase: u8) -> Vec<u8> {
    let mut bytes = table(random, monitors);
    for record in bytes.chunks_mut(RECORD) {
        set_discharge(random, record, phase);
    }
    bytes
}

/// Events of a question: none, one or several, with any bits above them or none.
pub fn events(random: &mut Random) -> u8 {
    let events = match random.below(3) {
        0 => 0,
        1 => 1 << random.below(4),
        _ => random.byte() & 0x0F,
    };
    if random.once_in(2) {
        events
    } else {
        events | random.byte() & 0xF0
    }
}
