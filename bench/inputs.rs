//! Inputs by a fixed seed: tables, frames, codes.

use crate::sides::{words, Side};

pub const RECORD: usize = 170;
pub const COUNTER: usize = 68;
pub const UNLOCKED: usize = 69;
const CMF1: usize = 133;
/// So many inputs take turns in each measure, so that no predictor of the machine learns a single one.
pub const INPUTS: usize = 16;
/// The chains that frames are timed at.
pub const SIZES: [usize; 3] = [1, 8, 32];

pub const READS: [u16; 18] = [0x02, 0x26, 0x04, 0x06, 0x08, 0x0a, 0x09, 0x0b, 0x32, 0x33, 0x2c, 0x3a, 0x22, 0x23, 0x59, 0x5b, 0x5d, 0x5f];
pub const WRITES: [u16; 11] = [0x01, 0x24, 0x39, 0x717, 0x715, 0x20, 0x21, 0x58, 0x5a, 0x5c, CLRCMFLAG];
pub const BARE: [u16; 9] = [0x28, 0x29, 0x2e, 0x38, 0x711, SNAP, UNSNAP, 0x41, 0x40];
pub const RDCVA: u16 = 0x04;
pub const WRCFGB: u16 = 0x24;
pub const MUTE: u16 = 0x28;
pub const SNAP: u16 = 0x2d;
pub const UNSNAP: u16 = 0x2f;
const CLRCMFLAG: u16 = 0x5e;
/// In byte 5 of a record.
const SNAP_ST: u8 = 0x20;
/// In CMF1.
const CMC_EN: u8 = 0x80;

/// splitmix64.
pub struct Random(pub u64);

impl Random {
    pub fn next(&mut self) -> u64 {
        self.0 = self.0.wrapping_add(0x9e37_79b9_7f4a_7c15);
        let mut z = self.0;
        z = (z ^ (z >> 30)).wrapping_mul(0xbf58_476d_1ce4_e5b9);
        z = (z ^ (z >> 27)).wrapping_mul(0x94d0_49bb_1331_11eb);
        z ^ (z >> 31)
    }

    pub fn below(&mut self, end: usize) -> usize {
        (self.next() % end as u64) as usize
    }

    pub fn bytes(&mut self, length: usize) -> Vec<u8> {
        (0..length).map(|_| self.next() as u8).collect()
    }

    pub fn codes(&mut self, length: usize) -> Vec<i16> {
        (0..length).map(|_| (self.next() as i16).max(-32767)).collect()
    }

    pub fn sound_table(&mut self, n: usize) -> Vec<u8> {
        let mut table = self.bytes(n * RECORD);
        for record in table.chunks_mut(RECORD) {
            record[COUNTER] %= 64;
            record[UNLOCKED] %= 2;
        }
        table
    }

    /// One without a snapshot and with no monitor in LPCM, as most tables are timed: cell reads show the live cells of every monitor, and
    /// every monitor takes writes.
    pub fn live_table(&mut self, n: usize) -> Vec<u8> {
        let mut table = self.sound_table(n);
        for record in table.chunks_mut(RECORD) {
            record[5] &= !SNAP_ST;
            record[CMF1] &= !CMC_EN;
        }
        table
    }
}

/// The same table with a snapshot on in every monitor: cell reads show the copies.
pub fn snapped(table: &[u8]) -> Vec<u8> {
    let mut table = table.to_vec();
    for record in table.chunks_mut(RECORD) {
        record[5] |= SNAP_ST;
    }
    table
}

pub fn any_command(random: &mut Random) -> u16 {
    match random.below(3) {
        0 => READS[random.below(READS.len())],
        1 => WRITES[random.below(WRITES.len())],
        _ => BARE[random.below(BARE.len())],
    }
}

/// The four bytes of a command.
pub fn head(code: u16) -> [u8; 4] {
    let [high, low] = code.to_be_bytes();
    let [third, fourth] = unsafe { words::plain_command_pec([high, low].as_ptr(), 2) << 1 }.to_be_bytes();
    [high, low, third, fourth]
}

/// Makes the PEC of a payload right for its data bytes and for the counter bits as they stand.
pub fn seal(payload: &mut [u8]) {
    let size = payload.len() - 2;
    let counter = payload[size] >> 2;
    let pec = unsafe { words::plain_data_pec10(payload.as_ptr(), size, counter) };
    payload[size] = counter << 2 | (pec >> 8) as u8;
    payload[size + 1] = pec as u8;
}

/// What N monitors reply of any registers, all with one counter.
pub fn reply(n: usize, counter: u8, random: &mut Random) -> Vec<u8> {
    let mut reply = random.bytes(8 * n);
    for payload in reply.chunks_mut(8) {
        payload[6] = counter << 2;
        seal(payload);
    }
    reply
}

/// Bytes with their bits reversed, as crcutil takes them.
pub fn turned(bytes: &[u8]) -> Vec<u8> {
    bytes.iter().map(|b| b.reverse_bits()).collect()
}

/// The data bytes of each payload of a command.
pub fn data_size(command: u16) -> usize {
    if command == CLRCMFLAG {
        2
    } else {
        6
    }
}

/// How many value bytes the host needs for a command.
pub fn values_for(command: u16, n: usize) -> usize {
    if WRITES.contains(&command) {
        data_size(command) * n
    } else {
        0
    }
}

/// How long the host's frame is.
pub fn frame_length(command: u16, n: usize) -> usize {
    if BARE.contains(&command) {
        4
    } else {
        4 + (data_size(command) + 2) * n
    }
}

pub fn host_frame(side: &Side, command: u16, n: usize, random: &mut Random) -> Vec<u8> {
    let values = random.bytes(values_for(command, n));
    let mut out = vec![0; 4 + 8 * n];
    let answer = unsafe { (side.door.host_frame)(command, n, values.as_ptr(), values.len(), out.as_mut_ptr(), out.len()) };
    assert!(answer & 0xff == 0, "{}: host frame {command:04x} at N = {n} refused with {}", side.name, answer & 0xff);
    out.truncate((answer >> 16) as usize);
    out
}

/// Frames of one kind for a chain of N, to be handled in turn.
pub struct Frames {
    pub writes: Vec<Vec<u8>>,
    pub reads: Vec<Vec<u8>>,
    /// Sixteen different commands, of all three kinds.
    pub mixed: Vec<Vec<u8>>,
    /// SNAP and UNSNAP in turn: on a table without a snapshot each SNAP copies the cells.
    pub snaps: Vec<Vec<u8>>,
    /// Refusal 3.
    pub command_wrong: Vec<Vec<u8>>,
    /// Refusal 5: the last byte of a write is missing.
    pub length_wrong: Vec<Vec<u8>>,
}

impl Frames {
    pub fn new(side: &Side, n: usize, random: &mut Random) -> Frames {
        let several =
            |random: &mut Random, command: u16| -> Vec<Vec<u8>> { (0..INPUTS).map(|_| host_frame(side, command, n, random)).collect() };
        let writes = several(random, WRCFGB);
        let mut reads = several(random, RDCVA);
        for frame in &mut reads {
            frame[4..].copy_from_slice(&random.bytes(8 * n));
        }
        let order = [0x01, 0x02, 0x28, 0x0b, 0x38, 0x39, 0x3a, 0x24, 0x04, 0x717, 0x32, 0x29, 0x715, 0x33, 0x711, 0x2c];
        let mixed = order.iter().map(|&command| host_frame(side, command, n, random)).collect();
        let snaps = (0..INPUTS).map(|turn| host_frame(side, [SNAP, UNSNAP][turn % 2], n, random)).collect();
        let mut command_wrong = writes.clone();
        for frame in &mut command_wrong {
            frame[2] ^= 1 + random.below(255) as u8;
        }
        let length_wrong = writes.iter().map(|frame| frame[..frame.len() - 1].to_vec()).collect();
        Frames { writes, reads, mixed, snaps, command_wrong, length_wrong }
    }
}
