//! "Check words": the command PEC of 15 bits and the data PEC of 10, each bit by bit and through a table of 256 remainders.

const START: u16 = 16;

const COMMAND_WIDTH: u32 = 15;
const COMMAND_POLYNOMIAL: u16 = 1 << 14 | 1 << 10 | 1 << 8 | 1 << 7 | 1 << 4 | 1 << 3 | 1;

const DATA_WIDTH: u32 = 10;
const DATA_POLYNOMIAL: u16 = 1 << 7 | 1 << 3 | 1 << 2 | 1 << 1 | 1;

static COMMAND_TABLE: [u16; 256] = remainders(COMMAND_WIDTH, COMMAND_POLYNOMIAL);
static DATA_TABLE: [u16; 256] = remainders(DATA_WIDTH, DATA_POLYNOMIAL);

/// The lowest `count` bits of `bits`, most significant first, one division step each.
const fn bit_steps(width: u32, polynomial: u16, mut remainder: u16, bits: u8, count: u32) -> u16 {
    let mut left = count;
    while left > 0 {
        left -= 1;
        let leaves = remainder >> (width - 1) & 1;
        let comes = (bits >> left & 1) as u16;
        remainder = (remainder << 1) & ((1 << width) - 1);
        if leaves != comes {
            remainder ^= polynomial;
        }
    }
    remainder
}

const fn remainders(width: u32, polynomial: u16) -> [u16; 256] {
    let mut table = [0; 256];
    let mut byte = 0;
    while byte < 256 {
        table[byte] = bit_steps(width, polynomial, 0, byte as u8, 8);
        byte += 1;
    }
    table
}

fn bit_by_bit(width: u32, polynomial: u16, bytes: &[u8]) -> u16 {
    bytes.iter().fold(START, |remainder, &byte| bit_steps(width, polynomial, remainder, byte, 8))
}

fn by_table(width: u32, table: &[u16; 256], bytes: &[u8]) -> u16 {
    bytes.iter().fold(START, |remainder, &byte| {
        let index = (remainder >> (width - 8)) as u8 ^ byte;
        (remainder << 8 & ((1 << width) - 1)) ^ table[index as usize]
    })
}

pub fn command_pec_bit_by_bit(bytes: &[u8]) -> u16 {
    bit_by_bit(COMMAND_WIDTH, COMMAND_POLYNOMIAL, bytes)
}

pub fn command_pec(bytes: &[u8]) -> u16 {
    by_table(COMMAND_WIDTH, &COMMAND_TABLE, bytes)
}

pub fn data_pec_bit_by_bit(bytes: &[u8]) -> u16 {
    bit_by_bit(DATA_WIDTH, DATA_POLYNOMIAL, bytes)
}

pub fn data_pec(bytes: &[u8]) -> u16 {
    by_table(DATA_WIDTH, &DATA_TABLE, bytes)
}

/// The data PEC over the bytes and then the six counter bits (the lowest six of `counter`).
pub fn data_pec_with_counter_bit_by_bit(bytes: &[u8], counter: u8) -> u16 {
    bit_steps(DATA_WIDTH, DATA_POLYNOMIAL, data_pec_bit_by_bit(bytes), counter, 6)
}

/// As above. From remainder 0, two leading 0 bits leave 0: so the table of eight bits serves for six as well.
pub fn data_pec_with_counter(bytes: &[u8], counter: u8) -> u16 {
    let remainder = data_pec(bytes);
    let index = (remainder >> (DATA_WIDTH - 6)) as u8 ^ (counter & 0x3F);
    (remainder << 6 & ((1 << DATA_WIDTH) - 1)) ^ DATA_TABLE[index as usize]
}

/// The four bytes that open a frame: the command, its PEC and one 0 bit.
pub fn command_bytes(code: u16) -> [u8; 4] {
    let [high, low] = code.to_be_bytes();
    let [pec_high, pec_low] = (command_pec(&[high, low]) << 1).to_be_bytes();
    [high, low, pec_high, pec_low]
}

/// The two bytes after the data of a payload: the counter and PEC bits 9 and 8, then the other eight.
pub fn check_bytes(data: &[u8], counter: u8) -> [u8; 2] {
    let [pec_high, pec_low] = data_pec_with_counter(data, counter).to_be_bytes();
    [counter << 2 | pec_high, pec_low]
}

/// Six data bytes as a payload.
pub fn payload(data: [u8; 6], counter: u8) -> [u8; 8] {
    let [seventh, eighth] = check_bytes(&data, counter);
    let [a, b, c, d, e, f] = data;
    [a, b, c, d, e, f, seventh, eighth]
}

/// The receiver checks over the six counter bits as they were sent, after however many data bytes came before them.
pub fn payload_right(payload: &[u8]) -> bool {
    let (data, check) = payload.split_at(payload.len() - 2);
    check == check_bytes(data, check[0] >> 2)
}
