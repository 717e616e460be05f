//! Messages of a heartbeat (L8): right ones, and what is wrong in one that is not.

use crate::inputs::{head, is_damaged, with_check, CMHB};
use crate::random::Random;

pub const LENGTH: usize = 8;
/// What is left of the count where all passed.
pub const PASS_COUNT: u8 = 0x42;

/// Count and flags: the pass value, or near it by either, or any.
pub fn count_and_flags(random: &mut Random) -> [u8; 2] {
    let any = [random.byte(), random.byte()];
    random.pick(&[[0x42, 0x00], [0x42, any[1]], [any[0], 0x00], any])
}

/// With any counter bits, and often with 0 as the devices send them.
pub fn with_any_counter(random: &mut Random, command: u16, two: [u8; 2]) -> Vec<u8> {
    let counter = if random.once_in(2) { 0 } else { random.below(64) as u8 };
    [&head(command)[..], &with_check(&two, counter)].concat()
}

pub fn message(random: &mut Random) -> Vec<u8> {
    let two = count_and_flags(random);
    with_any_counter(random, CMHB, two)
}

/// As a device sends it.
pub fn sealed(count: u8, flags: u8) -> Vec<u8> {
    [&head(CMHB)[..], &with_check(&[count, flags], 0)].concat()
}

/// What a receiver of eight bytes goes by.
pub struct Message {
    pub of_heartbeat: bool,
    pub data_right: bool,
    pub count: u8,
    pub flags: u8,
    pub counter: u8,
}

impl Message {
    /// None of another length.
    pub fn of(came: &[u8]) -> Option<Message> {
        let (command, payload) = came.split_at_checked(4)?;
        let &[count, flags, seventh, _] = payload else { return None };
        let of_heartbeat = command == head(CMHB);
        Some(Message { of_heartbeat, data_right: !is_damaged(payload), count, flags, counter: seventh >> 2 })
    }

    pub fn right(&self) -> bool {
        self.of_heartbeat && self.data_right
    }
}
