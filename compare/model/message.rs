//! L8, "The message" of a heartbeat: the sheet's Tables 28 and 29, eight bytes whatever N is.

use crate::check_words::{check_bytes, command_bytes, payload_right};

pub const LENGTH: usize = 8;
const CMHB: u16 = 0x0043;

/// What a message says: the device count, and the flags of those it passed, which lie as in CMF0.
#[derive(Clone, Copy, Debug, PartialEq, Eq)]
pub struct Message {
    pub count: u8,
    pub flags: u8,
}

impl Message {
    /// Nothing is left of the count but its offset, and no flag is asserted (Table 31).
    pub const PASS: Message = Message { count: 0x42, flags: 0x00 };

    /// As a device sends it: the counter bits are 0.
    pub fn sealed(self) -> [u8; LENGTH] {
        let Message { count, flags } = self;
        let [a, b, c, d] = command_bytes(CMHB);
        let [seventh, eighth] = check_bytes(&[count, flags], 0);
        [a, b, c, d, count, flags, seventh, eighth]
    }

    /// As it is received: none where the command, its check or that of the data is not right. The counter bits may be any.
    pub fn opened(came: &[u8; LENGTH]) -> Option<Message> {
        let (command, payload) = came.split_at(4);
        let right = command == command_bytes(CMHB) && payload_right(payload);
        right.then_some(Message { count: payload[0], flags: payload[1] })
    }
}
