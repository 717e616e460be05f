//! L8: what one monitor is in LPCM, and its turn in a heartbeat. None of it is a frame, so the counter and byte 69 stay.

use crate::commands::at;
use crate::measurement::measure;
use crate::message::Message;
use crate::monitor::{in_lpcm, Record, CMF_BTMCMP, CMF_BTMWD};

/// In bytes 0 and 4 of the configuration (Table 97).
const CMC_MAN: u8 = 1 << 7;
const CMC_BTM: u8 = 1 << 3;
const CMC_DIR: u8 = 1 << 5;

#[derive(Clone, Copy, Debug, PartialEq, Eq)]
pub enum Role {
    NotInLpcm,
    /// Starts a heartbeat, and takes none in; also where it is set to be a timeout monitor as well.
    Manager,
    /// The bridgeless one: it sends nothing on, and judges.
    TimeoutMonitor,
    Monitor,
}

/// The end of the chain that a manager sends towards: A is monitor 1's, B that of monitor N.
#[derive(Clone, Copy, Debug, PartialEq, Eq)]
pub enum Port {
    A = 1,
    B = 2,
}

pub fn role(record: &Record) -> Role {
    let set = |bit: u8| record[at::LPCM_CONFIGURATION] & bit != 0;
    if !in_lpcm(record) {
        Role::NotInLpcm
    } else if set(CMC_MAN) {
        Role::Manager
    } else if set(CMC_BTM) {
        Role::TimeoutMonitor
    } else {
        Role::Monitor
    }
}

/// A manager measures and starts with CMC_NDEV, itself counted off where it passes. No other monitor does anything.
pub fn wakes(record: &mut Record) -> Option<(Port, Message)> {
    if role(record) != Role::Manager {
        return None;
    }
    let port = if record[at::LPCM_CONFIGURATION + 4] & CMC_DIR != 0 { Port::A } else { Port::B };
    let ndev = Message { count: record[at::LPCM_CONFIGURATION + 1], flags: 0 };
    Some((port, step(record, ndev)))
}

/// A right message comes. Gives what is sent on.
pub fn reached(record: &mut Record, came: Message) -> Option<Message> {
    match role(record) {
        Role::Manager | Role::NotInLpcm => None,
        Role::Monitor => Some(step(record, came)),
        Role::TimeoutMonitor => {
            let last = step(record, came);
            judge(record, last);
            None
        }
    }
}

/// The same for all: a monitor measures, counts one down if it passes, and joins its flags. The count has eight bits, and below 0 comes 255.
fn step(record: &mut Record, came: Message) -> Message {
    let passes = measure(record);
    Message { count: came.count.wrapping_sub(u8::from(passes)), flags: came.flags | record[at::LPCM_FLAGS] }
}

/// By what the timeout monitor's own step left.
fn judge(record: &mut Record, last: Message) {
    let flags = &mut record[at::LPCM_FLAGS + 1];
    if last == Message::PASS {
        *flags &= !(CMF_BTMWD | CMF_BTMCMP);
    } else {
        *flags |= CMF_BTMCMP;
    }
}

/// The time runs out. Gives whether there is a timeout monitor to see it.
pub fn time_runs_out(record: &mut Record) -> bool {
    let is_one = role(record) == Role::TimeoutMonitor;
    if is_one {
        record[at::LPCM_FLAGS + 1] |= CMF_BTMWD;
    }
    is_one
}
