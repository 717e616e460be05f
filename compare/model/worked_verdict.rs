//! L8's verdict by hand.

use crate::check_words::{check_bytes, command_bytes};
use crate::*;

const CMHB: [u8; 4] = [0x00, 0x43, 0x47, 0xB2];
const PASS: [u8; 8] = [0x00, 0x43, 0x47, 0xB2, 0x42, 0x00, 0x03, 0x94];

const PASSED: u32 = 1 << 8;
const DAMAGED: u32 = 3 << 8;
const TIMED_OUT: u32 = 4 << 8;
const LENGTH_WRONG: u32 = 5;

fn failed(count: u8, flags: u8) -> u32 {
    u32::from(count) << 24 | u32::from(flags) << 16 | 2 << 8
}

fn message(four: [u8; 4]) -> Vec<u8> {
    [CMHB, four].concat()
}

#[test]
fn check_words_of_messages() {
    assert_eq!(command_bytes(0x0043), CMHB);
    for (two, check) in [([0x42, 0x00], [0x03, 0x94]), ([0x47, 0x00], [0x01, 0x4E]), ([0x43, 0x02], [0x01, 0xE7])] {
        assert_eq!(check_bytes(&two, 0), check);
    }
}

/// Of six monitors all passed; the first message of the sheet's example on its way; and that example's end, where its third monitor failed.
#[test]
fn passed_or_failed() {
    assert_eq!(verdict(&PASS, 0), PASSED);
    assert_eq!(verdict(&message([0x47, 0x00, 0x01, 0x4E]), 0), failed(0x47, 0x00));
    assert_eq!(verdict(&message([0x43, 0x02, 0x01, 0xE7]), 0), failed(0x43, 0x02));
}

/// The lowest counter bit adds x^10 = 08Fh to the check, and all six add 168h.
#[test]
fn counter_bits_as_they_stand() {
    assert_eq!(verdict(&message([0x42, 0x00, 0x07, 0x1B]), 0), PASSED);
    assert_eq!(verdict(&message([0x42, 0x00, 0xFE, 0xFC]), 0), PASSED);
    assert_eq!(verdict(&message([0x47, 0x00, 0x05, 0xC1]), 0), failed(0x47, 0x00));
    assert_eq!(verdict(&message([0x42, 0x00, 0x07, 0x94]), 0), DAMAGED);
    assert_eq!(verdict(&message([0x42, 0x00, 0xFF, 0x94]), 0), DAMAGED);
}

#[test]
fn damaged() {
    for bit in 0..64 {
        let came = (u64::from_be_bytes(PASS) ^ 1 << bit).to_be_bytes();
        assert_eq!(verdict(&came, 0), DAMAGED, "bit {bit}");
        assert_eq!(verdict(&came, 1), TIMED_OUT, "bit {bit}");
    }
    // CMDIS with its own check, and with a payload that is right.
    assert_eq!(verdict(&[0x00, 0x40, 0x51, 0xD6, 0x42, 0x00, 0x03, 0x94], 0), DAMAGED);
    assert_eq!(verdict(&[0; 8], 0), DAMAGED);
    assert_eq!(verdict(&[0xFF; 8], 0), DAMAGED);
}

/// Eight bytes, or nothing where the time ran out. Any value but 0 says that it did.
#[test]
fn lengths_late_and_in_time() {
    let twice = [PASS, PASS].concat();
    for length in 0..=16 {
        let in_time = if length == 8 { PASSED } else { LENGTH_WRONG };
        assert_eq!(verdict(&twice[..length], 0), in_time, "{length} bytes");
        for yes in 1..=255 {
            let late = if length == 8 || length == 0 { TIMED_OUT } else { LENGTH_WRONG };
            assert_eq!(verdict(&twice[..length], yes), late, "{length} bytes, {yes}");
        }
    }
    assert_eq!(verdict(&message([0x43, 0x02, 0x01, 0xE7]), 2), TIMED_OUT);
}
