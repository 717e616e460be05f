//! L5 by hand: the check of one payload against the counter that the host expects, two ports with it, and a missed write that shows.

use crate::both_engines::sent;
use crate::*;

const RIGHT: u32 = 1 << 8;
const DAMAGED: u32 = 2 << 8;
const PORT_A: u32 = 1 << 8;
const PORT_B: u32 = 2 << 8;
const PORT_A_DIFFERS: u32 = 3 << 8;
const PORT_B_DIFFERS: u32 = 4 << 8;
const COUNTER_OR_POSITION: u32 = 7;
const LENGTH_WRONG: u32 = 5;
const BOTH_DAMAGED: u32 = 10;

const WRCFGB: [u8; 4] = [0x00, 0x24, 0xB1, 0x9E];
const WRRR: [u8; 4] = [0x00, 0x39, 0x38, 0x12];
const RDCFGB: [u8; 4] = [0x00, 0x26, 0x2C, 0xC8];
const RSTCC: [u8; 4] = [0x00, 0x2E, 0xC4, 0xC6];

/// Six zero bytes with counters 0, 1 and 63: the lowest counter bit adds x^10 = 08Fh to 3E3h, and all six add 168h.
const ZEROS: [u8; 8] = [0, 0, 0, 0, 0, 0, 0x03, 0xE3];
const ZEROS_1: [u8; 8] = [0, 0, 0, 0, 0, 0, 0x07, 0x6C];
const ZEROS_63: [u8; 8] = [0, 0, 0, 0, 0, 0, 0xFE, 0x8B];
/// The same three with the last data bit, which adds 337h.
const ONE: [u8; 8] = [0, 0, 0, 0, 0, 1, 0x00, 0xD4];
const ONE_1: [u8; 8] = [0, 0, 0, 0, 0, 1, 0x04, 0x5B];
const ONE_63: [u8; 8] = [0, 0, 0, 0, 0, 1, 0xFD, 0xBC];

/// One bit beside ZEROS, and beside ZEROS_63.
const WRONG: [u8; 8] = [0, 0, 0, 0, 0, 0, 0x03, 0xE2];
const WRONG_63: [u8; 8] = [0, 0, 0, 0, 0, 0, 0xFE, 0x0B];

fn differs(received: u32) -> u32 {
    received << 16 | 3 << 8
}

#[test]
fn six_zero_bytes() {
    assert_eq!([check(&ZEROS, 0), check(&ZEROS, 1), check(&ZEROS, 63)], [RIGHT, differs(0), differs(0)]);
    assert_eq!([check(&ZEROS_1, 0), check(&ZEROS_1, 1), check(&ZEROS_1, 63)], [differs(1), RIGHT, differs(1)]);
    assert_eq!([check(&ZEROS_63, 0), check(&ZEROS_63, 1), check(&ZEROS_63, 63)], [differs(63), differs(63), RIGHT]);
}

/// Whatever counter they carry: the expected one or another; and one that was turned into the expected one on the way.
#[test]
fn a_wrong_check_is_damaged() {
    let counter_bit = [0, 0, 0, 0, 0, 0, 0x07, 0xE3];
    let data_bit = [1, 0, 0, 0, 0, 0, 0x03, 0xE3];
    for expected in 0..64 {
        for payload in [WRONG, WRONG_63, counter_bit, data_bit, [0; 8], [0xFF; 8]] {
            assert_eq!(check(&payload, expected), DAMAGED, "{payload:02X?} against {expected}");
        }
    }
}

/// Of all endings of six data bytes one is right, 63 have another counter, each its own, and the rest are damaged.
#[test]
fn one_verdict_for_each_ending() {
    for (six, expected) in [([0; 6], 0), ([0xFF; 6], 1), ([1, 2, 3, 4, 5, 6], 63), ([0x5A; 6], 32)] {
        let endings = (0..=u16::MAX).map(u16::to_be_bytes);
        let answers: Vec<u32> = endings.map(|ending| check(&[&six[..], &ending].concat(), expected)).collect();
        assert_eq!(answers.iter().filter(|answer| **answer == RIGHT).count(), 1);
        for received in 0..64 {
            let times = usize::from(received != u32::from(expected));
            assert_eq!(answers.iter().filter(|answer| **answer == differs(received)).count(), times, "counter {received}");
        }
        assert_eq!(answers.iter().filter(|answer| **answer == DAMAGED).count(), 65_536 - 64);
    }
}

/// 7 comes first. 64 is not 0, nor 127 63.
#[test]
fn refusals_of_a_check() {
    let twice = [ZEROS, ZEROS].concat();
    for (length, expected) in (0..=16).flat_map(|length| (0..=255).map(move |expected| (length, expected))) {
        let answer = match (expected, length) {
            (64.., _) => COUNTER_OR_POSITION,
            (0, 8) => RIGHT,
            (_, 8) => differs(0),
            _ => LENGTH_WRONG,
        };
        assert_eq!(check(&twice[..length], expected), answer, "{length} bytes against {expected}");
    }
    assert_eq!([check(&ZEROS_63, 127), check(&WRONG, 64)], [COUNTER_OR_POSITION; 2]);
}

/// All nine, with 1 expected.
#[test]
fn one_monitor_read_from_both_ends() {
    let [right, other, damaged] = [ONE_1, ZEROS_63, WRONG];
    for (a, b, answer) in [
        (right, right, PORT_A),
        (right, other, PORT_A),
        (right, damaged, PORT_A),
        (other, right, PORT_B),
        (other, other, PORT_A_DIFFERS),
        (other, damaged, PORT_A_DIFFERS),
        (damaged, right, PORT_B),
        (damaged, other, PORT_B_DIFFERS),
        (damaged, damaged, BOTH_DAMAGED),
        // Two other counters; and a damaged one that carries what is expected.
        (ZEROS, ZEROS_63, PORT_A_DIFFERS),
        (ZEROS_63, ZEROS, PORT_A_DIFFERS),
        ([0, 0, 0, 0, 0, 0, 0x07, 0xE3], ZEROS, PORT_B_DIFFERS),
    ] {
        assert_eq!(two_ports(&a, &b, 1, 1, 1), answer, "{a:02X?} and {b:02X?}");
    }
}

/// Port A's reply has monitor 1 first, and port B's monitor 3.
#[test]
fn the_place_of_each_monitor() {
    let a = [ZEROS, WRONG, ONE].concat();
    let b = [ONE_63, ZEROS_63, WRONG_63].concat();
    for (position, expected, answer) in [
        (1, 0, PORT_A),
        (1, 63, PORT_A_DIFFERS),
        (2, 0, 8 << 16 | PORT_B_DIFFERS),
        (2, 63, 8 << 16 | PORT_B),
        (3, 0, 16 << 16 | PORT_A),
        (3, 1, 16 << 16 | PORT_A_DIFFERS),
        (3, 63, PORT_B),
    ] {
        assert_eq!(two_ports(&a, &b, 3, position, expected), answer, "position {position} against {expected}");
    }
}

/// The counter first, then N and the position, then the lengths, then the bytes.
#[test]
fn refusals_of_two_ports() {
    for (a, b, monitors, position, expected, answer) in [
        (&WRONG[..], &WRONG_63[..], 1, 1, 64, COUNTER_OR_POSITION),
        (&ZEROS, &ZEROS, 1, 1, 64, COUNTER_OR_POSITION),
        (&ZEROS_63, &ZEROS_63, 1, 1, 255, COUNTER_OR_POSITION),
        (&[], &[], 33, 0, 128, COUNTER_OR_POSITION),
        (&[], &[], 0, 1, 0, COUNTER_OR_POSITION),
        (&ZEROS, &ZEROS, 1, 2, 0, COUNTER_OR_POSITION),
        (&ZEROS[..7], &ZEROS, 1, 1, 0, LENGTH_WRONG),
        (&ZEROS, &[], 1, 1, 0, LENGTH_WRONG),
        (&WRONG, &WRONG[1..], 1, 1, 0, LENGTH_WRONG),
        (&WRONG, &WRONG_63, 1, 1, 0, BOTH_DAMAGED),
        (&WRONG, &WRONG_63, 1, 1, 63, BOTH_DAMAGED),
    ] {
        assert_eq!(two_ports(a, b, monitors, position, expected), answer, "{a:02X?}, {b:02X?}, N {monitors}, {position}, {expected}");
    }
}

/// With six zero bytes as configuration B and as retention, unlocked.
fn record(counter: u8) -> [u8; RECORD] {
    let mut record = [0; RECORD];
    record[68..70].copy_from_slice(&[counter, 1]);
    record
}

/// Two monitors of which RDCFGB shows these, the near one first, and asked against 1 from both ends: the parts by themselves, then with
/// port A's reply whole, and then with all of it damaged.
fn read(table: &mut [[u8; RECORD]; 2], shown: [[u8; 8]; 2], checked: [u32; 2], ports: [u32; 4]) {
    let (answer, a) = sent(table, &[&RDCFGB[..], &[0xFF; 16]].concat());
    assert_eq!((answer, &a[..]), (16 << 16 | 2 << 8, &shown.concat()[..]));
    assert_eq!([check(&a[..8], 1), check(&a[8..], 1)], checked);
    let b = [&a[8..], &a[..8]].concat();
    let struck: Vec<u8> = a.iter().map(|byte| byte ^ 0x01).collect();
    let asked = [(&a, 1), (&a, 2), (&struck, 1), (&struck, 2)];
    assert_eq!(asked.map(|(a, position)| two_ports(a, &b, 2, position, 1)), ports);
}

/// A write to two monitors with counter 63, or in LPCM: the far one's payload comes first. One bit of the near one's is flipped; or some of
/// both; or a bit of the command.
#[test]
fn a_missed_write_shows_in_the_next_read() {
    let write = [&WRCFGB[..], &ONE, &ONE].concat();
    let mut near_hit = write.clone();
    near_hit[17] ^= 0x10;
    let mut both_hit = write.clone();
    both_hit[11] ^= 0x01;
    both_hit[12] ^= 0x80;
    let mut refused = write.clone();
    refused[1] ^= 0x01;
    let near_missed = (ZEROS_63, differs(63), PORT_A_DIFFERS, 8 << 16 | PORT_B_DIFFERS);
    let near_right = (ONE_1, RIGHT, PORT_A, 8 << 16 | PORT_B);
    let far_missed = (ZEROS_63, differs(63), 8 << 16 | PORT_A_DIFFERS, PORT_B_DIFFERS);
    let far_right = (ONE_1, RIGHT, 8 << 16 | PORT_A, PORT_B);
    for (came, in_lpcm, answer, near, far) in [
        (&write, [false, false], 2 << 8, near_right, far_right),
        (&near_hit, [false, false], 1 << 8, near_missed, far_right),
        (&both_hit, [false, false], 0, near_missed, far_missed),
        (&refused, [false, false], 3, near_missed, far_missed),
        (&write, [false, true], 1 << 8, near_right, far_missed),
        (&near_hit, [false, true], 0, near_missed, far_missed),
        (&near_hit, [true, false], 1 << 8, near_missed, far_right),
    ] {
        let mut table = [record(63), record(63)];
        for (record, in_lpcm) in table.iter_mut().zip(in_lpcm) {
            record[133] = if in_lpcm { CMC_EN } else { 0 };
        }
        assert_eq!(sent(&mut table, came), (answer, vec![]));
        read(&mut table, [near.0, far.0], [near.1, far.1], [near.2, far.2, near.3, far.3]);
    }
}

/// WRRR is taken whatever its check, and so does not show, but in LPCM.
#[test]
fn a_damaged_wrrr_does_not_show() {
    let mut came = [&WRRR[..], &ONE, &ONE].concat();
    came[12..].copy_from_slice(&WRONG);
    let mut table = [record(0), record(0)];
    assert_eq!(sent(&mut table, &came), (2 << 8, vec![]));
    read(&mut table, [ZEROS_1; 2], [RIGHT; 2], [PORT_A, 8 << 16 | PORT_A, 8 << 16 | PORT_B, PORT_B]);

    let mut table = [record(0), record(0)];
    table[0][133] = CMC_EN;
    assert_eq!(sent(&mut table, &came), (1 << 8, vec![]));
    let ports = [PORT_A_DIFFERS, 8 << 16 | PORT_A, 8 << 16 | PORT_B_DIFFERS, PORT_B];
    read(&mut table, [ZEROS, ZEROS_1], [differs(0), RIGHT], ports);
}

/// After 63 comes 1, so 63 missed ones are as none; and RSTCC makes a monitor that missed one look like the others.
#[test]
fn what_does_not_show() {
    let mut table = [record(1), record(1)];
    let came = [&WRCFGB[..], &ZEROS, &WRONG].concat();
    for times in 1..=63 {
        assert_eq!(sent(&mut table, &came), (1 << 8, vec![]));
        let (_, reply) = sent(&mut table, &[&RDCFGB[..], &[0xFF; 16]].concat());
        let expected = if times < 63 { times + 1 } else { 1 };
        let near = if times < 63 { differs(1) } else { RIGHT };
        assert_eq!([check(&reply[..8], expected), check(&reply[8..], expected)], [near, RIGHT], "{times} missed");
    }

    let mut table = [record(5), record(6)];
    assert_eq!(sent(&mut table, &RSTCC), (2 << 8, vec![]));
    let (_, reply) = sent(&mut table, &[&RDCFGB[..], &[0xFF; 16]].concat());
    assert_eq!([check(&reply[..8], 0), check(&reply[8..], 0)], [RIGHT; 2]);
}

/// A monitor takes a write whatever counter came with a right check.
#[test]
fn either_right_is_taken() {
    for (payload, counter) in [(ONE, 9), (ONE_1, 9), (ONE_63, 9), (ONE_1, 1), (ONE_63, 63)] {
        let mut table = [record(counter)];
        assert_eq!(sent(&mut table, &[&WRCFGB[..], &payload].concat()), (1 << 8, vec![]));
        assert_eq!((table[0][11], table[0][68]), (1, if counter == 63 { 1 } else { counter + 1 }));
    }
}
