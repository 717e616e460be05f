//! L3 by hand: WRRR with a bad check, as a whole frame and clocked.

use crate::both_engines::sent;
use crate::*;

const ULRR: [u8; 4] = [0x00, 0x38, 0xB3, 0x20];
const WRRR: [u8; 4] = [0x00, 0x39, 0x38, 0x12];
const RDRR: [u8; 12] = [0x00, 0x3A, 0x2E, 0x76, 0xFF, 0xFF, 0xFF, 0xFF, 0xFF, 0xFF, 0xFF, 0xFF];

/// The last data bit adds x^16, which is 337h, to the 3E3h of 54 zero bits: 0D4h.
const RIGHT: [u8; 8] = [0, 0, 0, 0, 0, 1, 0x00, 0xD4];
/// Nine bits away from six zero bytes with 03 E3h, which are right. An odd number of wrong bits always shows, since x + 1 divides the
/// polynomial.
const DAMAGED: [u8; 8] = [1, 2, 3, 4, 5, 6, 0x03, 0xE3];

const STOOD: [u8; 6] = [0x5A; 6];

fn record(retention: [u8; 6], counter: u8, unlocked: u8) -> [u8; RECORD] {
    let mut record = [0x5A; RECORD];
    record[56..62].copy_from_slice(&retention);
    record[68..70].copy_from_slice(&[counter, unlocked]);
    record
}

#[test]
fn the_two_payloads() {
    assert_eq!([check(&RIGHT, 0), check(&DAMAGED, 0)], [1 << 8, 2 << 8]);
}

#[test]
fn a_damaged_wrrr_stores_where_unlocked_and_counts_everywhere() {
    let check_bit = [0, 0, 0, 0, 0, 1, 0x00, 0xD5];
    let counter_bit = [0, 0, 0, 0, 0, 1, 0x80, 0xD4];
    for (payload, six) in [(DAMAGED, [1, 2, 3, 4, 5, 6]), (check_bit, [0, 0, 0, 0, 0, 1]), (counter_bit, [0, 0, 0, 0, 0, 1])] {
        for (counter, next) in [(0, 1), (5, 6), (62, 63), (63, 1)] {
            for (unlocked, retention) in [(0, STOOD), (1, six)] {
                let mut table = [record(STOOD, counter, unlocked)];
                assert_eq!(sent(&mut table, &[&WRRR[..], &payload].concat()), (1 << 8, vec![]));
                assert_eq!(table, [record(retention, next, 0)], "{payload:02X?}, byte 69 {unlocked}");
            }
        }
    }
}

/// The far monitor's payload comes first on the wire. One monitor is unlocked and one payload is damaged, in each of the four ways.
#[test]
fn two_monitors_of_which_one_is_unlocked() {
    let [by_right, by_damaged] = [[0, 0, 0, 0, 0, 1], [1, 2, 3, 4, 5, 6]];
    for (unlocked, near, far, retention) in [
        ([1, 0], DAMAGED, RIGHT, [by_damaged, STOOD]),
        ([1, 0], RIGHT, DAMAGED, [by_right, STOOD]),
        ([0, 1], DAMAGED, RIGHT, [STOOD, by_right]),
        ([0, 1], RIGHT, DAMAGED, [STOOD, by_damaged]),
    ] {
        let mut table = [record(STOOD, 9, unlocked[0]), record(STOOD, 63, unlocked[1])];
        assert_eq!(sent(&mut table, &[&WRRR[..], &far, &near].concat()), (2 << 8, vec![]));
        assert_eq!(table, [record(retention[0], 10, 0), record(retention[1], 1, 0)], "{unlocked:?}, {near:02X?}");
    }
}

#[test]
fn every_other_write_needs_its_check() {
    for head in [
        [0x00, 0x01, 0x3D, 0x6E],
        [0x00, 0x24, 0xB1, 0x9E],
        [0x07, 0x17, 0xE5, 0x08],
        [0x07, 0x15, 0x78, 0x5E],
        [0x00, 0x20, 0x00, 0x00],
        [0x00, 0x21, 0x8B, 0x32],
    ] {
        let mut table = [record(STOOD, 9, 1)];
        assert_eq!(sent(&mut table, &[&head[..], &DAMAGED].concat()), (0, vec![]));
        assert_eq!(table, [record(STOOD, 9, 0)], "{head:02X?}");
    }
}

/// The board that kept its licence number. A second WRRR finds it locked, and a WRCFGB after ULRR locks, also a damaged one.
#[test]
fn unlocked_written_and_read() {
    let mut table = [record(STOOD, 0, 0)];
    let check_bit = [&WRRR[..], &[0, 0, 0, 0, 0, 1, 0x00, 0xD5]].concat();
    assert_eq!(sent(&mut table, &ULRR), (1 << 8, vec![]));
    assert_eq!(sent(&mut table, &check_bit), (1 << 8, vec![]));
    // The counter 2 adds x^11, which is 11Eh, to 0D4h: 1CAh.
    assert_eq!(sent(&mut table, &RDRR), (8 << 16 | 1 << 8, vec![0, 0, 0, 0, 0, 1, 0x09, 0xCA]));

    let second = [&WRRR[..], &DAMAGED].concat();
    assert_eq!(sent(&mut table, &second), (1 << 8, vec![]));
    // The counter 3 adds x^10 as well, which is 08Fh: 145h.
    assert_eq!(sent(&mut table, &RDRR), (8 << 16 | 1 << 8, vec![0, 0, 0, 0, 0, 1, 0x0D, 0x45]));

    assert_eq!(sent(&mut table, &ULRR), (1 << 8, vec![]));
    assert_eq!(sent(&mut table, &[&[0x00, 0x24, 0xB1, 0x9E], &DAMAGED[..]].concat()), (0, vec![]));
    assert_eq!(sent(&mut table, &second), (1 << 8, vec![]));
    assert_eq!(table, [record([0, 0, 0, 0, 0, 1], 5, 0)]);
}

/// A damaged payload excuses nothing else, and a refused WRRR leaves the unlocking.
#[test]
fn refusals_of_a_damaged_wrrr() {
    let good = [&WRRR[..], &DAMAGED, &DAMAGED].concat();
    let with_bit = [&[0x00, 0x39, 0x38, 0x13], &DAMAGED[..]].concat();
    for (frame, number) in [(&good[..4], 5), (&good[..11], 5), (&good[..13], 5), (&good[..], 5), (&with_bit[..], 3)] {
        let mut table = [record(STOOD, 9, 1)];
        assert_eq!(sent(&mut table, frame), (number, vec![]));
        assert_eq!(table, [record(STOOD, 9, 1)]);
    }
}
