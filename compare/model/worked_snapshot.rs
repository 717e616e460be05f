//! L6 by hand: SNAP and UNSNAP, and what goes on meanwhile, as whole frames and clocked.

use crate::both_engines::sent;
use crate::check_words::payload;
use crate::*;

/// The check of three codes that add up to a fourth adds up to its check: MUTE, UNMUTE and RDSID (E8 0E, 63 3C, 59 90) to SNAP's, and
/// with RSTCC (C4 C6) in RDSID's place to UNSNAP's.
const SNAP: [u8; 4] = [0x00, 0x2D, 0xD2, 0xA2];
const UNSNAP: [u8; 4] = [0x00, 0x2F, 0x4F, 0xF4];
const CLRCELL: [u8; 4] = [0x07, 0x11, 0xC9, 0xC0];
const RDCVA: [u8; 4] = [0x00, 0x04, 0x07, 0xC2];

/// Byte 5 of a record with no snapshot on, and with one.
const OFF: u8 = 0x0B;
const ON: u8 = 0x2B;

const LIVE: [u8; 32] = *b"ABCDEFGHIJKLMNOPQRSTUVWXYZ[]{}()";
const COPY: [u8; 32] = *b"abcdefghijklmnopqrstuvwxyz012345";

fn record(byte_5: u8, cells: [u8; 32], copy: [u8; 32], counter: u8, unlocked: u8) -> [u8; RECORD] {
    let mut record = [0x5A; RECORD];
    record[5] = byte_5;
    record[12..44].copy_from_slice(&cells);
    record[68..70].copy_from_slice(&[counter, unlocked]);
    record[82..114].copy_from_slice(&copy);
    record
}

/// A read, which `monitors` monitors are clocked for.
fn read(head: [u8; 4], monitors: usize) -> Vec<u8> {
    [&head[..], &vec![0xFF; 8 * monitors]].concat()
}

#[test]
fn what_the_two_leave_in_a_record() {
    for (byte_5, head, after, copy) in [
        (OFF, SNAP, ON, LIVE),
        (ON, SNAP, ON, COPY),
        (ON, UNSNAP, OFF, COPY),
        (OFF, UNSNAP, OFF, COPY),
        (0xDF, SNAP, 0xFF, LIVE),
        (0xFF, UNSNAP, 0xDF, COPY),
    ] {
        for (counter, next) in [(0, 1), (5, 6), (62, 63), (63, 1)] {
            for unlocked in [0, 1] {
                let mut table = [record(byte_5, LIVE, COPY, counter, unlocked)];
                assert_eq!(sent(&mut table, &head), (1 << 8, vec![]));
                assert_eq!(table, [record(after, LIVE, copy, next, 0)], "{head:02X?}, byte 5 {byte_5:02X}");
            }
        }
    }
}

/// Each monitor goes by its own SNAP_ST, and all of them take it.
#[test]
fn two_monitors_of_which_one_has_a_snapshot() {
    let mut table = [record(ON, LIVE, COPY, 9, 1), record(OFF, LIVE, COPY, 63, 0)];
    let shown = [payload(*b"abcdef", 9), payload(*b"ABCDEF", 63)].concat();
    assert_eq!(sent(&mut table, &read(RDCVA, 2)), (16 << 16 | 2 << 8, shown));
    assert_eq!(sent(&mut table, &SNAP), (2 << 8, vec![]));
    assert_eq!(table, [record(ON, LIVE, COPY, 10, 0), record(ON, LIVE, LIVE, 1, 0)]);
    assert_eq!(sent(&mut table, &UNSNAP), (2 << 8, vec![]));
    assert_eq!(table, [record(OFF, LIVE, COPY, 11, 0), record(OFF, LIVE, LIVE, 2, 0)]);
}

/// The six cell reads of a lent record, on and off. RDCVF has two bytes and then FF.
#[test]
fn each_cell_read() {
    for (head, live, copy) in [
        (RDCVA, *b"ABCDEF", *b"abcdef"),
        ([0x00, 0x06, 0x9A, 0x94], *b"GHIJKL", *b"ghijkl"),
        ([0x00, 0x08, 0x5E, 0x52], *b"MNOPQR", *b"mnopqr"),
        ([0x00, 0x0A, 0xC3, 0x04], *b"STUVWX", *b"stuvwx"),
        ([0x00, 0x09, 0xD5, 0x60], *b"YZ[]{}", *b"yz0123"),
        ([0x00, 0x0B, 0x48, 0x36], *b"()\xFF\xFF\xFF\xFF", *b"45\xFF\xFF\xFF\xFF"),
    ] {
        for (byte_5, six) in [(OFF, live), (ON, copy), (0xDF, live), (0x20, copy)] {
            let mut table = [record(byte_5, LIVE, COPY, 33, 1)];
            assert_eq!(sent(&mut table, &read(head, 1)), (8 << 16 | 1 << 8, payload(six, 33).to_vec()));
            assert_eq!(table, [record(byte_5, LIVE, COPY, 33, 0)]);
        }
    }
}

/// Cell 3 is 256 at SNAP, and RDCVA shows it through a store, a second SNAP and CLRCELL. Checks by x^10 = 08Fh, x^11 = 11Eh and
/// x^12 = 23Ch for the bits of the counter, from 0D4h of these six bytes and 3E3h of six zero bytes, each with counter 0.
#[test]
fn a_long_read_is_of_one_moment() {
    let mut cells = [0; 32];
    cells[5] = 1;
    let mut table = [record(OFF, cells, COPY, 0, 0)];
    let shown = |table: &mut [[u8; RECORD]], eight: [u8; 8]| {
        assert_eq!(sent(table, &read(RDCVA, 1)), (8 << 16 | 1 << 8, eight.to_vec()));
    };
    shown(&mut table, [0, 0, 0, 0, 0, 1, 0x00, 0xD4]);
    assert_eq!(sent(&mut table, &SNAP), (1 << 8, vec![]));
    shown(&mut table, [0, 0, 0, 0, 0, 1, 0x04, 0x5B]);
    assert_eq!(store(table.as_flattened_mut(), 1, &[0; 16]), 0);
    shown(&mut table, [0, 0, 0, 0, 0, 1, 0x04, 0x5B]);
    assert_eq!(sent(&mut table, &SNAP), (1 << 8, vec![]));
    shown(&mut table, [0, 0, 0, 0, 0, 1, 0x09, 0xCA]);
    assert_eq!(sent(&mut table, &CLRCELL), (1 << 8, vec![]));
    shown(&mut table, [0, 0, 0, 0, 0, 1, 0x0D, 0x45]);
    assert_eq!(store(table.as_flattened_mut(), 1, &[0; 16]), 0);
    assert_eq!(sent(&mut table, &UNSNAP), (1 << 8, vec![]));
    shown(&mut table, [0, 0, 0, 0, 0, 0, 0x11, 0xDF]);
    assert_eq!(table, [record(OFF, [0; 32], cells, 4, 0)]);

    // The next SNAP is of a moment of its own; the counter 5 adds x^12 and x^10 to 3E3h.
    assert_eq!(sent(&mut table, &SNAP), (1 << 8, vec![]));
    shown(&mut table, [0, 0, 0, 0, 0, 0, 0x15, 0x50]);
    assert_eq!(table, [record(ON, [0; 32], [0; 32], 5, 0)]);
}

/// VUV 0 and VOV 100, as in example 11. Every code of the copy is above both, and no flag comes of that.
#[test]
fn the_live_record_goes_on() {
    let with = |cells: [u8; 32], status_d: u8| {
        let mut record = record(ON, cells, COPY, 9, 1);
        record[6..9].copy_from_slice(&[0x00, 0x40, 0x06]);
        record[50..54].fill(status_d);
        record
    };
    let mut table = [with(LIVE, 0)];
    let codes = |code: i16| std::array::from_fn(|byte| code.to_le_bytes()[byte % 2]);

    assert_eq!(store(table.as_flattened_mut(), 1, &[1600; 16]), 0);
    assert_eq!(table, [with(codes(1600), 0)]);
    assert_eq!(compare(table.as_flattened_mut(), 1), 0);
    assert_eq!(table, [with(codes(1600), 0)]);
    assert_eq!(load(table.as_flattened_mut(), 1, &[-1; 16]), 0);
    assert_eq!(table, [with(codes(-1), 0b01_01_01_01)]);
    assert_eq!(store(table.as_flattened_mut(), 1, &[1601; 16]), 0);
    assert_eq!(compare(table.as_flattened_mut(), 1), 0);
    assert_eq!(table, [with(codes(1601), 0b11_11_11_11)]);

    assert_eq!(sent(&mut table, &CLRCELL), (1 << 8, vec![]));
    let mut expected = with(codes(-32768), 0b11_11_11_11);
    expected[68..70].copy_from_slice(&[10, 0]);
    assert_eq!(table, [expected]);
    assert_eq!(compare(table.as_flattened_mut(), 1), 0);
    assert_eq!(table, [expected]);
}

/// The status registers are not frozen here: a clear shows at once.
#[test]
fn status_stays_live() {
    for (clear, show, first, bytes, after) in [
        ([0x07, 0x15, 0x78, 0x5E], [0x00, 0x33, 0x4D, 0x4A], 50, 0..4, [0x50, 0x50, 0x50, 0x50, 0x5A, 0x5A]),
        ([0x07, 0x17, 0xE5, 0x08], [0x00, 0x32, 0xC6, 0x78], 44, 0..6, [0x50, 0x50, 0x5A, 0x5A, 0x50, 0x50]),
    ] {
        let mut table = [record(ON, LIVE, COPY, 7, 0)];
        assert_eq!(sent(&mut table, &read(show, 1)).1, payload([0x5A; 6], 7));
        assert_eq!(sent(&mut table, &[&clear[..], &payload([0x0F; 6], 0)].concat()), (1 << 8, vec![]));
        assert_eq!(sent(&mut table, &read(show, 1)).1, payload(after, 8));
        let mut expected = record(ON, LIVE, COPY, 8, 0);
        expected[first..][bytes.clone()].copy_from_slice(&after[bytes]);
        assert_eq!(table, [expected]);
    }
}

/// WRCFGA neither ends a snapshot nor begins one; a damaged one does nothing.
#[test]
fn wrcfga_keeps_snap_st() {
    const WRCFGA: [u8; 4] = [0x00, 0x01, 0x3D, 0x6E];
    for (byte_5, six, after) in [(ON, [0x00; 6], [0, 0, 0, 0, 0, 0x20]), (OFF, [0xFF; 6], [0x87, 0xFF, 0xF8, 0xFF, 0x03, 0x0F])] {
        let stood = record(byte_5, LIVE, COPY, 3, 0);
        let mut table = [stood];
        let mut eight = payload(six, 0);
        eight[7] ^= 1;
        assert_eq!(sent(&mut table, &[&WRCFGA[..], &eight].concat()), (0, vec![]));
        assert_eq!(table, [stood]);
        eight[7] ^= 1;
        assert_eq!(sent(&mut table, &[&WRCFGA[..], &eight].concat()), (1 << 8, vec![]));
        let mut expected = stood;
        expected[..6].copy_from_slice(&after);
        expected[68] = 4;
        assert_eq!(table, [expected]);
    }
}

#[test]
fn refusals_leave_a_snapshot_alone() {
    for head in [SNAP, UNSNAP] {
        let with_bit = [head[0], head[1], head[2], head[3] | 1];
        let other_check = [head[0], head[1] ^ 2, head[2], head[3]];
        let longer = [&head[..], &[0xFF; 8]].concat();
        for (frame, number) in [(&longer[..], 5), (&longer[..5], 5), (&with_bit[..], 3), (&other_check[..], 3)] {
            for byte_5 in [ON, OFF] {
                let mut table = [record(byte_5, LIVE, COPY, 9, 1)];
                assert_eq!(sent(&mut table, frame), (number, vec![]));
                assert_eq!(table, [record(byte_5, LIVE, COPY, 9, 1)]);
            }
        }
    }
}

/// No table of records without the copy has the length of one of today's: 85 monitors of 82 bytes would be the first.
#[test]
fn records_of_82_bytes_are_no_table() {
    for monitors in 1..=32 {
        let mut table = vec![0; 82 * monitors];
        assert_eq!(frame(&mut table, &SNAP, &mut []), 1);
        assert_eq!(table, vec![0; 82 * monitors]);
    }
}
