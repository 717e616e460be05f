//! L8's settings and enabling by hand, from the sheet's Tables 97 to 100: the new commands, payloads of four bytes, and a monitor that takes
//! no write. As whole frames and clocked.

use crate::both_engines::sent;
use crate::check_words::{check_bytes, command_bytes, payload, payload_right};
use crate::commands::{listed, Command};
use crate::*;

const CMDIS: [u8; 4] = [0x00, 0x40, 0x51, 0xD6];
const CMEN: [u8; 4] = [0x00, 0x41, 0xDA, 0xE4];
const WRCMCFG: [u8; 4] = [0x00, 0x58, 0xE2, 0xF6];
const RDCMCFG: [u8; 4] = [0x00, 0x59, 0x69, 0xC4];
const WRCMCELLT: [u8; 4] = [0x00, 0x5A, 0x7F, 0xA0];
const RDCMCELLT: [u8; 4] = [0x00, 0x5B, 0xF4, 0x92];
const WRCMGPIOT: [u8; 4] = [0x00, 0x5C, 0x53, 0x68];
const RDCMGPIOT: [u8; 4] = [0x00, 0x5D, 0xD8, 0x5A];
const CLRCMFLAG: [u8; 4] = [0x00, 0x5E, 0xCE, 0x3E];
const RDCMFLAG: [u8; 4] = [0x00, 0x5F, 0x45, 0x0C];

const SNAP: [u8; 4] = [0x00, 0x2D, 0xD2, 0xA2];
const ULRR: [u8; 4] = [0x00, 0x38, 0xB3, 0x20];
const WRRR: [u8; 4] = [0x00, 0x39, 0x38, 0x12];

/// The seven writes that were there before, each with eight bytes for a monitor.
const EARLIER_WRITES: [[u8; 4]; 7] = [
    [0x00, 0x01, 0x3D, 0x6E],
    [0x00, 0x24, 0xB1, 0x9E],
    WRRR,
    [0x07, 0x17, 0xE5, 0x08],
    [0x07, 0x15, 0x78, 0x5E],
    [0x00, 0x20, 0x00, 0x00],
    [0x00, 0x21, 0x8B, 0x32],
];

const LIVE: [u8; 32] = *b"ABCDEFGHIJKLMNOPQRSTUVWXYZ[]{}()";
const COPY: [u8; 32] = *b"abcdefghijklmnopqrstuvwxyz012345";
const LAST: [u8; 32] = *b"the measurement before this one.";

/// Two of data and two of check: what clears all of CMF0, its highest and its lowest bit, and nothing though all of the second byte is sent.
const ALL: [u8; 4] = [0xFF, 0xFF, 0x02, 0x05];
const OUTER: [u8; 4] = [0x81, 0x00, 0x03, 0x2A];
const SECOND: [u8; 4] = [0x00, 0xFF, 0x00, 0xAE];

/// CMF0 and CMF1, the cells of the last measurement, the counter and byte 69. No snapshot is on.
fn record(flags: [u8; 2], last: [u8; 32], counter: u8, unlocked: u8) -> [u8; RECORD] {
    let mut record = [0x5A; RECORD];
    record[12..44].copy_from_slice(&LIVE);
    record[68..70].copy_from_slice(&[counter, unlocked]);
    record[82..114].copy_from_slice(&COPY);
    record[132..134].copy_from_slice(&flags);
    record[138..170].copy_from_slice(&last);
    record
}

/// The same with six bytes from this one on.
fn with(mut record: [u8; RECORD], first: usize, six: [u8; 6]) -> [u8; RECORD] {
    record[first..][..6].copy_from_slice(&six);
    record
}

/// A read, which `monitors` monitors are clocked for.
fn read(head: [u8; 4], monitors: usize) -> Vec<u8> {
    [&head[..], &vec![0xFF; 8 * monitors]].concat()
}

fn write(head: [u8; 4], payloads: &[&[u8]]) -> Vec<u8> {
    [&head[..], &payloads.concat()].concat()
}

/// The check of a code with one more in its last bit is 8B 32 away, as UNMUTE's (63 3C) is from MUTE's (E8 0E).
#[test]
fn the_ten_commands() {
    for (even, odd) in [(CMDIS, CMEN), (WRCMCFG, RDCMCFG), (WRCMCELLT, RDCMCELLT), (WRCMGPIOT, RDCMGPIOT), (CLRCMFLAG, RDCMFLAG)] {
        assert_eq!([even[0], even[1] ^ 0x01, even[2] ^ 0x8B, even[3] ^ 0x32], odd);
        for head in [even, odd] {
            let code = u16::from_be_bytes([head[0], head[1]]);
            assert_eq!(command_bytes(code), head);
            assert!(listed(code).is_some());
        }
    }
    // Of the codes beside them none is listed, CMHB (0043) neither.
    for code in (0x003B..0x0100).filter(|code| ![0x40, 0x41].contains(code) && !(0x58..=0x5F).contains(code)) {
        assert_eq!(listed(code), None, "{code:04X}");
    }
}

/// Two zero bytes have x^26, which is 248h. The lowest bit of the first byte adds x^24, which is 092h, its highest one x^31, 1F0h; the lowest
/// bit of the second byte adds x^16, 337h, and the lowest counter bit x^10, 08Fh. The last four came with the request.
#[test]
fn checks_of_two_bytes() {
    for (data, counter, check) in [
        ([0x00, 0x00], 0, [0x02, 0x48]),
        ([0x01, 0x00], 0, [0x02, 0xDA]),
        ([0x81, 0x00], 0, [0x03, 0x2A]),
        ([0x00, 0x01], 0, [0x01, 0x7F]),
        ([0x00, 0x00], 1, [0x06, 0xC7]),
        ([0x42, 0x00], 0, [0x03, 0x94]),
        ([0x47, 0x00], 0, [0x01, 0x4E]),
        ([0x43, 0x02], 0, [0x01, 0xE7]),
        ([0xFF, 0xFF], 0, [0x02, 0x05]),
    ] {
        assert_eq!(check_bytes(&data, counter), check, "{data:02X?}, counter {counter}");
        assert!(payload_right(&[data, check].concat()));
        assert!(!payload_right(&[data, [check[0], check[1] ^ 1]].concat()));
        assert!(!payload_right(&[data, [check[0] ^ 4, check[1]]].concat()));
    }
    assert!([ALL, OUTER, SECOND].iter().all(|four| payload_right(four)));
    // The host's check of one payload is of replies, and so of eight bytes only.
    assert_eq!(check(&ALL, 0), 5);
}

/// CMEN makes CMF1 83h and takes the live cells where CMC_EN is clear, and where it is set changes neither. CMDIS clears that bit alone. CMF0
/// and the rest of the group stay.
#[test]
fn what_cmen_and_cmdis_leave_in_a_record() {
    for (head, before, after, last) in [
        (CMEN, 0x00, 0x83, LIVE),
        (CMEN, 0x03, 0x83, LIVE),
        (CMEN, 0x7F, 0x83, LIVE),
        (CMEN, 0x5C, 0x83, LIVE),
        (CMEN, 0x80, 0x80, LAST),
        (CMEN, 0x83, 0x83, LAST),
        (CMEN, 0xFF, 0xFF, LAST),
        (CMDIS, 0x83, 0x03, LAST),
        (CMDIS, 0x80, 0x00, LAST),
        (CMDIS, 0xFF, 0x7F, LAST),
        (CMDIS, 0x00, 0x00, LAST),
        (CMDIS, 0x7F, 0x7F, LAST),
    ] {
        for (counter, next) in [(0, 1), (5, 6), (62, 63), (63, 1)] {
            for (cmf0, unlocked) in [(0x00, 0), (0xA5, 1), (0xFF, 0)] {
                let mut table = [record([cmf0, before], LAST, counter, unlocked)];
                assert_eq!(sent(&mut table, &head), (1 << 8, vec![]));
                assert_eq!(table, [record([cmf0, after], last, next, 0)], "{head:02X?}, CMF1 {before:02X}");
            }
        }
    }
}

/// Each monitor goes by its own CMC_EN, and all of them take both commands.
#[test]
fn two_monitors_of_which_one_is_in_lpcm() {
    let mut table = [record([0x00, 0x81], LAST, 9, 1), record([0x12, 0x02], LAST, 63, 1)];
    assert_eq!(sent(&mut table, &CMEN), (2 << 8, vec![]));
    assert_eq!(table, [record([0x00, 0x81], LAST, 10, 0), record([0x12, 0x83], LIVE, 1, 0)]);
    assert_eq!(sent(&mut table, &CMDIS), (2 << 8, vec![]));
    assert_eq!(table, [record([0x00, 0x01], LAST, 11, 0), record([0x12, 0x03], LIVE, 2, 0)]);
}

/// A snapshot is of other cells: CMEN takes the live ones, and the copy stays. A second CMEN after a store leaves the jump to be seen.
#[test]
fn the_live_cells_are_the_last_measurement() {
    let snapped = |mut record: [u8; RECORD]| {
        record[5] = 0x7A;
        record
    };
    let mut table = [snapped(record([0x00, 0x03], LAST, 1, 0))];
    assert_eq!(sent(&mut table, &CMEN), (1 << 8, vec![]));
    assert_eq!(table, [snapped(record([0x00, 0x83], LIVE, 2, 0))]);

    // SNAP goes on in LPCM, and is nothing to the last measurement; nor is CLRCELL.
    let mut table = [record([0x00, 0x83], LAST, 1, 0)];
    let mut expected = snapped(record([0x00, 0x83], LAST, 2, 0));
    expected[82..114].copy_from_slice(&LIVE);
    assert_eq!(sent(&mut table, &SNAP), (1 << 8, vec![]));
    assert_eq!(table, [expected]);
    assert_eq!(sent(&mut table, &[0x07, 0x11, 0xC9, 0xC0]), (1 << 8, vec![]));
    let cleared = std::array::from_fn::<u8, 32, _>(|byte| if byte % 2 == 0 { 0x00 } else { 0x80 });
    expected[12..44].copy_from_slice(&cleared);
    expected[68] = 3;
    assert_eq!(table, [expected]);

    assert_eq!(store(table.as_flattened_mut(), 1, &[0x0101; 16]), 0);
    assert_eq!(sent(&mut table, &CMEN), (1 << 8, vec![]));
    expected[12..44].fill(0x01);
    expected[68] = 4;
    assert_eq!(table, [expected]);
}

/// WRCMCFG stores all bits; of the thresholds (CUV, COV and CDV, or the GPIOs') the low half of byte 4 and nothing of byte 5 is kept.
#[test]
fn the_settings() {
    let stood = record([0x12, 0x34], LAST, 9, 1);
    let [near, far] = [[0x11, 0x22, 0x33, 0x44, 0x55, 0x66], [0xFF; 6]];
    for (head, first, near_kept, far_kept) in [
        (WRCMCFG, 114, near, far),
        (WRCMCELLT, 120, [0x11, 0x22, 0x33, 0x44, 0x05, 0x00], [0xFF, 0xFF, 0xFF, 0xFF, 0x0F, 0x00]),
        (WRCMGPIOT, 126, [0x11, 0x22, 0x33, 0x44, 0x05, 0x00], [0xFF, 0xFF, 0xFF, 0xFF, 0x0F, 0x00]),
    ] {
        let mut table = [stood; 2];
        assert_eq!(sent(&mut table, &write(head, &[&payload(far, 0), &payload(near, 7)])), (2 << 8, vec![]));
        let next = record([0x12, 0x34], LAST, 10, 0);
        assert_eq!(table, [with(next, first, near_kept), with(next, first, far_kept)], "{head:02X?}");

        let mut damaged = payload(far, 0);
        damaged[6] ^= 1;
        let mut table = [stood; 2];
        assert_eq!(sent(&mut table, &write(head, &[&damaged, &payload(near, 0)])), (1 << 8, vec![]));
        assert_eq!(table, [with(next, first, near_kept), record([0x12, 0x34], LAST, 9, 0)], "{head:02X?}");
    }
}

/// Each read shows its own six bytes, in LPCM too.
#[test]
fn the_four_reads() {
    for cmf1 in [0x34, 0xB4] {
        for (head, six) in
            [(RDCMCFG, *b"config"), (RDCMCELLT, *b"cell16"), (RDCMGPIOT, *b"gpio10"), (RDCMFLAG, [0x12, cmf1, 0x5A, 0x5A, 0x5A, 0x5A])]
        {
            let mut near = with(with(record([0x12, cmf1], LAST, 33, 1), 114, *b"config"), 120, *b"cell16");
            near = with(near, 126, *b"gpio10");
            let far = record([0x00, 0x00], LAST, 5, 1);
            let mut table = [near, far];
            let far_six = if head == RDCMFLAG { [0x00, 0x00, 0x5A, 0x5A, 0x5A, 0x5A] } else { [0x5A; 6] };
            let shown = [payload(six, 33), payload(far_six, 5)].concat();
            assert_eq!(sent(&mut table, &read(head, 2)), (16 << 16 | 2 << 8, shown));
            let locked = |mut record: [u8; RECORD]| {
                record[69] = 0;
                record
            };
            assert_eq!(table, [locked(near), locked(far)]);
        }
    }
}

/// Four bytes for each monitor, the far one's first. A bit sent as 1 in the first clears that of CMF0; CMF1 stays whatever the second is.
#[test]
fn clrcmflag() {
    for (four, cmf0, after) in [
        (ALL, 0xFF, 0x00),
        (ALL, 0x5A, 0x00),
        (OUTER, 0xFF, 0x7E),
        (OUTER, 0x7E, 0x7E),
        (OUTER, 0x81, 0x00),
        (SECOND, 0xFF, 0xFF),
        // The check is over the counter bits as they were sent; 42 of them here.
        ([0xFF, 0xFF, 0xA8, 0x30], 0xFF, 0x00),
    ] {
        let mut table = [record([cmf0, 0x7F], LAST, 63, 1)];
        assert_eq!(sent(&mut table, &write(CLRCMFLAG, &[&four])), (1 << 8, vec![]), "{four:02X?}");
        assert_eq!(table, [record([after, 0x7F], LAST, 1, 0)], "{four:02X?}");
    }

    let mut table = [record([0xFF, 0x00], LAST, 1, 0), record([0xFF, 0x00], LAST, 2, 0), record([0xFF, 0x00], LAST, 3, 1)];
    let damaged = [0xFF, 0xFF, 0x02, 0x04];
    assert_eq!(sent(&mut table, &write(CLRCMFLAG, &[&damaged, &ALL, &OUTER])), (2 << 8, vec![]));
    assert_eq!(table, [record([0x7E, 0x00], LAST, 2, 0), record([0x00, 0x00], LAST, 3, 0), record([0xFF, 0x00], LAST, 3, 0)]);
}

/// With eight bytes for each monitor a CLRCMFLAG is as long as one for twice as many; a write with four is as long as one for half as many.
#[test]
fn lengths() {
    let eight = payload([0xFF; 6], 0);
    for (head, payloads, monitors, answer) in [
        (CLRCMFLAG, &[&ALL[..]][..], 1, 1 << 8),
        (CLRCMFLAG, &[&eight], 1, 5),
        (CLRCMFLAG, &[&ALL, &ALL], 1, 5),
        (CLRCMFLAG, &[&ALL, &ALL], 2, 2 << 8),
        (CLRCMFLAG, &[&eight, &eight], 2, 5),
        (CLRCMFLAG, &[&ALL], 2, 5),
        (CLRCMFLAG, &[], 1, 5),
        (CLRCMFLAG, &[&ALL[..3]], 1, 5),
        (CLRCMFLAG, &[&eight[..5]], 1, 5),
        (WRCMCFG, &[&ALL], 1, 5),
        (WRCMCFG, &[&ALL, &ALL], 2, 5),
        (WRCMCELLT, &[&eight[..7]], 1, 5),
        (RDCMFLAG, &[&ALL], 1, 5),
        (CMEN, &[&ALL], 1, 5),
        (CMEN, &[&eight], 1, 5),
        (CMDIS, &[&eight[..1]], 1, 5),
    ] {
        let before = vec![record([0xFF, 0x03], LAST, 9, 1); monitors];
        let mut table = before.clone();
        assert_eq!(sent(&mut table, &write(head, payloads)).0, answer, "{head:02X?} with {payloads:02X?} for {monitors}");
        assert_eq!(table == before, answer == 5);
    }
}

/// Whatever the check: nothing is stored or counted, and byte 69 becomes 0. A monitor beside it that is not in LPCM does as ever.
#[test]
fn no_write_in_lpcm() {
    let eight = payload([0xFF; 6], 0);
    let damaged = [0xFF, 0xFF, 0xFF, 0xFF, 0xFF, 0xFF, eight[6], eight[7] ^ 1];
    let with_eight =
        EARLIER_WRITES.into_iter().chain([WRCMCFG, WRCMCELLT, WRCMGPIOT]).flat_map(|head| [(head, &eight[..]), (head, &damaged)]);
    let with_four = [(CLRCMFLAG, &ALL[..]), (CLRCMFLAG, &[0xFF, 0xFF, 0x02, 0x04])];
    for (head, own) in with_eight.chain(with_four) {
        for cmf1 in [0x80, 0x83, 0xFF] {
            for (counter, unlocked) in [(0, 0), (5, 1), (63, 1)] {
                let mut table = [record([0xFF, cmf1], LAST, counter, unlocked)];
                assert_eq!(sent(&mut table, &write(head, &[own])), (0, vec![]));
                assert_eq!(table, [record([0xFF, cmf1], LAST, counter, 0)], "{head:02X?} of {own:02X?}");

                // The middle one of three is awake: it does what it would do alone.
                let asleep = record([0xFF, cmf1], LAST, counter, unlocked);
                let mut alone = [record([0xFF, 0x7F], LAST, counter, unlocked)];
                let mut table = [asleep, alone[0], asleep];
                let (taken, _) = sent(&mut alone, &write(head, &[own]));
                assert_eq!(taken, if payload_right(own) || head == WRRR { 1 << 8 } else { 0 });
                assert_eq!(sent(&mut table, &write(head, &[own, own, own])), (taken, vec![]));
                let kept = record([0xFF, cmf1], LAST, counter, 0);
                assert_eq!(table, [kept, alone[0], kept], "{head:02X?} of {own:02X?}");
            }
        }
    }
}

/// ULRR unlocks in LPCM, and is counted; the WRRR after it stores nothing, and locks. After CMDIS both do as ever.
#[test]
fn retention_in_lpcm() {
    let six = *b"number";
    let mut table = [record([0x00, 0x83], LAST, 62, 0)];
    assert_eq!(sent(&mut table, &ULRR), (1 << 8, vec![]));
    assert_eq!(table, [record([0x00, 0x83], LAST, 63, 1)]);
    assert_eq!(sent(&mut table, &write(WRRR, &[&payload(six, 0)])), (0, vec![]));
    assert_eq!(table, [record([0x00, 0x83], LAST, 63, 0)]);
    for (head, counter, unlocked) in [(CMDIS, 1, 0), (ULRR, 2, 1)] {
        assert_eq!(sent(&mut table, &head), (1 << 8, vec![]));
        assert_eq!(table, [record([0x00, 0x03], LAST, counter, unlocked)]);
    }
    assert_eq!(sent(&mut table, &write(WRRR, &[&payload(six, 0)])), (1 << 8, vec![]));
    assert_eq!(table, [with(record([0x00, 0x03], LAST, 3, 0), 56, six)]);
}

/// Beside those above: MUTE, UNMUTE, RSTCC and UNSNAP go on, as do reads, stores, compares and loads.
#[test]
fn what_goes_on_in_lpcm() {
    for (head, byte_5, counter) in [
        ([0x00, 0x28, 0xE8, 0x0E], 0x5A, 10),
        ([0x00, 0x29, 0x63, 0x3C], 0x4A, 10),
        ([0x00, 0x2E, 0xC4, 0xC6], 0x5A, 0),
        ([0x00, 0x2F, 0x4F, 0xF4], 0x5A, 10),
    ] {
        let mut table = [record([0xFF, 0x83], LAST, 9, 1)];
        assert_eq!(sent(&mut table, &head), (1 << 8, vec![]));
        let mut expected = record([0xFF, 0x83], LAST, counter, 0);
        expected[5] = byte_5;
        assert_eq!(table, [expected], "{head:02X?}");
    }

    let mut table = [record([0xFF, 0x83], LAST, 9, 1)];
    assert_eq!(sent(&mut table, &read([0x00, 0x04, 0x07, 0xC2], 1)), (8 << 16 | 1 << 8, payload(*b"ABCDEF", 9).to_vec()));
    let mut expected = record([0xFF, 0x83], LAST, 9, 0);
    assert_eq!(table, [expected]);
    // VUV is A5Ah, which is -1446, and VOV 5A5h, which is 1445: the code 0 lies between them, and 32767 above both.
    assert_eq!([store(table.as_flattened_mut(), 1, &[0; 16]), compare(table.as_flattened_mut(), 1)], [0, 0]);
    expected[12..44].fill(0);
    assert_eq!(table, [expected]);
    assert_eq!(load(table.as_flattened_mut(), 1, &[32767; 16]), 0);
    for cell in 0..16 {
        expected[12 + 2 * cell..][..2].copy_from_slice(&[0xFF, 0x7F]);
    }
    expected[50..54].fill(0xFA);
    assert_eq!(table, [expected]);
}

/// A window has four places in a CLRCMFLAG: it is full at half of what it holds in another write.
#[test]
fn windows_of_four_bytes() {
    let table = [record([0xFF, 0x00], LAST, 1, 1), record([0xFF, 0x80], LAST, 2, 1)];
    let clocked = |head: [u8; 4], expected: &[[&[u8]; 2]]| {
        let mut clock = Clock::new();
        for byte in head {
            assert_eq!(clock.byte(table.as_flattened(), byte), 0xFF << 8);
        }
        for (came, windows) in expected.iter().enumerate() {
            if came > 0 {
                assert_eq!(clock.byte(table.as_flattened(), came as u8), 0xFF << 8);
            }
            for (position, window) in [(1, windows[0]), (2, windows[1])] {
                let mut out = [0xAA; 9];
                assert_eq!(clock.window(position, &mut out), (window.len() as u32) << 16, "{came} bytes came, position {position}");
                assert_eq!((&out[..window.len()], &out[window.len()..]), (window, &[0xAA; 9][window.len()..]));
                let room = window.len().saturating_sub(1);
                assert_eq!(clock.window(position, &mut out[..room]), if window.is_empty() { 0 } else { 6 });
            }
            assert_eq!(clock.window(3, &mut [0; 8]), 7);
        }
    };
    // The eleventh byte is more than there is room for, and the oldest ones are lost.
    clocked(
        CLRCMFLAG,
        &[
            [&[], &[]],
            [&[1], &[]],
            [&[1, 2], &[]],
            [&[1, 2, 3], &[]],
            [&[1, 2, 3, 4], &[]],
            [&[2, 3, 4, 5], &[1]],
            [&[3, 4, 5, 6], &[1, 2]],
            [&[4, 5, 6, 7], &[1, 2, 3]],
            [&[5, 6, 7, 8], &[1, 2, 3, 4]],
            [&[6, 7, 8, 9], &[2, 3, 4, 5]],
            [&[7, 8, 9, 10], &[3, 4, 5, 6]],
        ],
    );
    clocked(
        WRCMCFG,
        &[
            [&[], &[]],
            [&[1], &[]],
            [&[1, 2], &[]],
            [&[1, 2, 3], &[]],
            [&[1, 2, 3, 4], &[]],
            [&[1, 2, 3, 4, 5], &[]],
            [&[1, 2, 3, 4, 5, 6], &[]],
            [&[1, 2, 3, 4, 5, 6, 7], &[]],
            [&[1, 2, 3, 4, 5, 6, 7, 8], &[]],
            [&[2, 3, 4, 5, 6, 7, 8, 9], &[1]],
        ],
    );
    clocked(CMEN, &[[&[], &[]], [&[], &[]]]);
    clocked([0x00, 0x43, 0x47, 0xB2], &[[&[], &[]], [&[], &[]], [&[], &[]]]);
}

/// After a CLRCMFLAG the windows of the next frame have room for eight again, released or given up.
#[test]
fn the_next_frame_has_its_own_windows() {
    let mut table = [record([0xFF, 0x00], LAST, 1, 0)];
    let mut clock = Clock::new();
    for given_up in [true, false] {
        for byte in write(CLRCMFLAG, &[&ALL]) {
            clock.byte(table.as_flattened(), byte);
        }
        if given_up {
            clock.start();
        } else {
            assert_eq!(clock.release(table.as_flattened_mut()), 1 << 8);
        }
        for byte in write(WRCMCFG, &[&payload(*b"config", 0)]) {
            clock.byte(table.as_flattened(), byte);
        }
        assert_eq!(clock.release(table.as_flattened_mut()), 1 << 8);
    }
    assert_eq!(table, [with(record([0x00, 0x00], LAST, 4, 0), 114, *b"config")]);
}

/// Two values for each monitor, nearest first, and no more and no less.
#[test]
fn the_hosts_frames() {
    let built = |code: u16, monitors: usize, values: &[u8], room: usize| {
        let mut out = vec![0xAA; room];
        let answer = host_frame(code, monitors, values, &mut out);
        if answer & 0xFF != 0 {
            assert_eq!(out, vec![0xAA; room]);
        }
        (answer, out)
    };
    assert_eq!(built(0x005E, 1, &[0xFF, 0xFF], 8), (8 << 16, write(CLRCMFLAG, &[&ALL])));
    let (answer, out) = built(0x005E, 3, &[0x81, 0x00, 0xFF, 0xFF, 0x00, 0xFF], 20);
    assert_eq!((answer, &out[..16], &out[16..]), (16 << 16, &write(CLRCMFLAG, &[&SECOND, &ALL, &OUTER])[..], &[0xAA; 4][..]));
    let (answer, out) = built(0x005E, 32, &[0xFF; 64], 132);
    assert_eq!((answer, &out[128..]), (132 << 16, &ALL[..]));
    assert_eq!(built(0x0058, 1, b"config", 12), (12 << 16, write(WRCMCFG, &[&payload(*b"config", 0)])));
    for (code, head) in [(0x0040, CMDIS), (0x0041, CMEN)] {
        assert_eq!(built(code, 32, &[], 4), (4 << 16, head.to_vec()));
    }
    for (code, head) in [(0x0059, RDCMCFG), (0x005B, RDCMCELLT), (0x005D, RDCMGPIOT), (0x005F, RDCMFLAG)] {
        assert_eq!(built(code, 2, &[], 20), (20 << 16, read(head, 2)));
    }

    for (code, monitors, values, room, number) in [
        (0x0043, 1, 2, 300, 4),
        (0x0043, 0, 0, 0, 4),
        (0x005E, 0, 0, 0, 7),
        (0x005E, 33, 66, 300, 7),
        (0x005E, 1, 6, 300, 8),
        (0x005E, 2, 12, 300, 8),
        (0x005E, 3, 2, 0, 8),
        (0x005E, 2, 3, 300, 8),
        (0x005E, 2, 5, 300, 8),
        (0x005E, 2, 0, 300, 8),
        (0x0058, 3, 6, 300, 8),
        (0x005A, 1, 2, 300, 8),
        (0x0041, 1, 2, 300, 8),
        (0x005F, 1, 2, 300, 8),
        (0x005E, 2, 4, 11, 6),
        (0x005E, 32, 64, 131, 6),
    ] {
        assert_eq!(built(code, monitors, &vec![0xFF; values], room).0, number, "{code:04X} for {monitors}, {values} values, room {room}");
    }
}

/// CMHB is sent by devices. As the host's frame it is refused, also as a heartbeat message, which has four bytes more, and in LPCM.
#[test]
fn cmhb_is_not_listed() {
    let head = [0x00, 0x43, 0x47, 0xB2];
    assert_eq!(command_bytes(0x0043), head);
    for cmf1 in [0x00, 0x83] {
        for rest in [&[][..], &[0x42, 0x00, 0x03, 0x94], &payload([0; 6], 0)] {
            let mut table = [record([0x00, cmf1], LAST, 9, 1)];
            assert_eq!(sent(&mut table, &[&head[..], rest].concat()), (4, vec![]));
            assert_eq!(table, [record([0x00, cmf1], LAST, 9, 1)]);
        }
    }
}

/// L7 with four bytes for each monitor. Two of them: the far one is sent OUTER, in bytes 4 to 7, the near one ALL, in bytes 8 to 11.
#[test]
fn a_spike_on_a_clrcmflag() {
    let frame = write(CLRCMFLAG, &[&OUTER, &ALL]);
    let struck = |first: usize, flips: &[u8]| {
        let mut came = frame.clone();
        came[first..].iter_mut().zip(flips).for_each(|(byte, flips)| *byte ^= flips);
        came
    };
    let stood = [record([0xFF, 0x03], LAST, 63, 1), record([0xFF, 0x03], LAST, 9, 1)];
    let taken = [record([0x00, 0x03], LAST, 1, 0), record([0x7E, 0x03], LAST, 10, 0)];
    let hit = [record([0xFF, 0x03], LAST, 63, 0), record([0xFF, 0x03], LAST, 9, 0)];
    let mut table = stood;
    assert_eq!(sent(&mut table, &frame), (2 << 8, vec![]));
    assert_eq!(table, taken);

    // The first place; ten places, which are all the second byte and two of the first; the second byte alone; the counter bits; the two
    // check bits beside them; the last place; ten places, which are the check.
    let flips: [(usize, &[u8]); 7] =
        [(0, &[0x80]), (0, &[0x03, 0xFF]), (1, &[0xFF]), (2, &[0xFC]), (2, &[0x03]), (3, &[0x01]), (2, &[0x02, 0x01])];
    for (first, flips) in flips {
        let mut table = stood;
        assert_eq!(sent(&mut table, &struck(4 + first, flips)), (1 << 8, vec![]), "{flips:02X?} from byte {first} on");
        assert_eq!(table, [taken[0], hit[1]]);
        let mut table = stood;
        assert_eq!(sent(&mut table, &struck(8 + first, flips)), (1 << 8, vec![]), "{flips:02X?} from byte {first} on");
        assert_eq!(table, [hit[0], taken[1]]);
    }
    // Over the border: two places, ten with the border in their middle, and ten of which nine are the far monitor's, or one.
    for (first, flips) in [(7, &[0x01, 0x80][..]), (7, &[0x1F, 0xF8]), (6, &[0x01, 0x00, 0x80]), (7, &[0x01, 0x00, 0x80])] {
        let mut table = stood;
        assert_eq!(sent(&mut table, &struck(first, flips)), (0, vec![]), "{flips:02X?} from byte {first} on");
        assert_eq!(table, hit);
    }

    // Eleven places, 100_1000_1111, get through: at the start other flags are cleared, and at the end the counter bits come otherwise.
    for (first, flips, came, cmf0) in [
        (4, &[0x91, 0xE0][..], [0x10, 0xE0, 0x03, 0x2A], 0xEF),
        (5, &[0x02, 0x47, 0x80], [0x81, 0x02, 0x44, 0xAA], 0x7E),
        (6, &[0x04, 0x8F], [0x81, 0x00, 0x07, 0xA5], 0x7E),
    ] {
        let frame = struck(first, flips);
        assert_eq!(frame[4..8], came);
        assert!(payload_right(&came));
        let mut table = stood;
        assert_eq!(sent(&mut table, &frame), (2 << 8, vec![]));
        assert_eq!(table, [taken[0], record([cmf0, 0x03], LAST, 10, 0)]);
    }
    // In the command fifteen do not, and sixteen may: the polynomial makes RDCMFLAG of it, which is longer.
    let mut table = stood;
    assert_eq!(sent(&mut table, &struck(1, &[0x01])), (3, vec![]));
    assert_eq!(sent(&mut table, &struck(1, &[0x01, 0x8B, 0x32])), (5, vec![]));
    assert_eq!(table, stood);
}

/// A monitor in LPCM that is hit does what it does unhit; the other one of two does as L7 says.
#[test]
fn a_spike_where_one_is_in_lpcm() {
    let six = [0, 0, 0, 0, 0, 1];
    for (head, taken_by) in [([0x00, 0x24, 0xB1, 0x9E], [1, 0, 0]), (WRRR, [1, 1, 1])] {
        let first = if head == WRRR { 56 } else { 6 };
        let stood = [record([0x00, 0x03], LAST, 63, 1), record([0x00, 0x83], LAST, 9, 1)];
        // The far monitor's alone, over the border, and the near one's alone.
        let spikes: [(usize, &[u8], [u8; 6]); 3] =
            [(4, &[0x80], six), (11, &[0x01, 0x80], [0x80, 0, 0, 0, 0, 1]), (12, &[0x40], [0x40, 0, 0, 0, 0, 1])];
        for ((at, flips, came), taken) in spikes.into_iter().zip(taken_by) {
            let mut frame = write(head, &[&payload(six, 0), &payload(six, 0)]);
            frame[at..].iter_mut().zip(flips).for_each(|(byte, flips)| *byte ^= flips);
            let mut table = stood;
            assert_eq!(sent(&mut table, &frame), (taken << 8, vec![]));
            let near = if taken == 1 { with(record([0x00, 0x03], LAST, 1, 0), first, came) } else { record([0x00, 0x03], LAST, 63, 0) };
            assert_eq!(table, [near, record([0x00, 0x83], LAST, 9, 0)]);
        }
    }
}

/// No table of records without L8's part has the length of one with it: 85 monitors of 114 bytes would be the first.
#[test]
fn records_of_114_bytes_are_no_table() {
    for monitors in 1..=32 {
        let mut table = vec![0; 114 * monitors];
        assert_eq!(frame(&mut table, &CMEN, &mut []), 1);
        assert_eq!(table, vec![0; 114 * monitors]);
        assert_eq!(frame(&mut vec![0; 170 * monitors], &CMEN, &mut []), (monitors as u32) << 8);
    }
}

/// The example of the sheet, for two monitors of which the far one is the manager: thresholds, configuration, flags cleared, all read back;
/// enabled, and then no write is taken; disabled, and it is.
#[test]
fn a_chain_goes_to_sleep_and_wakes() {
    assert!(matches!(listed(0x005E), Some(Command::Write(_))));
    let mut table = [[0; RECORD]; 2];
    table[0][132] = 0xFF;
    // CUV 1A1h is 2.5 V, COV 465h 4.2 V, CDV 0A7h 0.2 V. CMC_NDEV is 44h; the manager sends on port A.
    let cell = [0xA1, 0x51, 0x46, 0xA7, 0x00, 0x00];
    let gpio = [0x00, 0xF8, 0x7F, 0xFF, 0x0F, 0x00];
    let [near, far] = [[0x00, 0x44, 0x00, 0x00, 0xC0, 0xFF], [0x80, 0x44, 0x00, 0x00, 0xE0, 0xFF]];
    let settings = [(WRCMCELLT, RDCMCELLT, cell, cell), (WRCMGPIOT, RDCMGPIOT, gpio, gpio), (WRCMCFG, RDCMCFG, near, far)];
    for (counter, (head, read_back, near, far)) in (1..).zip(settings) {
        assert_eq!(sent(&mut table, &write(head, &[&payload(far, 0), &payload(near, 0)])), (2 << 8, vec![]));
        let shown = [payload(near, counter), payload(far, counter)].concat();
        assert_eq!(sent(&mut table, &read(read_back, 2)), (16 << 16 | 2 << 8, shown));
    }
    assert_eq!(sent(&mut table, &write(CLRCMFLAG, &[&ALL, &ALL])), (2 << 8, vec![]));
    assert_eq!(sent(&mut table, &read(RDCMFLAG, 2)).1, [payload([0; 6], 4); 2].concat());

    for position in [1, 2] {
        assert_eq!(store(table.as_flattened_mut(), position, &[14000; 16]), 0);
    }
    assert_eq!(sent(&mut table, &CMEN), (2 << 8, vec![]));
    assert_eq!(sent(&mut table, &read(RDCMFLAG, 2)).1, [payload([0x00, 0x83, 0, 0, 0, 0], 5); 2].concat());
    let asleep = table;
    assert_eq!(asleep.map(|record| record[138..170] == record[12..44]), [true; 2]);
    assert_eq!(sent(&mut table, &write(WRCMCFG, &[&payload([0; 6], 0), &payload([0; 6], 0)])), (0, vec![]));
    assert_eq!(sent(&mut table, &write(CLRCMFLAG, &[&ALL, &ALL])), (0, vec![]));
    assert_eq!(table, asleep);

    assert_eq!(sent(&mut table, &CMDIS), (2 << 8, vec![]));
    assert_eq!(sent(&mut table, &read(RDCMFLAG, 2)).1, [payload([0x00, 0x03, 0, 0, 0, 0], 6); 2].concat());
    assert_eq!(sent(&mut table, &write(WRCMCFG, &[&payload([0; 6], 0), &payload([0; 6], 0)])), (2 << 8, vec![]));
    assert_eq!(sent(&mut table, &read(RDCMCFG, 2)).1, [payload([0; 6], 7); 2].concat());
}
