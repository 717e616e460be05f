//! L7 by hand: what a spike on the wire can do, as a whole frame and clocked.

use crate::both_engines::sent;
use crate::*;

const WRCFGB: [u8; 4] = [0x00, 0x24, 0xB1, 0x9E];
const MUTE: [u8; 4] = [0x00, 0x28, 0xE8, 0x0E];
const RDRR: [u8; 12] = [0x00, 0x3A, 0x2E, 0x76, 0xFF, 0xFF, 0xFF, 0xFF, 0xFF, 0xFF, 0xFF, 0xFF];

/// Six zero bytes, and the same with the last data bit, which adds 337h to the check.
const ZEROS: [u8; 8] = [0, 0, 0, 0, 0, 0, 0x03, 0xE3];
const ONE: [u8; 8] = [0, 0, 0, 0, 0, 1, 0x00, 0xD4];

const STOOD: [u8; 6] = [0x5A; 6];

/// Six bytes from `first` on, a counter, and byte 69.
fn record(first: usize, six: [u8; 6], counter: u8, unlocked: u8) -> [u8; RECORD] {
    let mut record = [0x5A; RECORD];
    record[first..][..6].copy_from_slice(&six);
    record[68..70].copy_from_slice(&[counter, unlocked]);
    record
}

/// A record with these six bytes as configuration B.
fn set_to(six: [u8; 6], counter: u8, unlocked: u8) -> [u8; RECORD] {
    record(6, six, counter, unlocked)
}

/// A record with these six bytes as retention.
fn retaining(six: [u8; 6], counter: u8, unlocked: u8) -> [u8; RECORD] {
    record(56, six, counter, unlocked)
}

/// A frame with these bits of its bytes from `first` on flipped.
fn struck(frame: &[u8], first: usize, flips: &[u8]) -> Vec<u8> {
    let mut came = frame.to_vec();
    for (byte, flips) in came[first..].iter_mut().zip(flips) {
        *byte ^= flips;
    }
    came
}

/// WRCFGB for two monitors: the far one is sent ONE, in bytes 4 to 11, and the near one ZEROS, in bytes 12 to 19.
fn wrcfgb() -> Vec<u8> {
    [&WRCFGB[..], &ONE, &ZEROS].concat()
}

#[test]
fn a_spike_in_one_payload_or_over_a_border() {
    let near = [set_to(STOOD, 63, 1), set_to([0; 6], 1, 0), set_to(STOOD, 63, 0)];
    let far = [set_to(STOOD, 9, 1), set_to([0, 0, 0, 0, 0, 1], 10, 0), set_to(STOOD, 9, 0)];
    let [untouched, taken, hit] = [0, 1, 2];
    let both = [near[untouched], far[untouched]];
    let mut table = both;
    assert_eq!(sent(&mut table, &wrcfgb()), (2 << 8, vec![]));
    assert_eq!(table, [near[taken], far[taken]]);

    // The first place of a payload; ten places up to the last data bit; the counter bits; the two check bits of that byte; the last place;
    // ten places, which are the check.
    for (first, flips) in [(4, &[0x80][..]), (8, &[0x03, 0xFF]), (10, &[0xFC]), (10, &[0x03]), (11, &[0x01]), (10, &[0x02, 0x01])] {
        let mut table = both;
        assert_eq!(sent(&mut table, &struck(&wrcfgb(), first, flips)), (1 << 8, vec![]), "{flips:02X?} from byte {first} on");
        assert_eq!(table, [near[taken], far[hit]]);
        let mut table = both;
        assert_eq!(sent(&mut table, &struck(&wrcfgb(), first + 8, flips)), (1 << 8, vec![]), "{flips:02X?} from byte {} on", first + 8);
        assert_eq!(table, [near[hit], far[taken]]);
    }

    // Two places, ten with the border in their middle, and ten of which nine are the far monitor's, or one.
    for (first, flips) in [(11, &[0x01, 0x80][..]), (11, &[0x1F, 0xF8]), (10, &[0x01, 0x00, 0x80]), (11, &[0x01, 0x00, 0x80])] {
        let mut table = both;
        assert_eq!(sent(&mut table, &struck(&wrcfgb(), first, flips)), (0, vec![]), "{flips:02X?} from byte {first} on");
        assert_eq!(table, [near[hit], far[hit]]);
    }
}

/// Eleven places, 100_1000_1111: at the start of a payload, over its last data bit, and at its end, where only the counter bits come
/// otherwise. With x^13 = 0F7h the check of six zero bytes and counter 8 is 314h. A monitor asks nothing of the counter that came with a
/// right check (L5).
#[test]
fn eleven_places_can_get_through() {
    for (first, flips, came, counter, six) in [
        (4, &[0x91, 0xE0][..], [0x91, 0xE0, 0, 0, 0, 1, 0x00, 0xD4], 0, [0x91, 0xE0, 0, 0, 0, 1]),
        (9, &[0x01, 0x23, 0xC0], [0, 0, 0, 0, 0, 0, 0x23, 0x14], 8, [0; 6]),
        (10, &[0x04, 0x8F], [0, 0, 0, 0, 0, 1, 0x04, 0x5B], 1, [0, 0, 0, 0, 0, 1]),
    ] {
        let frame = struck(&wrcfgb(), first, flips);
        assert_eq!(frame[4..12], came);
        assert_eq!(check(&came, counter), 1 << 8);
        let mut table = [set_to(STOOD, 63, 1), set_to(STOOD, 9, 1)];
        assert_eq!(sent(&mut table, &frame), (2 << 8, vec![]));
        assert_eq!(table, [set_to([0; 6], 1, 0), set_to(six, 10, 0)]);
    }

    // Over a border the same eleven places are a shorter spike in each payload.
    let mut table = [set_to(STOOD, 63, 1), set_to(STOOD, 9, 1)];
    assert_eq!(sent(&mut table, &struck(&wrcfgb(), 11, &[0x24, 0x78])), (0, vec![]));
    assert_eq!(table, [set_to(STOOD, 63, 0), set_to(STOOD, 9, 0)]);
}

#[test]
fn a_struck_wrrr_is_taken() {
    let frame = [&[0x00, 0x39, 0x38, 0x12], &ONE[..], &ZEROS].concat();
    // The far monitor's last data byte and some counter bits; and both payloads.
    let cases = [(9, [0x03, 0xF0], [0; 6], [0, 0, 0, 0, 0, 2]), (11, [0x01, 0xC0], [0xC0, 0, 0, 0, 0, 0], [0, 0, 0, 0, 0, 1])];
    for (first, flips, near, far) in cases {
        let frame = struck(&frame, first, &flips);
        let mut table = [retaining(STOOD, 5, 1), retaining(STOOD, 63, 1)];
        assert_eq!(sent(&mut table, &frame), (2 << 8, vec![]));
        assert_eq!(table, [retaining(near, 6, 0), retaining(far, 1, 0)]);
        let mut table = [retaining(STOOD, 5, 1), retaining(STOOD, 63, 0)];
        assert_eq!(sent(&mut table, &frame), (2 << 8, vec![]));
        assert_eq!(table, [retaining(near, 6, 0), retaining(STOOD, 1, 0)]);
    }
}

/// In a bare command, a write and a read: the first place, the last place, fifteen places from the one and up to the other, all but the
/// last of the code, all of the check, one place that makes UNMUTE of MUTE, and one that makes RDCFGB of WRCFGB and ULRR of RDRR.
#[test]
fn a_spike_in_the_command_is_refused() {
    for frame in [&MUTE[..], &wrcfgb(), &RDRR] {
        for (first, flips) in [
            (0, &[0x80][..]),
            (3, &[0x01]),
            (0, &[0x80, 0x02]),
            (2, &[0x40, 0x01]),
            (0, &[0xFF, 0xFE]),
            (2, &[0xFF, 0xFE]),
            (1, &[0x01]),
            (1, &[0x02]),
        ] {
            let mut table = [set_to(STOOD, 63, 1), set_to(STOOD, 9, 1)];
            let stood = table;
            // The refusal comes before one for the length, which is not right for every one of these frames.
            assert_eq!(sent(&mut table, &struck(frame, first, flips)), (3, vec![]), "{flips:02X?} from byte {first} on");
            assert_eq!(table, stood);
        }
    }
}

/// A read that is struck in its command draws nothing from the windows, in which there is nothing.
#[test]
fn a_struck_read_answers_nothing() {
    let table = retaining(STOOD, 9, 1);
    let mut clock = Clock::new();
    for byte in struck(&RDRR, 3, &[0x01]) {
        assert_eq!(clock.byte(&table, byte), 0xFF << 8);
        assert_eq!(clock.window(1, &mut [0; 8]) >> 16, 0);
    }
}

/// The polynomial over sixteen places, 1100_0101_1001_1001, is not told. Up to the last place but one it makes UNMUTE of MUTE; one place
/// before that a WRRR of RDRR, whose filler is then retained; from the first place on a code that is not listed; and of WRCFGB it makes
/// MUTE, which is shorter.
#[test]
fn sixteen_places_can_get_through() {
    let mut table = [set_to(STOOD, 62, 1)];
    table[0][5] = 0x10;
    let unmute = struck(&MUTE, 1, &[0x01, 0x8B, 0x32]);
    assert_eq!(unmute, [0x00, 0x29, 0x63, 0x3C]);
    assert_eq!(sent(&mut table, &unmute), (1 << 8, vec![]));
    let mut unmuted = set_to(STOOD, 63, 0);
    unmuted[5] = 0x00;
    assert_eq!(table, [unmuted]);

    let wrrr = struck(&RDRR, 1, &[0x03, 0x16, 0x64]);
    assert_eq!(wrrr[..4], [0x00, 0x39, 0x38, 0x12]);
    let mut table = [retaining(STOOD, 9, 1)];
    assert_eq!(sent(&mut table, &wrrr), (1 << 8, vec![]));
    assert_eq!(table, [retaining([0xFF; 6], 10, 0)]);

    for (frame, number) in [(struck(&MUTE, 0, &[0xC5, 0x99]), 4), (struck(&wrcfgb(), 1, &[0x0C, 0x59, 0x90]), 5)] {
        let mut table = [set_to(STOOD, 63, 1), set_to(STOOD, 9, 1)];
        let stood = table;
        assert_eq!(sent(&mut table, &frame), (number, vec![]), "{frame:02X?}");
        assert_eq!(table, stood);
    }
}
