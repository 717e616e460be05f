//! L8's heartbeat by hand: the message, each monitor's part in it, and whole chains.

use crate::message::Message;
use crate::*;

/// The three messages that came with the request.
const M42: [u8; 8] = [0x00, 0x43, 0x47, 0xB2, 0x42, 0x00, 0x03, 0x94];
const M47: [u8; 8] = [0x00, 0x43, 0x47, 0xB2, 0x47, 0x00, 0x01, 0x4E];
const M43_COV: [u8; 8] = [0x00, 0x43, 0x47, 0xB2, 0x43, 0x02, 0x01, 0xE7];

const PORT_A: u32 = 8 << 16 | 1 << 8;
const PORT_B: u32 = 8 << 16 | 2 << 8;
const SENT_ON: u32 = 8 << 16 | 1 << 8;
const NOTHING: u32 = 0;

const MANAGER_TO_A: [u8; 2] = [0x80, 0x20];
const MANAGER_TO_B: [u8; 2] = [0x80, 0x00];
const MONITOR: [u8; 2] = [0x00, 0x20];
const TIMEOUT_MONITOR: [u8; 2] = [0x08, 0x00];

/// In LPCM and passing, with bytes 0 and 4 of its configuration, and CMC_NDEV.
fn asleep([role, direction]: [u8; 2], ndev: u8) -> [u8; RECORD] {
    let mut record = [0; RECORD];
    for cell in 0..16 {
        record[12 + 2 * cell..][..2].copy_from_slice(&14000_i16.to_le_bytes());
    }
    record.copy_within(12..44, 138);
    record[68..70].copy_from_slice(&[33, 1]);
    record[114..120].copy_from_slice(&[role, ndev, 0x00, 0x00, direction, 0x00]);
    record[120..126].copy_from_slice(&[0xA1, 0x51, 0x46, 0xA7, 0x00, 0x00]);
    record[132..134].copy_from_slice(&[0x00, 0x83]);
    record
}

/// The last cell is one code too high, and was so before.
fn too_high(mut record: [u8; RECORD]) -> [u8; RECORD] {
    record[42..44].copy_from_slice(&18001_i16.to_le_bytes());
    record[168..170].copy_from_slice(&18001_i16.to_le_bytes());
    record
}

fn with(mut record: [u8; RECORD], cmf0: u8, cmf1: u8) -> [u8; RECORD] {
    record[132..134].copy_from_slice(&[cmf0, cmf1]);
    record
}

/// What an operation answers, and writes into twelve bytes. The last four stay, and all of them where nothing is sent.
fn handed_out(operation: impl FnOnce(&mut [u8]) -> u32) -> (u32, Option<[u8; 8]>) {
    let mut out = [0xA5; 12];
    let answer = operation(&mut out);
    assert_eq!(out[8..], [0xA5; 4]);
    if answer >> 16 == 0 {
        assert_eq!(out, [0xA5; 12]);
    }
    (answer, (answer >> 16 == 8).then_some(*out.first_chunk().unwrap()))
}

fn woken(table: &mut [[u8; RECORD]], position: usize) -> (u32, Option<[u8; 8]>) {
    handed_out(|out| wake(table.as_flattened_mut(), position, out))
}

fn reached(table: &mut [[u8; RECORD]], position: usize, message: [u8; 8]) -> (u32, Option<[u8; 8]>) {
    handed_out(|out| relay(table.as_flattened_mut(), position, &message, out))
}

fn beaten(table: &mut [[u8; RECORD]], position: usize) -> (u32, Option<[u8; 8]>) {
    handed_out(|out| heartbeat(table.as_flattened_mut(), position, out))
}

fn says(count: u8, flags: u8) -> [u8; 8] {
    Message { count, flags }.sealed()
}

/// The check is linear: the lowest three bits of the count have x^24 + x^25 + x^26, which is 092h + 124h + 248h = 3FEh, and these make 45h
/// of 42h.
#[test]
fn messages() {
    for (count, flags, sealed) in [(0x42, 0x00, M42), (0x47, 0x00, M47), (0x43, 0x02, M43_COV)] {
        assert_eq!(says(count, flags), sealed);
        assert_eq!(Message::opened(&sealed), Some(Message { count, flags }));
    }
    assert_eq!(says(0x45, 0x00), [0x00, 0x43, 0x47, 0xB2, 0x45, 0x00, 0x00, 0x6A]);
    // With counter bits 1 (08Fh more), and 63 (168h more); and any one bit wrong.
    for ending in [[0x07, 0x1B], [0xFE, 0xFC]] {
        let came = [0x00, 0x43, 0x47, 0xB2, 0x42, 0x00, ending[0], ending[1]];
        assert_eq!(Message::opened(&came), Some(Message::PASS));
    }
    for bit in 0..64 {
        assert_eq!(Message::opened(&(u64::from_be_bytes(M42) ^ 1 << bit).to_be_bytes()), None, "bit {bit}");
    }
}

/// It sends CMC_NDEV, less one if it passes: below 00 comes FF. A violation is in the flags, and so is one that stood.
#[test]
fn a_manager_wakes() {
    for (direction, sent) in [(MANAGER_TO_A, PORT_A), (MANAGER_TO_B, PORT_B), ([0xFF, 0xFF], PORT_A), ([0x88, 0xDF], PORT_B)] {
        for (ndev, one_less) in [(0x48, 0x47), (0x43, 0x42), (0x01, 0x00), (0x00, 0xFF), (0xFF, 0xFE)] {
            let mut table = [asleep(direction, ndev)];
            assert_eq!(woken(&mut table, 1), (sent, Some(says(one_less, 0x00))));
            assert_eq!(table, [asleep(direction, ndev)]);

            let high = too_high(asleep(direction, ndev));
            let mut table = [high];
            assert_eq!(woken(&mut table, 1), (sent, Some(says(ndev, 0x02))));
            assert_eq!(table, [with(high, 0x02, 0x83)]);

            let stood = with(asleep(direction, ndev), 0x90, 0x80);
            let mut table = [stood];
            assert_eq!(woken(&mut table, 1), (sent, Some(says(ndev, 0x90))));
            assert_eq!(table, [stood]);
        }
    }
    assert_eq!(woken(&mut [asleep(MANAGER_TO_A, 0x48)], 1), (PORT_A, Some(M47)));
}

/// No manager, or one that is not in LPCM: nothing changes, though a measurement would change this record.
#[test]
fn no_manager_wakes() {
    for record in
        [asleep(MONITOR, 0x43), asleep(TIMEOUT_MONITOR, 0x43), asleep([0x7F, 0xFF], 0x43), with(asleep(MANAGER_TO_A, 0x43), 0, 0x7F)]
    {
        let mut table = [too_high(record)];
        assert_eq!(woken(&mut table, 1), (NOTHING, None));
        assert_eq!(beaten(&mut table, 1), (NOTHING, None));
        assert_eq!(table, [too_high(record)]);
    }
}

/// Counted down only where it passes, and the flags that came are kept. CMC_NDEV and the direction are nothing to it.
#[test]
fn a_message_reaches_a_monitor() {
    for (came, passing, failing) in [
        (says(0x47, 0x00), says(0x46, 0x00), says(0x47, 0x02)),
        (says(0x43, 0x00), M42, M43_COV),
        (says(0x00, 0x00), says(0xFF, 0x00), says(0x00, 0x02)),
        (says(0x44, 0x81), says(0x43, 0x81), says(0x44, 0x83)),
        (says(0x44, 0xFF), says(0x43, 0xFF), says(0x44, 0xFF)),
        // It came with counter bits 1, and goes on with 0.
        ([0x00, 0x43, 0x47, 0xB2, 0x42, 0x00, 0x07, 0x1B], says(0x41, 0x00), says(0x42, 0x02)),
    ] {
        for settings in [MONITOR, [0x77, 0x00], [0x00, 0xFF]] {
            let monitor = asleep(settings, 0x48);
            let mut table = [monitor];
            assert_eq!(reached(&mut table, 1, came), (SENT_ON, Some(passing)));
            assert_eq!(table, [monitor]);
            let mut table = [too_high(monitor)];
            assert_eq!(reached(&mut table, 1, came), (SENT_ON, Some(failing)));
            assert_eq!(table, [with(too_high(monitor), 0x02, 0x83)]);
        }
    }
    // What came does not join CMF0: the next time it passes.
    let mut table = [asleep(MONITOR, 0)];
    assert_eq!(reached(&mut table, 1, says(0x44, 0xFF)), (SENT_ON, Some(says(0x43, 0xFF))));
    assert_eq!(reached(&mut table, 1, says(0x44, 0x00)), (SENT_ON, Some(says(0x43, 0x00))));
}

/// Any one bit wrong, and another command with its own check; a manager, though it is a timeout monitor too; and a monitor not in LPCM.
#[test]
fn a_message_is_ignored() {
    let ignored = |record: [u8; RECORD], came: [u8; 8]| {
        let mut table = [too_high(record)];
        assert_eq!(reached(&mut table, 1, came), (NOTHING, None), "{came:02X?}");
        assert_eq!(table, [too_high(record)], "{came:02X?}");
    };
    for settings in [MONITOR, TIMEOUT_MONITOR] {
        for bit in 0..64 {
            ignored(asleep(settings, 0x48), (u64::from_be_bytes(M47) ^ 1 << bit).to_be_bytes());
        }
        // CMDIS and a payload that is right; all alike.
        ignored(asleep(settings, 0x48), [0x00, 0x40, 0x51, 0xD6, 0x42, 0x00, 0x03, 0x94]);
        ignored(asleep(settings, 0x48), [0x00; 8]);
        ignored(asleep(settings, 0x48), [0xFF; 8]);
        ignored(with(asleep(settings, 0x48), 0x00, 0x7F), M47);
    }
    for settings in [MANAGER_TO_A, MANAGER_TO_B, [0x88, 0x00], [0xFF, 0xFF]] {
        ignored(asleep(settings, 0x48), M47);
    }
}

/// It takes its own step and judges what that leaves: 43 00 comes, and it passes itself. It sends nothing on.
#[test]
fn a_timeout_monitor() {
    let timeout = asleep(TIMEOUT_MONITOR, 0x48);
    for (cmf1, cleared, set) in
        [(0x83, 0x80, 0x83), (0x80, 0x80, 0x81), (0x82, 0x80, 0x83), (0x81, 0x80, 0x81), (0xFF, 0xFC, 0xFF), (0xFC, 0xFC, 0xFD)]
    {
        for (came, after) in [
            (says(0x43, 0x00), cleared),
            (M42, set),
            (says(0x44, 0x00), set),
            (says(0x43, 0x01), set),
            (says(0x43, 0x80), set),
            (says(0x42, 0xFF), set),
        ] {
            let mut table = [with(timeout, 0x00, cmf1)];
            assert_eq!(reached(&mut table, 1, came), (NOTHING, None));
            assert_eq!(table, [with(timeout, 0x00, after)], "{came:02X?}, CMF1 {cmf1:02X}");
        }
        // One that fails itself never clears them, whatever comes.
        for came in [says(0x43, 0x00), M42, says(0x00, 0x00)] {
            let mut table = [with(too_high(timeout), 0x00, cmf1)];
            assert_eq!(reached(&mut table, 1, came), (NOTHING, None));
            assert_eq!(table, [with(too_high(timeout), 0x02, set)]);
        }
    }
}

/// A timeout monitor alone sees the time run out. It does not measure.
#[test]
fn the_time_runs_out() {
    for (cmf1, after) in [(0x80, 0x82), (0x81, 0x83), (0x82, 0x82), (0x83, 0x83), (0xFC, 0xFE)] {
        for settings in [TIMEOUT_MONITOR, [0x7F, 0xFF]] {
            let record = too_high(asleep(settings, 0x48));
            let mut table = [with(record, 0x00, cmf1)];
            assert_eq!(time_out(table.as_flattened_mut(), 1), 1 << 8);
            assert_eq!(table, [with(record, 0x00, after)]);
        }
    }
    for record in
        [asleep(MONITOR, 0x48), asleep([0xF7, 0xFF], 0x48), asleep([0x88, 0x00], 0x48), with(asleep(TIMEOUT_MONITOR, 0x48), 0x00, 0x7C)]
    {
        let record = with(record, 0x00, record[133] & !0x03);
        let mut table = [record];
        assert_eq!(time_out(table.as_flattened_mut(), 1), 0);
        assert_eq!(table, [record]);
    }
}

/// The sheet's example: six monitors, the farthest is the manager, and the third that is reached fails.
#[test]
fn the_example_of_the_sheet() {
    let monitor = asleep(MONITOR, 0x48);
    let manager = asleep(MANAGER_TO_A, 0x48);
    let mut table = [monitor, monitor, monitor, monitor, monitor, manager];
    assert_eq!(beaten(&mut table, 6), (PORT_A, Some(M42)));
    assert_eq!(verdict(&M42, 0), 1 << 8);
    assert_eq!(table, [monitor, monitor, monitor, monitor, monitor, manager]);

    // The manager is the first device of the example, so the third one is at position 4.
    let high = too_high(monitor);
    let before = [monitor, monitor, monitor, high, monitor, manager];
    let mut table = before;
    assert_eq!(woken(&mut table, 6), (PORT_A, Some(M47)));
    let mut message = M47;
    for (position, count, flags) in [(5, 0x46, 0x00), (4, 0x46, 0x02), (3, 0x45, 0x02), (2, 0x44, 0x02), (1, 0x43, 0x02)] {
        let (answer, sent) = reached(&mut table, position, message);
        message = sent.unwrap();
        assert_eq!((answer, message), (SENT_ON, says(count, flags)));
    }
    assert_eq!(message, M43_COV);
    assert_eq!(verdict(&message, 0), 0x4302 << 16 | 2 << 8);
    let after = [monitor, monitor, monitor, with(high, 0x02, 0x83), monitor, manager];
    assert_eq!(table, after);
    let mut table = before;
    assert_eq!(beaten(&mut table, 6), (PORT_A, Some(M43_COV)));
    assert_eq!(table, after);
}

/// Three monitors: each as the manager, either way. Only those on the way take part, nearest first, and the count is short of the others.
#[test]
fn both_ways_from_each_place() {
    for (position, direction, answer, on_the_way) in [
        (1, MANAGER_TO_A, PORT_A, &[][..]),
        (2, MANAGER_TO_A, PORT_A, &[1]),
        (3, MANAGER_TO_A, PORT_A, &[2, 1]),
        (1, MANAGER_TO_B, PORT_B, &[2, 3]),
        (2, MANAGER_TO_B, PORT_B, &[3]),
        (3, MANAGER_TO_B, PORT_B, &[]),
    ] {
        // All fail but the manager, and take part by their flag.
        let mut table = [too_high(asleep(MONITOR, 0)); 3];
        table[position - 1] = asleep(direction, 0x45);
        let mut expected = table;
        for other in on_the_way {
            expected[other - 1][132] = 0x02;
        }
        let flags = if on_the_way.is_empty() { 0x00 } else { 0x02 };
        assert_eq!(beaten(&mut table, position), (answer, Some(says(0x44, flags))));
        assert_eq!(table, expected);
    }
}

/// A monitor not in LPCM, a second manager and a timeout monitor stop it: those behind them do not change.
#[test]
fn what_stops_a_heartbeat() {
    let high = too_high(asleep(MONITOR, 0));
    let far = asleep(MANAGER_TO_A, 0x46);
    let awake = with(high, 0x00, 0x03);
    let second = too_high(asleep(MANAGER_TO_B, 0x46));
    for stops in [awake, second] {
        let mut table = [high, stops, high, far];
        assert_eq!(beaten(&mut table, 4), (NOTHING, None));
        assert_eq!(table, [high, stops, with(high, 0x02, 0x83), far]);
    }
    // 45 00 and 45 02 reach it, and both are wrong.
    let timeout = asleep(TIMEOUT_MONITOR, 0x46);
    let mut table = [high, with(timeout, 0x00, 0x82), high, far];
    assert_eq!(beaten(&mut table, 4), (NOTHING, None));
    assert_eq!(table, [high, with(timeout, 0x00, 0x83), with(high, 0x02, 0x83), far]);
}

/// The last one before the host is a timeout monitor, and CMC_NDEV counts it: its flags are clear after the first heartbeat that all pass.
#[test]
fn a_night_without_a_bridge() {
    let monitor = asleep(MONITOR, 0);
    let mut table = [asleep(TIMEOUT_MONITOR, 0), monitor, monitor, asleep(MANAGER_TO_A, 0x46)];
    assert_eq!(beaten(&mut table, 4), (NOTHING, None));
    assert_eq!(table[0][132..134], [0x00, 0x80]);
    assert_eq!(time_out(table.as_flattened_mut(), 1), 1 << 8);
    assert_eq!(table[0][132..134], [0x00, 0x82]);
    assert_eq!(beaten(&mut table, 4), (NOTHING, None));
    assert_eq!(table[0][132..134], [0x00, 0x80]);

    // A jump at the second: up by 0.2 V and a code more. Its flag stays, and the next heartbeat fails too.
    assert_eq!(store(table.as_flattened_mut(), 2, &[15337; 16]), 0);
    for _ in 0..2 {
        assert_eq!(beaten(&mut table, 4), (NOTHING, None));
        assert_eq!(table.map(|record| record[132]), [0x00, 0x08, 0x00, 0x00]);
        assert_eq!(table[0][133], 0x81);
    }
    // CMDIS, CLRCMFLAG by four bytes for each, CMEN: both flags of the timeout monitor stand until the first pass.
    let clrcmflag = [&[0x00, 0x5E, 0xCE, 0x3E][..], &[[0xFF, 0xFF, 0x02, 0x05]; 4].concat()].concat();
    for sent in [&[0x00, 0x40, 0x51, 0xD6][..], &clrcmflag, &[0x00, 0x41, 0xDA, 0xE4]] {
        assert_eq!(frame(table.as_flattened_mut(), sent, &mut []), 4 << 8);
    }
    assert_eq!(table[0][132..134], [0x00, 0x83]);
    assert_eq!(beaten(&mut table, 4), (NOTHING, None));
    assert_eq!(table.map(|record| record[132..134].to_vec()), [0x80, 0x83, 0x83, 0x83].map(|cmf1| vec![0x00, cmf1]));
}

/// Up to 32 monitors, from either end: the message that passes, and with any one that fails one count more.
#[test]
fn chains_of_every_length() {
    for monitors in 1..=32 {
        let ndev = 0x42 + monitors as u8;
        for (position, direction, answer) in [(monitors, MANAGER_TO_A, PORT_A), (1, MANAGER_TO_B, PORT_B)] {
            let mut before = vec![asleep(MONITOR, 0); monitors];
            before[position - 1] = asleep(direction, ndev);
            let mut table = before.clone();
            assert_eq!(beaten(&mut table, position), (answer, Some(M42)));
            assert_eq!(table, before);
            for failing in 0..monitors {
                let mut table = before.clone();
                table[failing] = too_high(table[failing]);
                assert_eq!(beaten(&mut table, position), (answer, Some(M43_COV)), "{failing} of {monitors}");
            }
        }
    }
}

/// The first condition that holds gives the number, and every byte stays.
#[test]
fn refusals() {
    let manager = too_high(asleep(MANAGER_TO_A, 0x44));
    let monitor = too_high(asleep(MONITOR, 0x44));
    let mut unsound = [manager, monitor];
    unsound[1][68] = 64;
    let sound = [manager, monitor];
    for (records, position, length, room, of_wake, of_relay, of_time_out) in [
        (unsound, 0, 7, 7, 1, 1, 1),
        (unsound, 1, 8, 8, 1, 1, 1),
        (sound, 0, 7, 7, 7, 7, 7),
        (sound, 3, 8, 8, 7, 7, 7),
        (sound, usize::MAX, 8, 12, 7, 7, 7),
        (sound, 1, 7, 7, 6, 5, 0),
        (sound, 2, 9, 0, 6, 5, 0),
        (sound, 1, 8, 7, 6, 6, 0),
        (sound, 2, 8, 7, 6, 6, 0),
        (sound, 2, 0, 8, 0, 5, 0),
        (sound, 2, 16, 12, 0, 5, 0),
    ] {
        let message = &[M47, M47].concat()[..length];
        let mut out = [0xA5; 12];
        let mut table = records;
        assert_eq!(wake(table.as_flattened_mut(), position, &mut out[..room]), of_wake);
        assert_eq!(heartbeat(table.as_flattened_mut(), position, &mut out[..room]), of_wake);
        assert_eq!(relay(table.as_flattened_mut(), position, message, &mut out[..room]), of_relay);
        assert_eq!(time_out(table.as_flattened_mut(), position), of_time_out);
        assert_eq!((table, out), (records, [0xA5; 12]));
    }
    // Room for exactly the message.
    let mut out = [0xA5; 8];
    assert_eq!(wake(sound.clone().as_flattened_mut(), 1, &mut out), PORT_A);
    assert_eq!(out, says(0x44, 0x02));
}
