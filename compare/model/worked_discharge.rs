//! L2 by hand, from the sheet's Tables 27, 95 and 96: four commands, and the sixteen outputs of one monitor.

use crate::check_words::{command_bytes, payload};
use crate::*;

/// What `out` holds before each question; no row and no mark.
const LENT: u8 = 0x2A;

/// Duty c for each cell c up to 15, and 0 for cell 16.
const DUTIES_A: [u8; 6] = [0x21, 0x43, 0x65, 0x87, 0xA9, 0xCB];
const DUTIES_B: [u8; 2] = [0xED, 0x0F];

/// DCC of cells 3 and 8 (byte 4 of configuration B), 9 and 16 (byte 5).
const DCC: [u8; 2] = [0b1000_0100, 0b1000_0001];

fn record_with(dcc: [u8; 2], muted: bool) -> [u8; RECORD] {
    let mut record = [0; RECORD];
    record[5] = u8::from(muted) << 4;
    record[10..12].copy_from_slice(&dcc);
    record[at::PWM_A..][..6].copy_from_slice(&DUTIES_A);
    record[at::PWM_B..][..2].copy_from_slice(&DUTIES_B);
    record
}

/// The outputs of the only monitor of a table, and how many are on.
fn asked(table: &[u8], events: u8, phase: u8) -> ([u8; 16], u32) {
    let mut out = [LENT; 17];
    let answer = discharge(table, 1, events, phase, &mut out);
    assert_eq!((answer & !0xFF00, out[16]), (0, LENT), "events {events:#x}, phase {phase}");
    (out[..16].try_into().expect("sixteen of seventeen"), answer >> 8)
}

#[test]
fn row_1_is_on_while_the_phase_is_below_the_duty() {
    let record = record_with([0, 0], false);
    let upper_cells_from = |first: usize| std::array::from_fn(|cell| if (first..=15).contains(&(cell + 1)) { 0x81 } else { 0x01 });
    assert_eq!(asked(&record, 0, 0), (upper_cells_from(1), 15));
    assert_eq!(asked(&record, 0, 7), (upper_cells_from(8), 8));
    assert_eq!(asked(&record, 0, 13), (upper_cells_from(14), 2));
    assert_eq!(asked(&record, 0, 14), (upper_cells_from(15), 1));
}

#[test]
fn each_row_of_table_27() {
    let standing = record_with(DCC, false);
    let by_dcc = |others: u8| {
        [2, 7, 8, 15].into_iter().fold([others; 16], |mut out, cell| {
            out[cell] = 0x84;
            out
        })
    };
    let by_dcc_and_pwm = [0x01, 0x01, 0x84, 0x01, 0x01, 0x01, 0x01, 0x84, 0x84, 0x81, 0x81, 0x81, 0x81, 0x81, 0x81, 0x84];
    for (events, outputs, on) in [
        (0b0000, by_dcc_and_pwm, 10),
        (0b1111_0000, by_dcc_and_pwm, 10),
        (0b1000, by_dcc(0x02), 4),
        (0b0010, by_dcc(0x03), 4),
        (0b1010, by_dcc(0x03), 4),
        (0b0100, [0x05; 16], 0),
        (0b1110, [0x05; 16], 0),
        (0b0001, [0x07; 16], 0),
        (0b1111_1111, [0x07; 16], 0),
    ] {
        assert_eq!(asked(&standing, events, 7), (outputs, on), "events {events:#b}");
        let row = if events & 1 == 1 { 0x07 } else { 0x06 };
        assert_eq!(asked(&record_with(DCC, true), events, 7), ([row; 16], 0), "muted, events {events:#b}");
    }
}

/// The second monitor of three is asked; its neighbours would answer otherwise.
#[test]
fn one_monitor_is_asked_and_nothing_changes() {
    let table = [record_with([0xFF; 2], false), record_with([0, 0], false), record_with([0, 0], true)];
    let mut out = [LENT; 16];
    assert_eq!(discharge(table.as_flattened(), 2, 0, 14, &mut out), 1 << 8);
    assert_eq!(out, [1, 1, 1, 1, 1, 1, 1, 1, 1, 1, 1, 1, 1, 1, 0x81, 1]);
}

#[test]
fn refusals_of_the_question() {
    let sound = record_with(DCC, false);
    let mut unsound = sound;
    unsound[at::UNLOCKED] = 2;
    for (table, position, phase, room, number) in [
        (&unsound[..], 0, 15, 0, 1),
        (&sound[..70], 1, 0, 16, 1),
        (&sound[..], 0, 15, 0, 7),
        (&sound[..], 2, 0, 16, 7),
        (&sound[..], 1, 15, 0, 7),
        (&sound[..], 1, 255, 16, 7),
        (&sound[..], 1, 14, 0, 6),
        (&sound[..], 1, 0, 15, 6),
    ] {
        let mut out = vec![LENT; room];
        assert_eq!(discharge(table, position, 0, phase, &mut out), number, "position {position}, phase {phase}, room {room}");
        assert_eq!(out, vec![LENT; room]);
    }
}

/// The command, and six bytes with counter bits 0 for one monitor.
fn write(code: u16, six: [u8; 6]) -> [u8; 12] {
    let mut frame = [0; 12];
    frame[..4].copy_from_slice(&command_bytes(code));
    frame[4..].copy_from_slice(&payload(six, 0));
    frame
}

#[test]
fn the_four_commands() {
    assert_eq!(command_bytes(0x0020), [0x00, 0x20, 0x00, 0x00]);
    assert_eq!(command_bytes(0x0021), [0x00, 0x21, 0x8B, 0x32]);
    assert_eq!(command_bytes(0x0022), [0x00, 0x22, 0x9D, 0x56]);
    assert_eq!(command_bytes(0x0023), [0x00, 0x23, 0x16, 0x64]);

    let mut table = [0x55; RECORD];
    table[at::COUNTER] = 9;
    table[at::UNLOCKED] = 1;
    let mut expected = table;
    assert_eq!(frame(&mut table, &write(0x0020, DUTIES_A), &mut []), 1 << 8);
    expected[68..76].copy_from_slice(&[10, 0, 0x21, 0x43, 0x65, 0x87, 0xA9, 0xCB]);
    assert_eq!(table, expected);

    assert_eq!(frame(&mut table, &write(0x0021, [0xED, 0x0F, 0x00, 0x12, 0xFE, 0xFF]), &mut []), 1 << 8);
    expected[68] = 11;
    expected[76..82].copy_from_slice(&[0xED, 0x0F, 0xFF, 0xFF, 0xFF, 0xFF]);
    assert_eq!(table, expected);

    let mut damaged = write(0x0021, [0; 6]);
    damaged[11] ^= 1;
    assert_eq!(frame(&mut table, &damaged, &mut []), 0);
    assert_eq!(table, expected);

    for (code, six) in [(0x0022, DUTIES_A), (0x0023, [0xED, 0x0F, 0xFF, 0xFF, 0xFF, 0xFF])] {
        let mut reply = [0; 8];
        assert_eq!(frame(&mut table, &write(code, [0; 6]), &mut reply), 8 << 16 | 1 << 8);
        assert_eq!(reply, payload(six, 11));
        assert_eq!(table, expected);
    }
}

/// "MUTE, then the question", and as before after UNMUTE.
#[test]
fn a_mute_and_its_end() {
    let mut table = record_with(DCC, false);
    let before = asked(&table, 0, 7);
    assert_eq!(frame(&mut table, &command_bytes(0x0028), &mut []), 1 << 8);
    assert_eq!(asked(&table, 0, 7), ([0x06; 16], 0));
    assert_eq!(frame(&mut table, &command_bytes(0x0029), &mut []), 1 << 8);
    assert_eq!(asked(&table, 0, 7), before);
}
