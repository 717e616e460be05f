//! The fourteen worked examples of "On either side of the line", what stands below them as "run by a program", and what L1 says of a
//! store and a compare.

use crate::check_words::{command_bytes, payload};
use crate::commands::{at, listed, Command, Write};
use crate::monitor::{self, thresholds, RECORD};
use crate::*;

const ZERO_RECORD: [u8; RECORD] = [0; RECORD];

/// A record whose configuration B holds these thresholds.
fn record_with(vuv: i16, vov: i16) -> [u8; RECORD] {
    let (vuv, vov) = (vuv as u16 & 0xFFF, vov as u16 & 0xFFF);
    let mut record = ZERO_RECORD;
    record[at::CONFIGURATION_B] = vuv as u8;
    record[at::CONFIGURATION_B + 1] = (vuv >> 8) as u8 | ((vov & 0xF) << 4) as u8;
    record[at::CONFIGURATION_B + 2] = (vov >> 4) as u8;
    record
}

/// The two flag bits of cell 1 after this code in every cell: loaded, or stored and then compared.
fn flags_of_cell_1(vuv: i16, vov: i16, code: i16) -> u8 {
    let mut table = record_with(vuv, vov);
    assert_eq!(load(&mut table, 1, &[code; 16]), 0);
    let mut in_two = record_with(vuv, vov);
    assert_eq!(store(&mut in_two, 1, &[code; 16]), 0);
    assert_eq!(in_two[at::STATUS_D..][..6], [0; 6]);
    assert_eq!(compare(&mut in_two, 1), 0);
    assert_eq!(in_two, table);
    table[at::STATUS_D] & 0b11
}

#[test]
fn examples_1_and_2_command_pec() {
    assert_eq!(command_bytes(0x0001), [0x00, 0x01, 0x3D, 0x6E]);
    assert_eq!(command_bytes(0x0002), [0x00, 0x02, 0x2B, 0x0A]);
}

#[test]
fn examples_3_to_6_data_remainder() {
    assert_eq!(data_pec(&[0x00]), 0x23C);
    assert_eq!(data_pec(&[0x01]), 0x2B3);
    assert_eq!(data_pec(&[0; 6]), 0x331);
    assert_eq!(data_pec_with_counter(&[0; 6], 0), 0x3E3);
}

#[test]
fn example_7_reply_for_six_zero_bytes() {
    assert_eq!(payload([0; 6], 0), [0, 0, 0, 0, 0, 0, 0x03, 0xE3]);
    let mut reply = [0xAA; 8];
    let sent = [0x00, 0x02, 0x2B, 0x0A, 0xFF, 0xFF, 0xFF, 0xFF, 0xFF, 0xFF, 0xFF, 0xFF];
    assert_eq!(frame(&mut ZERO_RECORD.clone(), &sent, &mut reply), 8 << 16 | 1 << 8);
    assert_eq!(reply, [0, 0, 0, 0, 0, 0, 0x03, 0xE3]);
}

#[test]
fn example_8_bit_after_the_command_pec() {
    assert_eq!(frame(&mut ZERO_RECORD.clone(), &[0x00, 0x02, 0x2B, 0x0B], &mut []), 3);
}

#[test]
fn example_9_write_without_payload() {
    assert_eq!(frame(&mut ZERO_RECORD.clone(), &[0x00, 0x01, 0x3D, 0x6E], &mut []), 5);
}

#[test]
fn example_10_thresholds() {
    let mut record = ZERO_RECORD;
    record[at::CONFIGURATION_B..][..3].copy_from_slice(&[0x00, 0x48, 0x06]);
    assert_eq!(thresholds(&record, at::CONFIGURATION_B), (-2048, 100));
}

#[test]
fn examples_11_and_12_flags() {
    assert_eq!(flags_of_cell_1(0, 100, 1600), 0b00);
    assert_eq!(flags_of_cell_1(0, 100, 1601), 0b10);
    assert_eq!(flags_of_cell_1(-1, 0, -16), 0b00);
    assert_eq!(flags_of_cell_1(-1, 0, -17), 0b01);
}

/// By hand: thresholds of 16 and -16 codes, crossed, so that a cell between them has both flags.
#[test]
fn a_compare_sets_flags_and_skips_cleared_cells() {
    let mut table = record_with(1, -1);
    let cells: [i16; 16] = [-32768, 0, 16, -16, 15, -15, 17, -17, -32768, -32768, -32767, 32767, 128, -32768, 0, -32768];
    for (cell, code) in cells.into_iter().enumerate() {
        table[at::CELLS + 2 * cell..][..2].copy_from_slice(&code.to_le_bytes());
    }
    table[at::STATUS_D + 2] = 0b10_00_00_01;
    let mut expected = table;
    // Four cells a byte, the first one lowest. In the third byte cell 9's UV and cell 12's OV stood before.
    expected[at::STATUS_D..][..4].copy_from_slice(&[0b01_10_11_00, 0b01_10_11_11, 0b10_01_00_01, 0b00_11_00_10]);
    assert_eq!(compare(&mut table, 1), 0);
    assert_eq!(table, expected);
    assert_eq!(frame(&mut table, &command_bytes(0x0711), &mut []), 1 << 8);
    let cleared = table;
    assert_eq!(compare(&mut table, 1), 0);
    assert_eq!(table, cleared);
}

/// L1: "An accepted store and then compare must equal the old load", whatever flags stood.
#[test]
fn a_store_and_then_a_compare_are_the_old_load() {
    let edges = [-2048, -2047, -1, 0, 1, 100, 2047];
    for (vuv, vov) in edges.into_iter().flat_map(|vuv| edges.map(|vov| (vuv, vov))) {
        let near = edges.into_iter().flat_map(|edge| [-1, 0, 1].map(|beside| 16 * i32::from(edge) + beside));
        let codes: Vec<i16> = near.chain([32767, -32767]).map(|code| code.max(-32767) as i16).collect();
        for (first, flags) in (0..codes.len()).flat_map(|first| [0x00, 0xFF, 0x5A].map(|flags| (first, flags))) {
            let sixteen: [i16; 16] = std::array::from_fn(|cell| codes[(first + cell) % codes.len()]);
            let mut loaded = record_with(vuv, vov);
            loaded[at::STATUS_D..][..6].fill(flags);
            let mut in_two = loaded;
            assert_eq!(load(&mut loaded, 1, &sixteen), 0);
            assert_eq!([store(&mut in_two, 1, &sixteen), compare(&mut in_two, 1)], [0, 0]);
            assert_eq!(in_two, loaded, "VUV {vuv}, VOV {vov}, {sixteen:?}");
        }
    }
}

#[test]
fn refusals_of_a_store_and_a_compare() {
    let mut unsound = ZERO_RECORD;
    unsound[at::COUNTER] = 64;
    let [right, cleared] = [[0; 16], [-32768; 16]];
    for (table, position, codes, stored, compared) in [
        (unsound, 0, &cleared[..3], 1, 1),
        (ZERO_RECORD, 0, &cleared[..3], 7, 7),
        (ZERO_RECORD, 2, &cleared[..], 7, 7),
        (ZERO_RECORD, 1, &cleared[..15], 8, 0),
        (ZERO_RECORD, 1, &cleared[..], 9, 0),
        (ZERO_RECORD, 1, &right[..], 0, 0),
    ] {
        // Cells and thresholds all 0, so that neither changes a byte where it is accepted.
        let mut lent = table;
        assert_eq!([store(&mut lent, position, codes), compare(&mut lent, position)], [stored, compared]);
        assert_eq!(lent, table);
    }
}

#[test]
fn example_13_counter_after_63() {
    let mut table = ZERO_RECORD;
    table[at::COUNTER] = 63;
    assert_eq!(frame(&mut table, &command_bytes(0x0028), &mut []), 1 << 8);
    assert_eq!(table[at::COUNTER], 1);
}

#[test]
fn example_14_microvolts() {
    assert_eq!(microvolts(-10000), 0);
    assert_eq!(microvolts(32767), 6_415_050);
    assert_eq!(microvolts(-32767), -3_415_050);
}

#[test]
fn both_ways_to_a_remainder_agree() {
    let bytes: Vec<u8> = (0..=255u8).chain((0..=255).rev()).map(|byte: u8| byte.wrapping_mul(167)).collect();
    for first in 0..bytes.len() {
        for length in [0, 1, 2, 6, 7, 40] {
            let part = &bytes[first..bytes.len().min(first + length)];
            assert_eq!(command_pec(part), command_pec_bit_by_bit(part));
            assert_eq!(data_pec(part), data_pec_bit_by_bit(part));
            for counter in 0..64 {
                assert_eq!(data_pec_with_counter(part, counter), data_pec_with_counter_bit_by_bit(part, counter));
            }
        }
    }
}

#[test]
fn thirty_eight_codes_are_listed() {
    assert_eq!((0..=u16::MAX).filter(|&code| listed(code).is_some()).count(), 18 + 11 + 9);
}

#[test]
fn tables_of_1_and_32_monitors() {
    let mute = command_bytes(0x0028);
    let longest = 32 * RECORD;
    for (length, answer) in [
        (0, 1),
        (RECORD - 1, 1),
        (RECORD, 1 << 8),
        (RECORD + 1, 1),
        (longest - 1, 1),
        (longest, 32 << 8),
        (longest + 1, 1),
        (33 * RECORD, 1),
    ] {
        assert_eq!(frame(&mut vec![0; length], &mute, &mut []), answer, "table of {length} bytes");
    }
}

#[test]
fn room_for_a_reply() {
    for monitors in [1, 2, 32] {
        let mut sent = [0xFF; 4 + 8 * 32];
        sent[..4].copy_from_slice(&command_bytes(0x0004));
        let sent = &sent[..4 + 8 * monitors];
        let mut table = vec![0; RECORD * monitors];
        assert_eq!(frame(&mut table, sent, &mut vec![0; 8 * monitors - 1]), 6);
        assert_eq!(frame(&mut table, sent, &mut vec![0; 8 * monitors]), (8 * monitors as u32) << 16 | (monitors as u32) << 8);
    }
}

#[test]
fn summaries_of_0_and_513_codes() {
    let mut out = [7.0; 3];
    assert_eq!(summary(&[], &mut out), 8);
    assert_eq!(summary(&[1; 513], &mut out), 8);
    assert_eq!(summary(&[-32768; 512], &mut out), 0);
    assert_eq!(out, [7.0; 3]);
    assert_eq!(summary(&[-10000, -32768, 0, 10000], &mut out), 3 << 16 | 1 << 8);
    assert_eq!(out, [0.0, 3.0, 4.5]);
}

/// WRCFGA to two monitors, by hand: the far monitor's payload comes first, and a mute stays.
#[test]
fn a_write_goes_to_the_far_end_first() {
    assert_eq!(listed(0x0001), Some(Command::Write(Write::Wrcfga)));
    let mut table = [[0; RECORD], [0; RECORD]];
    for record in &mut table {
        monitor::bare(record, commands::Bare::Mute);
    }
    let mut sent = [0; 20];
    sent[..4].copy_from_slice(&command_bytes(0x0001));
    sent[4..12].copy_from_slice(&payload([0xFF; 6], 5));
    sent[12..].copy_from_slice(&payload([0; 6], 0));
    assert_eq!(frame(table.as_flattened_mut(), &sent, &mut []), 2 << 8);
    assert_eq!(table[0][..6], [0, 0, 0, 0, 0, 0x10]);
    assert_eq!(table[1][..6], [0x87, 0xFF, 0xF8, 0xFF, 0x03, 0x1F]);
    assert_eq!([table[0][at::COUNTER], table[1][at::COUNTER]], [2, 2]);
}
