//! The check of one payload against the counter that the host expects (L5).

use crate::host::check;
use crate::inputs::{self, carried, carry, damage, first_of, no_counter, other_counter, with_check, Part, MOST_COUNT, REPLY};
use crate::random::Random;
use crate::run::{Done, Run};
use crate::spike::{Spike, DATA_PLACES};
use crate::surface::{COUNTER_DIFFERS, DAMAGED, RIGHT};

const IS_RIGHT: u32 = RIGHT << 8;
const IS_DAMAGED: u32 = DAMAGED << 8;

fn differs(received: u8) -> u32 {
    u32::from(received) << 16 | COUNTER_DIFFERS << 8
}

pub fn cases(run: &mut Run) -> Done {
    lengths(run)?;
    of_four_bytes(run)?;
    every_counter(run)?;
    every_expected(run)?;
    another_counter_carried(run)?;
    one_bit_faults(run)?;
    every_spike(run)?;
    every_ending(run)?;
    any_payload(run)
}

/// A right payload of a reply.
fn payload(random: &mut Random) -> Vec<u8> {
    inputs::payload(random, REPLY)
}

/// The counter that a payload carries, another one, and none that there is.
fn expected_of(random: &mut Random, counter: u8) -> [u8; 3] {
    [counter, other_counter(random, counter), no_counter(random, counter)]
}

/// A right payload, a damaged one and any bytes, cut or with more behind.
fn lengths(run: &mut Run) -> Done {
    for length in (0..=40).chain([64, 255, 256, 264, 65_544]) {
        for _ in 0..10 {
            let counter = run.random.below(64) as u8;
            let any = run.random.bytes(REPLY);
            let random = &mut run.random;
            for eight in [Part::Right.any(random, counter), Part::Damaged.any(random, counter), any] {
                let mut bytes = [eight, run.random.bytes(length)].concat();
                bytes.truncate(length);
                for expected in expected_of(&mut run.random, counter) {
                    let answer = check(run, &bytes, expected)?;
                    let number = first_of(&[(expected > MOST_COUNT, 7), (length != REPLY, 5)]);
                    assert_eq!(answer & 0xFF, number, "{length} bytes against {expected}");
                }
            }
        }
    }
    Ok(())
}

/// What a CLRCMFLAG has for a monitor, right or damaged, is no reply.
fn of_four_bytes(run: &mut Run) -> Done {
    for _ in 0..50 {
        let mut four = inputs::payload(&mut run.random, 4);
        let counter = four[2] >> 2;
        check(run, &four, counter)?;
        damage(&mut run.random, &mut four);
        check(run, &four, counter)?;
    }
    Ok(())
}

/// Each of the 64 against each; those at the end of the count more often.
fn every_counter(run: &mut Run) -> Done {
    let every = (0..=MOST_COUNT).flat_map(|received| (0..=MOST_COUNT).map(move |expected| (received, expected)));
    let at_the_end = [(MOST_COUNT, 1), (MOST_COUNT, MOST_COUNT), (MOST_COUNT, 0), (0, MOST_COUNT)];
    for (received, expected) in every.chain(at_the_end.repeat(60)) {
        let eight = with_check(&run.random.bytes(6), received);
        let answer = check(run, &eight, expected)?;
        assert_eq!(answer, if received == expected { IS_RIGHT } else { differs(received) }, "{eight:02X?} against {expected}");
    }
    Ok(())
}

/// All 256, also those that are no counter, with payloads that carry their six low bits, or one of these otherwise, or any.
fn every_expected(run: &mut Run) -> Done {
    for expected in 0..=u8::MAX {
        let low_bits = expected & MOST_COUNT;
        for received in [low_bits, low_bits ^ 1 << run.random.below(6), run.random.below(64) as u8] {
            let right = with_check(&run.random.bytes(6), received);
            let mut damaged = right.clone();
            damaged[7] ^= 1 << run.random.below(8);
            let of_right = if received == expected { IS_RIGHT } else { differs(received) };
            for (bytes, answer) in [(&right[..], of_right), (&damaged, IS_DAMAGED), (&right[..7], 5), (&[], 5)] {
                let answer = if expected > MOST_COUNT { 7 } else { answer };
                assert_eq!(check(run, bytes, expected)?, answer, "{bytes:02X?} against {expected}");
            }
        }
    }
    Ok(())
}

/// A payload with one counter's check and the bits of another: damaged against either.
fn another_counter_carried(run: &mut Run) -> Done {
    let pairs = (0..=MOST_COUNT).flat_map(|sealed| (0..=MOST_COUNT).map(move |carried| (sealed, carried)));
    for (sealed, carried) in pairs.filter(|(sealed, carried)| sealed != carried) {
        let mut eight = with_check(&run.random.bytes(6), sealed);
        carry(&mut eight, carried);
        for expected in [sealed, carried] {
            assert_eq!(check(run, &eight, expected)?, IS_DAMAGED, "{eight:02X?} against {expected}");
        }
    }
    Ok(())
}

/// Damaged against the counter that was sent, and against the one that came.
fn one_bit_faults(run: &mut Run) -> Done {
    for _ in 0..50 {
        let right = payload(&mut run.random);
        check(run, &right, carried(&right))?;
        for bit in 0..64 {
            let mut eight = right.clone();
            eight[bit / 8] ^= 0x80 >> (bit % 8);
            for expected in [carried(&right), carried(&eight)] {
                assert_eq!(check(run, &eight, expected)?, IS_DAMAGED, "{right:02X?} came as {eight:02X?}, against {expected}");
            }
        }
    }
    Ok(())
}

/// Within ten places none passes for a missed command, nor as right by the counter that it makes.
fn every_spike(run: &mut Run) -> Done {
    let sent = payload(&mut run.random);
    for spike in Spike::every(0..8 * REPLY, DATA_PLACES) {
        let came = spike.strike(&sent);
        let expected = run.random.pick(&[carried(&sent), carried(&came)]);
        assert_eq!(check(run, &came, expected)?, IS_DAMAGED, "{sent:02X?} came as {came:02X?}, against {expected}");
    }
    Ok(())
}

/// All 65,536 values of the last two bytes: for each counter one PEC is right, and one counter is the expected one.
fn every_ending(run: &mut Run) -> Done {
    let mut eight = payload(&mut run.random);
    let expected = carried(&eight);
    let (mut right, mut other, mut damaged) = (0, 0, 0);
    for ending in 0..=u16::MAX {
        eight[6..].copy_from_slice(&ending.to_be_bytes());
        match check(run, &eight, expected)? {
            IS_RIGHT => right += 1,
            IS_DAMAGED => damaged += 1,
            answer => {
                assert_eq!(answer, differs(carried(&eight)), "{eight:02X?} against {expected}");
                other += 1;
            }
        }
    }
    assert_eq!([right, other, damaged], [1, 63, 65_536 - 64], "payloads that begin with {:02X?}", &eight[..6]);
    Ok(())
}

fn any_payload(run: &mut Run) -> Done {
    for _ in 0..5_000 {
        let mut eight = payload(&mut run.random);
        let counter = carried(&eight);
        if run.random.once_in(2) {
            damage(&mut run.random, &mut eight);
        }
        let expected = run.random.byte();
        for expected in expected_of(&mut run.random, counter).into_iter().chain([expected]) {
            check(run, &eight, expected)?;
        }
    }
    Ok(())
}
