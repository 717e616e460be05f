//! Writes with a bad check: WRRR, which is executed all the same (L3), and the others, which are not; in LPCM neither is (L8). Mostly by both
//! engines.

use crate::both::frame;
use crate::chain::Chain;
use crate::difference::Difference;
use crate::inputs::{
    self, at, damaged_payload, data_of, head, in_lpcm, needs_check, own_bytes, payload, set_lpcm, writes, MOST, RECORD, WRRR,
};
use crate::lent::Both;
use crate::random::Random;
use crate::run::{expect, Done, Run};
use crate::surface::Function;
use crate::tally::Situation;

const ULRR: u16 = 0x0038;
const RDRR: u16 = 0x003A;

pub fn cases(run: &mut Run) -> Done {
    every_ending(run)?;
    every_n(run)?;
    one_bit_faults(run)?;
    in_any_order(run)?;
    unlocked_written_and_read(run)
}

/// All 65,536 values of a payload's last two bytes: 64 of them are right, and WRRR asks nothing of them. In LPCM, with any one of the writes,
/// none is taken.
fn every_ending(run: &mut Run) -> Done {
    let all: Vec<u16> = writes().collect();
    let any = run.random.pick(&all);
    for (code, lpcm) in all.into_iter().map(|code| (code, false)).chain([(any, true)]) {
        let mut record = inputs::record(&mut run.random);
        set_lpcm(&mut record, lpcm);
        let mut bytes = [&head(code)[..], &payload(&mut run.random, own_bytes(code))].concat();
        let ending_at = bytes.len() - 2;
        let mut taken = 0;
        for ending in 0..=u16::MAX {
            bytes[ending_at..].copy_from_slice(&ending.to_be_bytes());
            record[at::UNLOCKED] = run.random.below(2) as u8;
            let mut table = Both::new(&mut run.random, &record);
            taken += frame(run, &mut table, &bytes, 0)? >> 8;
        }
        let expected = match (lpcm, needs_check(code)) {
            (true, _) => 0,
            (false, true) => 64,
            (false, false) => 65_536,
        };
        expect(run, Function::Frame, (taken, expected), &record, 1)?;
    }
    Ok(())
}

/// Each write at each N: one payload damaged, some, all. WRRR more often, since what it does goes by the lock too.
fn every_n(run: &mut Run) -> Done {
    for (code, monitors) in writes().flat_map(|code| (1..=MOST).map(move |monitors| (code, monitors))) {
        let turns = if needs_check(code) { 5 } else { 20 };
        for turn in 0..turns {
            let bytes = own_bytes(code);
            let mut payloads = payloads_with(run, bytes, monitors, turn % 5);
            let one = bytes * run.random.below(monitors);
            payloads[one..one + bytes].copy_from_slice(&damaged_payload(&mut run.random, bytes));
            Chain::new(run, monitors)?.frame(run, &[&head(code)[..], &payloads].concat())?;
        }
    }
    Ok(())
}

fn payloads_with(run: &mut Run, bytes: usize, monitors: usize, damaged_of_four: usize) -> Vec<u8> {
    let random = &mut run.random;
    let one = |random: &mut Random| if random.below(4) < damaged_of_four { damaged_payload(random, bytes) } else { payload(random, bytes) };
    (0..monitors).flat_map(|_| one(random)).collect()
}

/// Each bit of a payload wrong, at a locked monitor and at an unlocked one.
fn one_bit_faults(run: &mut Run) -> Done {
    for (code, bit) in writes().flat_map(|code| (0..8 * own_bytes(code)).map(move |bit| (code, bit))) {
        for unlocked in [0, 1] {
            let mut bytes = [&head(code)[..], &payload(&mut run.random, own_bytes(code))].concat();
            bytes[4 + bit / 8] ^= 0x80 >> (bit % 8);
            let mut record = inputs::record(&mut run.random);
            record[at::UNLOCKED] = unlocked;
            let taken = !needs_check(code) && !in_lpcm(&record);
            let (answer, _) = Chain::of(run, &record)?.frame(run, &bytes)?;
            expect(run, Function::Frame, (answer, u32::from(taken) << 8), &record, 1)?;
        }
    }
    Ok(())
}

/// ULRR, WRRR, RDRR and any others after one another.
fn in_any_order(run: &mut Run) -> Done {
    for (monitors, events) in [(1, 200), (2, 200), (3, 200), (6, 100), (MOST, 30)] {
        let mut chain = Chain::new(run, monitors)?;
        for _ in 0..events {
            let other = inputs::any_listed(&mut run.random);
            let code = run.random.pick(&[ULRR, ULRR, WRRR, WRRR, RDRR, other]);
            let frame = inputs::frame_of(&mut run.random, code, monitors);
            chain.frame(run, &frame)?;
        }
    }
    Ok(())
}

/// The board that kept its licence number: ULRR, WRRR with damaged payloads only, RDRR. What comes between may lock again, and enable LPCM
/// or disable it. A monitor in LPCM keeps what stood.
fn unlocked_written_and_read(run: &mut Run) -> Done {
    for turn in 0..800 {
        let monitors = run.random.pick(&[1, 1, 2, 3, 5]);
        let mut chain = Chain::new(run, monitors)?;
        chain.frame(run, &head(ULRR))?;
        let (situation, locked) = match turn % 4 {
            0 => (Situation::DamagedRetentionShown, false),
            1 => {
                let refused = refused_frame(run, monitors);
                chain.frame(run, &refused)?;
                (Situation::DamagedRetentionAfterRefusal, false)
            }
            2 => {
                let other = other_frame(run, monitors);
                chain.frame(run, &other)?;
                (Situation::DamagedRetentionLocked, true)
            }
            _ => {
                let stood = retained(&chain);
                let first = damaged_wrrr(run, &mut chain)?;
                let stored = out_of_lpcm(&chain, &first, &stood);
                expect(run, Function::Frame, (retained(&chain), stored), chain.table(), monitors)?;
                (Situation::DamagedRetentionTwice, true)
            }
        };
        let stood = retained(&chain);
        let sent = damaged_wrrr(run, &mut chain)?;
        let stored = out_of_lpcm(&chain, &sent, &stood);
        let told = stored != stood;
        let read = inputs::frame_of(&mut run.random, RDRR, monitors);
        let (_, reply) = chain.frame(run, &read)?;
        let shown = reply.chunks(8).map(|eight| data_of(eight).to_vec()).collect();
        expect(run, Function::Frame, (shown, if locked { stood } else { stored }), chain.table(), monitors)?;
        run.tally.saw_if(situation, told);
    }
    Ok(())
}

fn retained(chain: &Chain) -> Vec<Vec<u8>> {
    chain.table().chunks(RECORD).map(|record| record[at::RETENTION..][..6].to_vec()).collect()
}

/// What was sent to each monitor that is not in LPCM, and what stood at the others. A WRRR or a read leaves that as it is.
fn out_of_lpcm(chain: &Chain, sent: &[Vec<u8>], stood: &[Vec<u8>]) -> Vec<Vec<u8>> {
    let records = chain.table().chunks(RECORD);
    records.zip(sent.iter().zip(stood)).map(|(record, (sent, stood))| if in_lpcm(record) { stood } else { sent }.clone()).collect()
}

/// By its command's PEC, its code or its length.
fn refused_frame(run: &mut Run, monitors: usize) -> Vec<u8> {
    let code = inputs::any_listed(&mut run.random);
    let mut frame = inputs::frame_of(&mut run.random, code, monitors);
    match run.random.below(3) {
        0 => frame[3] |= 1,
        1 => frame[..4].copy_from_slice(&head(inputs::any_unlisted(&mut run.random))),
        _ => frame.push(run.random.byte()),
    }
    frame
}

/// Of any command that locks, but WRRR.
fn other_frame(run: &mut Run, monitors: usize) -> Vec<u8> {
    loop {
        let code = inputs::any_listed(&mut run.random);
        if code != ULRR && code != WRRR {
            return inputs::frame_of(&mut run.random, code, monitors);
        }
    }
}

/// Every monitor takes it that is not in LPCM. Gives the six bytes sent to each, nearest first.
fn damaged_wrrr(run: &mut Run, chain: &mut Chain) -> Result<Vec<Vec<u8>>, Box<Difference>> {
    let monitors = chain.monitors();
    let taken = chain.table().chunks(RECORD).filter(|record| !in_lpcm(record)).count() as u32;
    let payloads = payloads_with(run, own_bytes(WRRR), monitors, 4);
    let (answer, _) = chain.frame(run, &[&head(WRRR)[..], &payloads].concat())?;
    expect(run, Function::Frame, (answer, taken << 8), chain.table(), monitors)?;
    Ok(payloads.chunks(8).rev().map(|eight| data_of(eight).to_vec()).collect())
}
