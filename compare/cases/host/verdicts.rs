//! The host's verdict on a heartbeat (L8): right messages, struck ones and any bytes, of all lengths, late or not.

use crate::host::verdict;
use crate::inputs::{damage, CMHB};
use crate::messages::{count_and_flags, message, with_any_counter};
use crate::random::Random;
use crate::run::{Done, Run};
use crate::spike::Spike;

const PASSED: u32 = 1 << 8;
const DAMAGED: u32 = 3 << 8;
const IN_TIME: u8 = 0;
const LONGEST: usize = 20;
const EVERY: u32 = 1 << 16;

pub fn cases(run: &mut Run) -> Done {
    every_length(run)?;
    every_count_and_flags(run)?;
    every_command(run)?;
    every_ending(run)?;
    every_spike(run)?;
    any_message(run)
}

/// Any value but 0 says that the time ran out.
fn late(random: &mut Random) -> u8 {
    let any = random.within(1, 255) as u8;
    random.pick(&[1, 2, 0x80, 0xFF, any])
}

/// A right message, cut or with more behind it, and any bytes.
fn every_length(run: &mut Run) -> Done {
    for length in (0..=LONGEST).chain([64, 256, 264, 65_544]) {
        for _ in 0..60 {
            let mut came = message(&mut run.random);
            came.extend(run.random.bytes(length));
            came.truncate(length);
            let any = run.random.bytes(length);
            for time_ran_out in [IN_TIME, late(&mut run.random)] {
                verdict(run, &came, time_ran_out)?;
                verdict(run, &any, time_ran_out)?;
            }
        }
    }
    Ok(())
}

fn every_count_and_flags(run: &mut Run) -> Done {
    let mut passed = 0;
    for two in 0..=u16::MAX {
        let came = with_any_counter(&mut run.random, CMHB, two.to_be_bytes());
        passed += u32::from(verdict(run, &came, IN_TIME)? == PASSED);
    }
    assert_eq!(passed, 1, "count and flags that pass");
    Ok(())
}

/// Each with its own check, which is right.
fn every_command(run: &mut Run) -> Done {
    let mut damaged = 0;
    for command in 0..=u16::MAX {
        let two = count_and_flags(&mut run.random);
        let came = with_any_counter(&mut run.random, command, two);
        damaged += u32::from(verdict(run, &came, IN_TIME)? == DAMAGED);
    }
    assert_eq!(damaged, EVERY - 1, "commands that are not a heartbeat's");
    Ok(())
}

/// For each counter one check is right.
fn every_ending(run: &mut Run) -> Done {
    let mut came = message(&mut run.random);
    let mut damaged = 0;
    for ending in 0..=u16::MAX {
        came[6..].copy_from_slice(&ending.to_be_bytes());
        damaged += u32::from(verdict(run, &came, IN_TIME)? == DAMAGED);
    }
    assert_eq!(damaged, EVERY - 64, "messages that begin with {:02X?} and are damaged", &came[..6]);
    Ok(())
}

/// Within fifteen places of the first four bytes, or within ten of the last four, none is missed (L8, by L7).
fn every_spike(run: &mut Run) -> Done {
    let sent = message(&mut run.random);
    for spike in Spike::every(0..32, 15).chain(Spike::every(32..64, 10)) {
        let came = spike.strike(&sent);
        assert_eq!(verdict(run, &came, IN_TIME)?, DAMAGED, "{sent:02X?} came as {came:02X?}");
    }
    Ok(())
}

fn any_message(run: &mut Run) -> Done {
    for _ in 0..10_000 {
        let mut came = message(&mut run.random);
        match run.random.below(4) {
            0 => damage(&mut run.random, &mut came),
            1 => came = Spike::any(&mut run.random, 0..64, 16).strike(&came),
            _ => {}
        }
        let time_ran_out = if run.random.once_in(4) { late(&mut run.random) } else { IN_TIME };
        verdict(run, &came, time_ran_out)?;
    }
    Ok(())
}
