//! Readings: all codes, and summaries.

use crate::host::{microvolts, summary, volts};
use crate::run::{Done, Run};

const CLEARED: i16 = -32768;

pub fn cases(run: &mut Run) -> Done {
    for code in i16::MIN..=i16::MAX {
        microvolts(run, code)?;
        volts(run, code)?;
    }
    edges(run)?;
    every_count(run)?;
    mixed(run)
}

/// All alike: the largest sums, the smallest, and none, in every room.
fn edges(run: &mut Run) -> Done {
    for count in [0, 1, 2, 511, 512, 513, 514, 1024, 65_537] {
        for code in [CLEARED, -32767, -10_001, -10_000, -9_999, -1, 0, 1, 32767] {
            for room in 0..=5 {
                summary(run, &vec![code; count], room)?;
            }
        }
    }
    Ok(())
}

/// One cell not cleared, at each place of the longest list; and every count of cells.
fn every_count(run: &mut Run) -> Done {
    for place in 0..512 {
        let mut codes = [CLEARED; 512];
        codes[place] = run.random.code();
        summary(run, &codes, 3)?;
        let codes: Vec<i16> = (0..=place).map(|_| run.random.code()).collect();
        summary(run, &codes, 3)?;
    }
    Ok(())
}

fn mixed(run: &mut Run) -> Done {
    for _ in 0..4_000 {
        let count = if run.random.once_in(8) { run.random.pick(&[0, 513, 514, 700, 768, 1025]) } else { run.random.within(1, 512) };
        let cleared_of_eight = run.random.pick(&[0, 1, 4, 7, 8]);
        let narrow = run.random.once_in(2);
        let codes: Vec<i16> = (0..count)
            .map(|_| match run.random.below(8) {
                chance if chance < cleared_of_eight => CLEARED,
                _ if narrow => 15_000 + run.random.below(400) as i16,
                _ => run.random.code(),
            })
            .collect();
        let room = if run.random.once_in(4) { run.random.below(6) } else { 3 };
        summary(run, &codes, room)?;
    }
    Ok(())
}
