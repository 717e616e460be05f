//! One monitor's measurement in LPCM (L8): every threshold, every cell, every flag, whatever the monitor is that measures.

use crate::asleep::{self, set_cdv, set_cells, set_codes, set_masks, violate, violate_at, Role, Violation, DIAGNOSTICS, VIOLATIONS};
use crate::beats::{relay, wake};
use crate::difference::Difference;
use crate::inputs::{self, at, set_thresholds, CELLS, CMF0, LAST};
use crate::lent::Both;
use crate::messages::{message, LENGTH};
use crate::run::{expect, Done, Run};
use crate::surface::Function;

pub fn cases(run: &mut Run) -> Done {
    every_limit(run)?;
    every_jump(run)?;
    every_cell(run)?;
    every_status(run)?;
    every_flag(run)?;
    any_record(run)
}

/// The only monitor of a chain measures: as a manager it wakes, and as any other a message reaches it. Gives CMF0 after it.
fn measured(run: &mut Run, record: &mut [u8]) -> Result<u8, Box<Difference>> {
    let role = run.random.pick(&[Role::Manager, Role::Monitor, Role::Monitor, Role::TimeoutMonitor]);
    asleep::set_role(&mut run.random, record, role);
    let mut table = Both::new(&mut run.random, record);
    let function = if role == Role::Manager {
        wake(run, &mut table, 1, LENGTH)?;
        Function::Wake
    } else {
        let came = message(&mut run.random);
        relay(run, &mut table, 1, &came, LENGTH)?;
        Function::Relay
    };
    expect(run, function, (&table.contents()[LAST], &record[CELLS]), record, 1)?;
    Ok(table.contents()[CMF0])
}

/// The same, and this is what CMF0 is then.
fn expect_flags(run: &mut Run, record: &mut [u8], expected: u8) -> Done {
    let found = measured(run, record)?;
    expect(run, Function::Relay, (found, expected), record, 1)
}

fn passing(run: &mut Run) -> Vec<u8> {
    asleep::record(&mut run.random, Role::Monitor)
}

/// Each of the 4096 values as CUV and as COV, the other one such that it has nothing to say: three codes around 16 of it.
fn every_limit(run: &mut Run) -> Done {
    for value in -2048i16..2048 {
        for (lower, upper, past, flag) in [(value, 2047, -1, asleep::CUV), (-2048, value, 1, asleep::COV)] {
            for step in [-1, 0, 1] {
                let Ok(code) = i16::try_from(16 * i32::from(value) + step) else { continue };
                let mut record = passing(run);
                set_thresholds(&mut record, at::LPCM_CELL_THRESHOLDS, lower, upper);
                set_cells(&mut run.random, &mut record);
                let cell = run.random.below(16);
                set_masks(&mut record, !(1 << cell));
                set_codes(&mut record, cell, code, code);
                // Codes above 16 x 7FF (hex) are above every COV.
                let too_high = if upper == 2047 && code > 32752 { asleep::COV } else { 0 };
                expect_flags(run, &mut record, if step == past { flag | too_high } else { too_high })?;
            }
        }
    }
    Ok(())
}

/// Each of the 4096 values of CDV: a fall and a rise of 8 of it, and of one code more.
fn every_jump(run: &mut Run) -> Done {
    for cdv in 0..4096u16 {
        for (violation, sign) in [(Violation::Fall, 1), (Violation::Rise, -1)] {
            let mut record = passing(run);
            set_thresholds(&mut record, at::LPCM_CELL_THRESHOLDS, -2048, 2047);
            set_cdv(&mut record, cdv);
            set_masks(&mut record, 0);
            set_cells(&mut run.random, &mut record);
            let jump = 8 * i32::from(cdv);
            let cell = run.random.below(16);
            let [code, last] = [-sign * (jump / 2), sign * (jump - jump / 2)];
            set_codes(&mut record, cell, code as i16, last as i16);
            expect_flags(run, &mut record, 0)?;
            let flags = violate(&mut run.random, &mut record, violation).expect("room for a jump between the farthest limits");
            expect_flags(run, &mut record, flags)?;
        }
    }
    Ok(())
}

/// Each violation of each cell, measured and left out, alone and beside all others left out.
fn every_cell(run: &mut Run) -> Done {
    for (cell, violation) in (0..16).flat_map(|cell| VIOLATIONS.map(|violation| (cell, violation))) {
        for left_out in [0, 1 << cell, !(1 << cell), 0xFFFF] {
            let (mut record, flags) = loop {
                let mut record = passing(run);
                set_masks(&mut record, 0);
                set_cells(&mut run.random, &mut record);
                if let Some(flags) = violate_at(&mut run.random, &mut record, violation, cell) {
                    break (record, flags);
                }
            };
            set_masks(&mut record, left_out);
            let of_cell = ![Violation::Diagnostic, Violation::Stood].contains(&violation);
            expect_flags(run, &mut record, if of_cell && left_out >> cell & 1 == 1 { 0 } else { flags })?;
        }
    }
    Ok(())
}

/// Every value of the two bytes of status C that diagnostics stand in.
fn every_status(run: &mut Run) -> Done {
    for value in 0..=255 {
        for (byte, mask) in DIAGNOSTICS {
            let mut record = passing(run);
            record[byte] = value;
            expect_flags(run, &mut record, if value & mask != 0 { 0xFF } else { 0 })?;
        }
    }
    Ok(())
}

/// Every value of CMF0, as it stood, and one violation more or none.
fn every_flag(run: &mut Run) -> Done {
    for stood in 0..=255 {
        for violation in VIOLATIONS {
            let mut record = passing(run);
            let flags = violate(&mut run.random, &mut record, violation).unwrap_or(0);
            let flags = if violation == Violation::Stood { 0 } else { flags };
            record[CMF0] = stood;
            expect_flags(run, &mut record, stood | flags)?;
        }
    }
    Ok(())
}

/// Any bytes at all, and records with several violations.
fn any_record(run: &mut Run) -> Done {
    for turn in 0..4_000 {
        let mut record = if turn % 2 == 0 { inputs::record(&mut run.random) } else { passing(run) };
        for _ in 0..run.random.below(4) {
            let cell = run.random.below(16);
            let violation = run.random.pick(&VIOLATIONS);
            violate_at(&mut run.random, &mut record, violation, cell);
        }
        if run.random.once_in(3) {
            asleep::clear_flags(&mut record);
        }
        measured(run, &mut record)?;
    }
    Ok(())
}
