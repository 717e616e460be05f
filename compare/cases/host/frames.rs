//! Frames that the host builds.

use crate::host::host_frame;
use crate::inputs::{self, frame_length, values_owed, CMHB, LISTED, MOST};
use crate::run::{Done, Run};

pub fn cases(run: &mut Run) -> Done {
    every_command(run)?;
    every_n(run)?;
    mixed(run)
}

/// All 65,536, each with the values and the room that it would need; CMHB more often.
fn every_command(run: &mut Run) -> Done {
    for code in (0..=u16::MAX).chain([CMHB; 60]) {
        let monitors = run.random.pick(&[1, 2, 3, 8, 32]);
        let values = run.random.bytes(values_owed(code, monitors));
        host_frame(run, code, monitors, &values, frame_length(code, monitors))?;
    }
    Ok(())
}

/// Each listed command for no monitor to too many, each wrong count of values, each room beside the right one.
fn every_n(run: &mut Run) -> Done {
    for (code, _) in LISTED {
        for monitors in 0..=36 {
            let owed = values_owed(code, monitors);
            let length = frame_length(code, monitors);
            for count in [0, 2 * monitors, 6 * monitors, owed.saturating_sub(6), owed.saturating_sub(1), owed, owed + 1, owed + 6] {
                for room in [0, 3, 4, length - 1, length, length + 1, length + 30] {
                    let values = run.random.bytes(count);
                    host_frame(run, code, monitors, &values, room)?;
                }
            }
        }
    }
    Ok(())
}

/// Counts of monitors whose 6N or 8N would not fit are among them.
fn mixed(run: &mut Run) -> Done {
    let beyond = [0, 33, 64, 256, 288, 1 << 32, (1 << 32) + 1, 1 << 61, (1 << 61) + 1, usize::MAX / 6 + 1, usize::MAX];
    for _ in 0..4_000 {
        let listed = !run.random.once_in(8);
        let code = if listed { inputs::any_listed(&mut run.random) } else { inputs::any_unlisted(&mut run.random) };
        let monitors = run.random.within(1, MOST);
        let asked = if run.random.once_in(6) { run.random.pick(&beyond) } else { monitors };
        let right = !run.random.once_in(6);
        let count = if right { values_owed(code, monitors) } else { run.random.below(6 * 34) };
        let room = if run.random.once_in(3) { run.random.below(4 + 8 * 34) } else { frame_length(code, monitors) };
        let values = run.random.bytes(count);
        host_frame(run, code, asked, &values, room)?;
    }
    Ok(())
}
