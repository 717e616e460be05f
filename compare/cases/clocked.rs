//! The clocked engine: frames cut, given up, overlong, with tables that change under them, and two clocks in turn.

use crate::clocks::Clocks;
use crate::inputs::{self, CLRCMFLAG, LISTED, MOST, REPLY};
use crate::lent::{Both, Lent};
use crate::run::{Done, Run};

pub fn cases(run: &mut Run) -> Done {
    every_command(run)?;
    cut_at_each_byte(run)?;
    given_up_at_each_byte(run)?;
    overlong(run)?;
    every_length(run)?;
    tables_that_change(run)?;
    two_in_turn(run)
}

/// Clocks all bytes with one table, and releases with the same.
fn whole(run: &mut Run, clocks: &mut Clocks, table: &mut Both<u8>, frame: &[u8]) -> Done {
    clock_in(run, clocks, table.contents(), frame)?;
    clocks.release(run, table)?;
    Ok(())
}

fn clock_in(run: &mut Run, clocks: &mut Clocks, table: &[u8], frame: &[u8]) -> Done {
    let lent = Lent::new(&mut run.random, table);
    for &byte in frame {
        clocks.byte(run, &lent, table, byte)?;
    }
    Ok(())
}

fn any_table(run: &mut Run, monitors: usize) -> Both<u8> {
    let bytes = inputs::table(&mut run.random, monitors);
    Both::new(&mut run.random, &bytes)
}

fn every_command(run: &mut Run) -> Done {
    let mut clocks = Clocks::new(run)?;
    for (code, _) in LISTED {
        for monitors in 1..=MOST {
            let mut table = any_table(run, monitors);
            let frame = inputs::frame_of(&mut run.random, code, monitors);
            whole(run, &mut clocks, &mut table, &frame)?;
        }
    }
    Ok(())
}

/// Released after each number of bytes, and after some more than the frame has.
fn cut_at_each_byte(run: &mut Run) -> Done {
    let mut clocks = Clocks::new(run)?;
    for _ in 0..24 {
        let monitors = run.random.pick(&[1, 1, 2, 3, 4]);
        let mut frame = inputs::frame(&mut run.random, monitors);
        let more = run.random.bytes(10);
        frame.extend(more);
        for length in 0..=frame.len() {
            let mut table = any_table(run, monitors);
            whole(run, &mut clocks, &mut table, &frame[..length])?;
        }
    }
    Ok(())
}

/// After each number of bytes a start, and then a frame that must go as on a new clock.
fn given_up_at_each_byte(run: &mut Run) -> Done {
    let mut clocks = Clocks::new(run)?;
    for _ in 0..12 {
        let monitors = run.random.pick(&[1, 2, 3]);
        let frame = inputs::frame(&mut run.random, monitors);
        for length in 0..=frame.len().min(40) {
            let mut table = any_table(run, monitors);
            clock_in(run, &mut clocks, table.contents(), &frame[..length])?;
            if run.random.once_in(2) {
                clocks.start(run)?;
            } else {
                clocks.start_from_any(run)?;
            }
            let code = inputs::any_listed(&mut run.random);
            let next = inputs::frame_of(&mut run.random, code, monitors);
            whole(run, &mut clocks, &mut table, &next)?;
        }
    }
    Ok(())
}

/// Lengths at which a count of eight bits would come round to a right one are among them.
fn overlong(run: &mut Run) -> Done {
    let mut clocks = Clocks::new(run)?;
    for (code, _) in LISTED {
        let monitors = run.random.within(1, MOST);
        let right = inputs::frame_of(&mut run.random, code, monitors).len();
        for length in [right + 1, right + 256, 300, 600] {
            let mut frame = inputs::head(code).to_vec();
            frame.extend(inputs::payloads(&mut run.random, REPLY, length / REPLY + 1));
            frame.truncate(length);
            let mut table = any_table(run, monitors);
            whole(run, &mut clocks, &mut table, &frame)?;
        }
    }
    Ok(())
}

/// A read, two writes and a bare command that go on past what 16 bits count, tried for release at every length.
fn every_length(run: &mut Run) -> Done {
    for code in [0x000B, 0x0024, CLRCMFLAG, 0x0711] {
        let mut clocks = Clocks::new(run)?;
        let monitors = run.random.within(1, 3);
        let mut table = any_table(run, monitors);
        let lent_holds = table.contents().to_vec();
        let lent = Lent::new(&mut run.random, &lent_holds);
        let rest = run.random.bytes(65_536 + 8 * monitors);
        for byte in inputs::head(code).into_iter().chain(rest) {
            clocks.release_copies(run, &mut table)?;
            clocks.byte(run, &lent, &lent_holds, byte)?;
        }
        clocks.release(run, &mut table)?;
    }
    Ok(())
}

/// With each byte any table: N and the command are taken at byte four, and only the release changes a table.
fn tables_that_change(run: &mut Run) -> Done {
    let mut clocks = Clocks::new(run)?;
    for _ in 0..1_500 {
        let monitors = if run.random.once_in(2) { run.random.within(1, 4) } else { run.random.within(1, MOST) };
        let frame = inputs::frame(&mut run.random, monitors);
        let mut at_four = inputs::table(&mut run.random, monitors);
        if run.random.once_in(5) {
            at_four = inputs::unsound(&mut run.random);
        }
        let other_each_time = run.random.once_in(2);
        for (place, &byte) in frame.iter().enumerate() {
            let other = place != 3 && other_each_time && (place < 12 || run.random.once_in(8));
            let table = if other { other_table(run, monitors) } else { at_four.clone() };
            clock_in(run, &mut clocks, &table, &[byte])?;
        }
        let released = match run.random.below(3) {
            0 => at_four,
            1 => inputs::table(&mut run.random, monitors),
            _ => other_table(run, monitors),
        };
        let mut table = Both::new(&mut run.random, &released);
        clocks.release(run, &mut table)?;
    }
    Ok(())
}

/// Of another N, of the same, or unsound.
fn other_table(run: &mut Run, monitors: usize) -> Vec<u8> {
    let random = &mut run.random;
    match random.below(4) {
        0 => inputs::unsound(random),
        1 => inputs::table(random, monitors),
        2 => inputs::table(random, if monitors == MOST { MOST - 1 } else { monitors + 1 }),
        _ => {
            let other = random.within(1, MOST);
            inputs::table(random, other)
        }
    }
}

/// Two clocks on two chains, a byte here and some bytes there; now and then one frame is given up.
fn two_in_turn(run: &mut Run) -> Done {
    struct Line {
        clocks: Clocks,
        table: Both<u8>,
        monitors: usize,
        frame: Vec<u8>,
        sent: usize,
    }
    let mut lines = Vec::new();
    for _ in 0..2 {
        let monitors = run.random.within(1, MOST);
        lines.push(Line { clocks: Clocks::new(run)?, table: any_table(run, monitors), monitors, frame: Vec::new(), sent: 0 });
    }
    for _ in 0..4_000 {
        let line = &mut lines[run.random.below(2)];
        if run.random.once_in(100) {
            line.clocks.start(run)?;
            line.sent = 0;
        }
        for _ in 0..run.random.within(1, 4) {
            if line.sent == line.frame.len() {
                line.clocks.release(run, &mut line.table)?;
                line.frame = inputs::frame(&mut run.random, line.monitors);
                line.sent = 0;
            } else {
                clock_in(run, &mut line.clocks, line.table.contents(), &line.frame[line.sent..=line.sent])?;
                line.sent += 1;
            }
        }
    }
    Ok(())
}
