//! Whole frames, each on a table of its own; each refusal of each command by both engines.

use crate::both::frame;
use crate::chain::Chain;
use crate::host::built;
use crate::inputs::{self, head, Shape, LISTED, MOST};
use crate::lent::Both;
use crate::run::{expect, Done, Run};
use crate::surface::Function;

pub fn cases(run: &mut Run) -> Done {
    every_command_at_every_n(run)?;
    every_length(run)?;
    near_misses(run)?;
    every_refusal(run)?;
    built_by_the_host(run)?;
    mixed(run)
}

fn table(run: &mut Run, monitors: usize) -> Both<u8> {
    let bytes = inputs::table(&mut run.random, monitors);
    Both::new(&mut run.random, &bytes)
}

/// With no room, one byte too little, just enough, and more.
fn every_command_at_every_n(run: &mut Run) -> Done {
    for (code, _) in LISTED {
        for monitors in 1..=MOST {
            for room in [0, 8 * monitors - 1, 8 * monitors, 8 * monitors + 1 + run.random.below(40)] {
                let mut table = table(run, monitors);
                let bytes = inputs::frame_of(&mut run.random, code, monitors);
                frame(run, &mut table, &bytes, room)?;
            }
        }
    }
    Ok(())
}

/// From no byte to more than 33 monitors' bytes, for a read, a write and a bare command.
fn every_length(run: &mut Run) -> Done {
    for monitors in [1, 2, run.random.within(3, 30), 31, 32] {
        for shape in [Shape::Read, Shape::Write, Shape::Bare] {
            let code = any_of(run, shape);
            let whole = inputs::frame_of(&mut run.random, code, 34);
            for length in 0..4 + 8 * 33 + 5 {
                let mut bytes = whole.clone();
                bytes.resize(length, run.random.byte());
                let mut table = table(run, monitors);
                frame(run, &mut table, &bytes, 8 * monitors)?;
            }
        }
    }
    Ok(())
}

fn any_of(run: &mut Run, shape: Shape) -> u16 {
    loop {
        let code = inputs::any_listed(&mut run.random);
        if inputs::shape(code) == Some(shape) {
            return code;
        }
    }
}

/// Each one-bit fault of each command's first four bytes, and each code one bit away with the PEC that belongs to it.
fn near_misses(run: &mut Run) -> Done {
    for (code, _) in LISTED {
        let monitors = run.random.within(1, MOST);
        let good = inputs::frame_of(&mut run.random, code, monitors);
        for bit in 0..32 {
            let mut bytes = good.clone();
            bytes[bit / 8] ^= 0x80 >> (bit % 8);
            let mut table = table(run, monitors);
            frame(run, &mut table, &bytes, 8 * monitors)?;
        }
        for bit in 0..16 {
            let mut bytes = good.clone();
            bytes[..4].copy_from_slice(&head(code ^ 1 << bit));
            let mut table = table(run, monitors);
            frame(run, &mut table, &bytes, 8 * monitors)?;
        }
    }
    Ok(())
}

/// Each number that a frame of each command can be refused with.
fn every_refusal(run: &mut Run) -> Done {
    let numbers = |code: u16| if inputs::shape(code) == Some(Shape::Read) { &[1, 2, 3, 5, 6][..] } else { &[1, 2, 3, 5] };
    let cases = LISTED.into_iter().flat_map(|(code, _)| numbers(code).iter().map(move |number| (code, *number)));
    for ((code, number), _) in cases.flat_map(|case| (0..30).map(move |turn| (case, turn))) {
        let monitors = run.random.within(1, 4);
        let random = &mut run.random;
        let bytes = if number == 1 { inputs::unsound(random) } else { inputs::table(random, monitors) };
        let mut sent = inputs::frame_of(random, code, monitors);
        match number {
            2 => sent.truncate(random.within(2, 3)),
            3 => sent[random.within(2, 3)] ^= 1 << random.below(8),
            5 if sent.len() > 4 && random.once_in(2) => sent.truncate(random.within(4, sent.len() - 1)),
            5 => sent.extend(vec![random.byte(); random.within(1, 40)]),
            _ => {}
        }
        let answer = if number == 6 {
            let room = random.below(8 * monitors);
            let mut table = Both::new(random, &bytes);
            frame(run, &mut table, &sent, room)?
        } else {
            Chain::unwatched(run, &bytes)?.frame(run, &sent)?.0
        };
        expect(run, Function::Frame, (answer, number), &bytes, monitors)?;
    }
    Ok(())
}

/// What the library's host builds, the library's chain must take in full.
fn built_by_the_host(run: &mut Run) -> Done {
    for _ in 0..500 {
        let code = inputs::any_listed(&mut run.random);
        let monitors = run.random.within(1, MOST);
        let values = run.random.bytes(inputs::values_owed(code, monitors));
        let bytes = built(run, code, monitors, &values)?;
        let mut table = table(run, monitors);
        frame(run, &mut table, &bytes, 8 * monitors)?;
    }
    Ok(())
}

/// Several things may be wrong at once, so that the order of the refusals shows.
fn mixed(run: &mut Run) -> Done {
    for _ in 0..40_000 {
        let monitors = run.random.within(1, MOST);
        let bytes = inputs::frame(&mut run.random, monitors);
        let lent = if run.random.once_in(6) { inputs::unsound(&mut run.random) } else { inputs::table(&mut run.random, monitors) };
        let room = match run.random.below(4) {
            0 => run.random.below(8 * monitors),
            1 => 8 * monitors + run.random.below(50),
            _ => 8 * monitors,
        };
        let mut table = Both::new(&mut run.random, &lent);
        frame(run, &mut table, &bytes, room)?;
    }
    Ok(())
}
