//! Stores and compares, each alone and one after the other; what comes to a load is tried with the loads.

use crate::both::{compare, store};
use crate::difference::{listed, Faults};
use crate::inputs::{self, first_of, CLEARED, MOST, RECORD};
use crate::lent::Both;
use crate::run::{expect, Done, Run};
use crate::surface::Function;

pub fn cases(run: &mut Run) -> Done {
    every_threshold(run)?;
    each_position(run)?;
    in_any_order(run)?;
    every_refusal(run)
}

/// A second compare finds what the first left, and must leave all of it.
fn compare_twice(run: &mut Run, table: &mut Both<u8>, position: usize) -> Done {
    compare(run, table, position)?;
    let once = table.contents().to_vec();
    let answer = compare(run, table, position)?;
    if table.contents() != once {
        let mut faults = Faults::new();
        faults.add(format!("table: changed by a second compare: {}", listed(table.contents())));
        run.settle(Function::Compare, answer, faults, || vec![("table", listed(&once)), ("position", position.to_string())])?;
    }
    Ok(())
}

/// Each of the 4096 values, as VUV and as VOV, with cells around it that nobody stored: any may be cleared.
fn every_threshold(run: &mut Run) -> Done {
    for value in -2048..2048 {
        for as_vov in [false, true] {
            let mut record = inputs::record_with(&mut run.random, value, as_vov);
            inputs::set_cells(&mut run.random, &mut record);
            let mut table = Both::new(&mut run.random, &record);
            compare_twice(run, &mut table, 1)?;
        }
    }
    Ok(())
}

/// Any cells at every monitor, so that a compare of a neighbour would show.
fn any_table(run: &mut Run, monitors: usize) -> Vec<u8> {
    let mut bytes = inputs::table(&mut run.random, monitors);
    for record in bytes.chunks_mut(RECORD) {
        inputs::set_cells(&mut run.random, record);
    }
    bytes
}

fn codes_at(run: &mut Run, table: &[u8], position: usize) -> Vec<i16> {
    inputs::codes_for(&mut run.random, &table[RECORD * (position - 1)..])
}

/// A compare of what stands, and then of what was stored, at each position of each N.
fn each_position(run: &mut Run) -> Done {
    for monitors in 1..=MOST {
        for position in 1..=monitors {
            let bytes = any_table(run, monitors);
            let mut table = Both::new(&mut run.random, &bytes);
            compare_twice(run, &mut table, position)?;
            let codes = codes_at(run, &bytes, position);
            store(run, &mut table, position, &codes)?;
            compare_twice(run, &mut table, position)?;
        }
    }
    Ok(())
}

/// Store after store, and a compare now and then, on one chain: flags gather and none is cleared.
fn in_any_order(run: &mut Run) -> Done {
    for monitors in 1..=MOST {
        let bytes = any_table(run, monitors);
        let mut table = Both::new(&mut run.random, &bytes);
        for _ in 0..40 {
            let position = run.random.within(1, monitors);
            if run.random.once_in(3) {
                compare(run, &mut table, position)?;
            } else {
                let codes = codes_at(run, table.contents(), position);
                store(run, &mut table, position, &codes)?;
            }
        }
    }
    Ok(())
}

/// Each set of reasons for a refusal, so that each reason stands alone and beside every other: the first in the paper's order is given.
fn every_refusal(run: &mut Run) -> Done {
    for reasons in 0..16 {
        let [unsound, position_wrong, count_wrong, cleared] = [0, 1, 2, 3].map(|reason| reasons >> reason & 1 == 1);
        let of_store = first_of(&[(unsound, 1), (position_wrong, 7), (count_wrong, 8), (cleared, 9)]);
        let of_compare = first_of(&[(unsound, 1), (position_wrong, 7)]);
        for _ in 0..100 {
            let monitors = run.random.within(1, MOST);
            let bytes = if unsound { inputs::unsound(&mut run.random) } else { any_table(run, monitors) };
            let right = run.random.within(1, monitors);
            let position = if position_wrong { inputs::wrong_position(&mut run.random, monitors) } else { right };
            let count = if count_wrong { run.random.pick(&[1, 8, 15, 17, 18, 32, 272]) } else { 16 };
            let mut codes: Vec<i16> = (0..count).map(|_| run.random.code().max(-32767)).collect();
            if cleared {
                codes[run.random.below(count)] = CLEARED;
            }
            let mut table = Both::new(&mut run.random, &bytes);
            let answer = store(run, &mut table, position, &codes)?;
            expect(run, Function::Store, (answer, of_store), &bytes, position)?;
            let mut table = Both::new(&mut run.random, &bytes);
            let answer = compare(run, &mut table, position)?;
            expect(run, Function::Compare, (answer, of_compare), &bytes, position)?;
        }
    }
    Ok(())
}
