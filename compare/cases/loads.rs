//! Loads: codes at the thresholds, and every refusal alone and with others. Each one on a second table as a store and a compare.

use crate::both::{compare, load, store};
use crate::difference::{listed, refused, Faults};
use crate::inputs::{self, CLEARED, MOST, RECORD};
use crate::lent::Both;
use crate::run::{Done, Run};
use crate::surface::Function;

pub fn cases(run: &mut Run) -> Done {
    every_threshold(run)?;
    flags_stay(run)?;
    mixed(run)
}

/// Two tables with the same bytes: one is loaded, and the other is stored into and compared, which must come to the same.
struct Pair {
    at_once: Both<u8>,
    in_two: Both<u8>,
}

impl Pair {
    fn new(run: &mut Run, bytes: &[u8]) -> Pair {
        Pair { at_once: Both::new(&mut run.random, bytes), in_two: Both::new(&mut run.random, bytes) }
    }

    /// A refused store is all there is of a refused load.
    fn load(&mut self, run: &mut Run, position: usize, codes: &[i16]) -> Done {
        let before = self.in_two.contents().to_vec();
        let at_once = load(run, &mut self.at_once, position, codes)?;
        let mut in_two = store(run, &mut self.in_two, position, codes)?;
        if !refused(in_two) {
            in_two = compare(run, &mut self.in_two, position)?;
        }

        let mut faults = Faults::new();
        if at_once != in_two {
            faults.add(format!("answer: load {at_once:#010x}, store and compare {in_two:#010x}"));
        }
        let [loaded, compared] = [&self.at_once, &self.in_two].map(Both::contents);
        if loaded != compared {
            faults.add(format!("table: load {}, store and compare {}", listed(loaded), listed(compared)));
        }
        if !faults.none() {
            run.settle(Function::Load, at_once, faults, || {
                vec![("table", listed(&before)), ("position", position.to_string()), ("codes", listed(codes))]
            })?;
        }
        Ok(())
    }
}

/// Each of the 4096 values, as VUV and as VOV, with the three codes around 16 of it.
fn every_threshold(run: &mut Run) -> Done {
    for value in -2048i32..2048 {
        let around = [16 * value - 1, 16 * value, 16 * value + 1].map(|code| code.clamp(-32767, 32767) as i16);
        for as_vov in [false, true] {
            let record = inputs::record_with(&mut run.random, value, as_vov);
            let codes: Vec<i16> = (0..16).map(|_| run.random.pick(&around)).collect();
            Pair::new(run, &record).load(run, 1, &codes)?;
        }
    }
    Ok(())
}

/// Load after load into one chain: flags gather and none is cleared.
fn flags_stay(run: &mut Run) -> Done {
    for monitors in 1..=MOST {
        let bytes = inputs::table(&mut run.random, monitors);
        let mut pair = Pair::new(run, &bytes);
        for _ in 0..30 {
            let position = run.random.within(1, monitors);
            let codes = inputs::codes_for(&mut run.random, &pair.at_once.contents()[RECORD * (position - 1)..]);
            pair.load(run, position, &codes)?;
        }
    }
    Ok(())
}

fn mixed(run: &mut Run) -> Done {
    for _ in 0..8_000 {
        let monitors = run.random.within(1, MOST);
        let sound = !run.random.once_in(8);
        let bytes = if sound { inputs::table(&mut run.random, monitors) } else { inputs::unsound(&mut run.random) };
        let position = match run.random.below(8) {
            0 => inputs::wrong_position(&mut run.random, monitors),
            1 => 1,
            2 => monitors,
            _ => run.random.within(1, monitors),
        };
        let record = bytes.get(RECORD * position.saturating_sub(1).min(MOST)..).filter(|rest| rest.len() >= RECORD);
        let mut codes = match record {
            Some(record) => inputs::codes_for(&mut run.random, record),
            None => (0..16).map(|_| run.random.code()).collect(),
        };
        if run.random.once_in(6) {
            let count = run.random.pick(&[0, 1, 8, 15, 17, 18, 32, 272, 512]);
            codes.resize(count, run.random.code());
        }
        if run.random.once_in(6) && !codes.is_empty() {
            let cell = run.random.below(codes.len());
            codes[cell] = CLEARED;
        }
        Pair::new(run, &bytes).load(run, position, &codes)?;
    }
    Ok(())
}
