//! One run: its generator, what it tried, and how a call is settled.

use crate::difference::{listed, refused, Difference, Faults};
use crate::random::Random;
use crate::surface::Function;
use crate::tally::Tally;
use std::fmt::Debug;
use std::sync::atomic::{AtomicU64, Ordering};

/// Calls begun, kept where a panic can still name the case.
pub static CALLS: AtomicU64 = AtomicU64::new(0);

pub struct Run {
    pub seed: u64,
    pub random: Random,
    pub tally: Tally,
}

pub type Done = Result<(), Box<Difference>>;
pub type Answered = Result<u32, Box<Difference>>;
/// With the bytes of the buffer that the call was lent to write in.
pub type Written = Result<(u32, Vec<u8>), Box<Difference>>;

/// A kind of case, with its name in the tallies.
pub type Kind = (&'static str, fn(&mut Run) -> Done);

impl Run {
    pub fn new(seed: u64) -> Run {
        Run { seed, random: Random::new(seed), tally: Tally::default() }
    }

    /// Before each call to the library: its number is the case number.
    pub fn begin(&mut self) {
        CALLS.fetch_add(1, Ordering::Relaxed);
    }

    /// After each call: counted where it is right, else the difference in full.
    pub fn settle(
        &mut self,
        function: Function,
        answer: u32,
        mut faults: Faults,
        inputs: impl FnOnce() -> Vec<(&'static str, String)>,
    ) -> Answered {
        let number = (answer & 0xFF) as usize;
        if refused(answer) && !function.refusals().contains(&number) {
            faults.add(format!("answer: {} has no refusal {number}", function.name()));
        }
        if faults.none() {
            self.tally.count(function, number);
            return Ok(answer);
        }
        Err(Box::new(Difference {
            kind: self.tally.kind(),
            function: function.name(),
            seed: self.seed,
            case: CALLS.load(Ordering::Relaxed),
            inputs: inputs(),
            faults,
        }))
    }
}

/// What a call was made for is not only what the model says of it: found and expected must be the same.
pub fn expect<T: PartialEq + Debug>(run: &mut Run, function: Function, (found, expected): (T, T), lent: &[u8], position: usize) -> Done {
    if found != expected {
        let mut faults = Faults::new();
        faults.add(format!("library and model {found:02X?}, expected {expected:02X?}"));
        run.settle(function, 0, faults, || vec![("table", listed(lent)), ("position", position.to_string())])?;
    }
    Ok(())
}
