//! Compares the whole library (target/c/liboskorbine.a) with a second implementation of the papers, the crate `model`: every function of
//! include/oskorbine.h, after each call the answer and every byte of every buffer.

mod asleep;
mod beats;
mod both;
mod cases;
mod cells;
mod chain;
mod clocks;
mod copies;
mod difference;
mod effects;
mod events;
mod host;
mod inputs;
mod lent;
mod lpcm;
mod measured;
mod messages;
mod missed;
mod outputs;
mod program;
mod random;
mod run;
mod sent;
mod spike;
mod struck;
mod surface;
mod tally;
mod turns;

use program::{compare, Library};
use std::process::ExitCode;
use surface::Function;

fn main() -> ExitCode {
    compare(Library {
        name: "liboskorbine",
        functions: &Function::ALL,
        kinds: &[&cases::host::KINDS, &cases::KINDS],
        least_calls: 10_000_000,
    })
}
