//! Compares the door controller's library (target/c/libdoor.a), which has the host's functions alone, with the crate `model`, as
//! oskorbine.rs does the whole one. It is linked with no other library, so a call of a function that it does not have is an error of the
//! linker. Usage: door [SEED [ROUNDS]]

// The files hold what the chain's cases need too. What nobody uses shows in oskorbine.rs, which has them all.
#![allow(dead_code)]

mod cases {
    pub mod host;
}
mod difference;
mod host;
mod inputs;
mod lent;
mod messages;
mod program;
mod random;
mod run;
mod spike;
mod surface;
mod tally;

use program::{compare, Library};
use std::process::ExitCode;
use surface::Function;

fn main() -> ExitCode {
    compare(Library {
        name: "libdoor",
        functions: &[
            Function::HostFrame,
            Function::Check,
            Function::TwoPorts,
            Function::Verdict,
            Function::Microvolts,
            Function::Volts,
            Function::Summary,
        ],
        kinds: &[&cases::host::KINDS],
        least_calls: 990_000,
    })
}
