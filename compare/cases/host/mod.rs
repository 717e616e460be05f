//! The kinds that ask the host alone: they need no chain.

mod frames;
mod payloads;
mod ports;
mod readings;
mod verdicts;

use crate::run::Kind;

pub const KINDS: [Kind; 5] = [
    ("host frames", frames::cases),
    ("payloads", payloads::cases),
    ("two ports", ports::cases),
    ("readings", readings::cases),
    ("verdicts", verdicts::cases),
];
