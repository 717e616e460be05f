//! Document 01, with requests L1, L2, L3, L5, L6 and L8 of document 02, written once more from the papers alone: one file for each section.
//!
//! It shares nothing with the proved code, so that a difference between the two shows a mistake in one of them. Each public function
//! stands beside a function of include/oskorbine.h and packs its answer the same way. Nothing here allocates.

mod chain;
mod check_words;
mod clocked;
mod commands;
mod discharge;
mod heartbeat;
mod host;
mod measurement;
mod message;
mod monitor;
mod numbers;
mod readings;
mod turn;
mod verdict;

#[cfg(test)]
mod both_engines;
#[cfg(test)]
mod worked_discharge;
#[cfg(test)]
mod worked_examples;
#[cfg(test)]
mod worked_heartbeat;
#[cfg(test)]
mod worked_lpcm;
#[cfg(test)]
mod worked_measurement;
#[cfg(test)]
mod worked_missed;
#[cfg(test)]
mod worked_retention;
#[cfg(test)]
mod worked_snapshot;
#[cfg(test)]
mod worked_spikes;
#[cfg(test)]
mod worked_verdict;

pub use chain::{compare, frame, load, store};
pub use check_words::{
    command_pec, command_pec_bit_by_bit, data_pec, data_pec_bit_by_bit, data_pec_with_counter, data_pec_with_counter_bit_by_bit,
};
pub use clocked::Clock;
pub use commands::at;
pub use discharge::{discharge, event, OUTPUT_ON};
pub use heartbeat::{heartbeat, relay, time_out, wake};
pub use host::{check, host_frame, two_ports};
pub use monitor::{CMC_EN, MUTE_ST, RECORD, SNAP_ST};
pub use readings::{microvolts, summary, volts};
pub use verdict::verdict;
