//! The kinds of case, one file each. A round runs every kind once; what is random in them differs from round to round.

mod clocked;
mod discharge;
mod frames;
mod heartbeats;
pub mod host;
mod loads;
mod long_runs;
mod lpcm;
mod measurements;
mod missed;
mod never_started;
mod nights;
mod relays;
mod retention;
mod snapshots;
mod spikes;
mod stores;
mod tables;

use crate::run::Kind;
use crate::tally::NEVER_STARTED;

/// All but the host's.
pub const KINDS: [Kind; 17] = [
    ("frames", frames::cases),
    ("tables", tables::cases),
    ("stores", stores::cases),
    ("loads", loads::cases),
    ("discharge", discharge::cases),
    ("clocked", clocked::cases),
    ("retention", retention::cases),
    ("snapshots", snapshots::cases),
    ("LPCM", lpcm::cases),
    ("measurements", measurements::cases),
    ("relays", relays::cases),
    ("heartbeats", heartbeats::cases),
    ("nights", nights::cases),
    ("spikes", spikes::cases),
    ("missed commands", missed::cases),
    ("long runs", long_runs::cases),
    (NEVER_STARTED, never_started::cases),
];
