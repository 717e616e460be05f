//! What a spike did to a frame that our host built (L7): read off the frame as it was sent and as it came, and off the tables. The frame
//! came by both engines, with one outcome, so it counts for both.

use crate::difference::refused;
use crate::inputs::{at, differ, first_code, frame_length, in_lpcm, own_bytes, shape, Shape, CLRCMFLAG, RECORD, WRRR};
use crate::run::Run;
use crate::tally::{Effect, Engine, OfCommand};

pub struct Struck<'a> {
    /// From the first flipped place to the last.
    pub width: usize,
    pub sent: &'a [u8],
    pub came: &'a [u8],
    pub answer: u32,
    pub before: &'a [u8],
    /// The table that the frame left as it came, and the one that it would have left as sent.
    pub after: &'a [u8],
    pub unstruck: &'a [u8],
}

/// One monitor: its own payload as it came and what was flipped of that, and its record.
struct Monitor<'a> {
    came: &'a [u8],
    flips: u64,
    before: &'a [u8],
    after: &'a [u8],
    unstruck: &'a [u8],
}

// The parts of a payload, which ends at the lowest bit, and of the first four bytes.
const DATA: u64 = !0xFFFF;
const LAST_OF_DATA: u64 = 0xFF_0000;
const COUNTER: u64 = 0xFC00;
const CHECK: u64 = 0x03FF;
const HIGHEST_OF_CHECK: u64 = 0x0300;
const CODE: u32 = 0xFFFF_0000;
const COMMAND_CHECK: u32 = 0xFFFE;
const LAST_PLACE: u32 = 1;

impl Monitor<'_> {
    fn hit(&self) -> bool {
        self.flips != 0
    }

    /// Other data came than were sent.
    fn hit_in_data(&self) -> bool {
        self.flips & DATA != 0
    }

    fn was_unlocked(&self) -> bool {
        self.before[at::UNLOCKED] == 1
    }

    fn in_lpcm(&self) -> bool {
        in_lpcm(self.before)
    }

    /// The record shows, and not by its counter alone, that it is not as the frame would have left it unstruck.
    fn told(&self) -> bool {
        differ(self.after, self.unstruck)
    }
}

/// At most eight bytes, the last one lowest.
fn bits(payload: &[u8]) -> u64 {
    payload.iter().fold(0, |bits, byte| bits << 8 | u64::from(*byte))
}

impl Struck<'_> {
    fn did_if(&self, run: &mut Run, effect: Effect, came_up: bool) {
        for engine in Engine::BOTH {
            run.tally.did_if(engine, effect, came_up);
        }
    }

    fn of_command_if(&self, run: &mut Run, what: OfCommand, came_up: bool) {
        for engine in Engine::BOTH {
            run.tally.of_command_if(engine, self.code(), what, came_up);
        }
    }

    fn code(&self) -> u16 {
        first_code(self.sent)
    }

    /// The nearest one first, whose payload is the last.
    fn monitors(&self) -> Vec<Monitor<'_>> {
        let own_bytes = own_bytes(self.code());
        let payloads = self.sent[4..].chunks(own_bytes).zip(self.came[4..].chunks(own_bytes)).rev();
        let records = self.before.chunks(RECORD).zip(self.after.chunks(RECORD)).zip(self.unstruck.chunks(RECORD));
        payloads
            .zip(records)
            .map(|((sent, came), ((before, after), unstruck))| Monitor { came, flips: bits(sent) ^ bits(came), before, after, unstruck })
            .collect()
    }

    /// A spike of a list of all that there are.
    pub fn note_in_bulk(&self, run: &mut Run) {
        let in_command = self.sent[..4] != self.came[..4];
        let in_payloads = if self.code() == CLRCMFLAG { Effect::ShortSpikeInBulk } else { Effect::SpikeInBulk };
        self.did_if(run, if in_command { Effect::CommandSpikeInBulk } else { in_payloads }, true);
    }

    /// A write was struck in its payloads, and came out as L7 says.
    pub fn note_payloads(&self, run: &mut Run) {
        let all = self.monitors();
        let hit: Vec<&Monitor> = all.iter().filter(|one| one.hit()).collect();
        self.note_lpcm(run, &all, &hit);
        if self.code() == WRRR {
            self.note_retention(run, &hit);
            return;
        }
        if !hit.iter().all(|one| one.told()) {
            return;
        }
        self.of_command_if(run, if hit.len() == 1 { OfCommand::Hit } else { OfCommand::HitOverBorder }, true);
        if self.code() == CLRCMFLAG {
            self.note_short(run, &hit);
        }
        // Each other monitor takes its own, if it is not in LPCM.
        if all.iter().any(Monitor::in_lpcm) {
            return;
        }
        let several = all.len() > 1;
        let mut did_if = |effect, came_up| self.did_if(run, effect, came_up);
        match hit[..] {
            [one] => {
                did_if(Effect::SpikeInOne, several);
                did_if(Effect::SpikeInOnly, !several);
                did_if(Effect::SpikeAtNearest, several && all[0].hit());
                did_if(Effect::SpikeAtFarthest, several && all[all.len() - 1].hit());
                did_if(Effect::SpikeInData, one.flips & !DATA == 0);
                did_if(Effect::SpikeInCounter, one.flips & !COUNTER == 0);
                did_if(Effect::SpikeInCheck, one.flips & !CHECK == 0);
                did_if(Effect::SpikeInHighestOfCheck, one.flips & !HIGHEST_OF_CHECK == 0);
                did_if(Effect::SpikeOfTen, self.width == 10);
            }
            _ => {
                did_if(Effect::SpikeOverBorder, true);
                did_if(Effect::SpikeOverBorderBesideOthers, all.len() > 2);
                did_if(Effect::SpikeOfTenOverBorder, self.width == 10);
            }
        }
        did_if(Effect::SpikeLocks, hit.iter().any(|one| one.was_unlocked()));
        did_if(Effect::SpikeAt63, hit.iter().any(|one| one.before[at::COUNTER] == 63));
    }

    /// Monitors in LPCM, hit or beside those that are.
    fn note_lpcm(&self, run: &mut Run, all: &[Monitor], hit: &[&Monitor]) {
        let in_lpcm = hit.iter().filter(|one| one.in_lpcm()).count();
        let others_in_lpcm = all.iter().any(|one| !one.hit() && one.in_lpcm());
        let not_taken = self.code() != WRRR && hit.iter().all(|one| one.told());
        self.of_command_if(run, OfCommand::HitInLpcm, in_lpcm > 0);
        self.did_if(run, Effect::SpikeInLpcm, hit.len() == 1 && in_lpcm == 1);
        self.did_if(run, Effect::SpikeBesideLpcm, hit.len() == 1 && in_lpcm == 0 && others_in_lpcm && not_taken);
        self.did_if(run, Effect::SpikeOverBorderOfLpcm, hit.len() == 2 && in_lpcm == 1);
    }

    /// The parts of a CLRCMFLAG's payload that was not taken.
    fn note_short(&self, run: &mut Run, hit: &[&Monitor]) {
        let mut did_if = |effect, came_up| self.did_if(run, effect, came_up);
        match hit[..] {
            [one] => {
                did_if(Effect::ShortSpikeInFirst, one.flips & !(DATA & !LAST_OF_DATA) == 0);
                did_if(Effect::ShortSpikeInSecond, one.flips & !LAST_OF_DATA == 0);
                did_if(Effect::ShortSpikeInCounter, one.flips & !COUNTER == 0);
                did_if(Effect::ShortSpikeInCheck, one.flips & !CHECK == 0);
                did_if(Effect::ShortSpikeInHighestOfCheck, one.flips & !HIGHEST_OF_CHECK == 0);
                did_if(Effect::ShortSpikeOfTen, self.width == 10);
            }
            _ => did_if(Effect::ShortSpikeOfTenOverBorder, self.width == 10),
        }
    }

    /// WRRR, which every monitor takes that is not in LPCM.
    fn note_retention(&self, run: &mut Run, hit: &[&Monitor]) {
        let other_than_came = |record: &[u8], one: &Monitor| record[at::RETENTION..][..6] != one.came[..6];
        let unlocked = |one: &Monitor| one.hit_in_data() && one.was_unlocked() && other_than_came(one.before, one);
        let locked = |one: &Monitor| one.hit_in_data() && !one.was_unlocked() && other_than_came(one.after, one);
        self.did_if(run, Effect::WrrrSpikeStores, hit.iter().any(|one| !one.in_lpcm() && unlocked(one)));
        self.did_if(run, Effect::WrrrSpikeLocked, hit.iter().any(|one| !one.in_lpcm() && locked(one)));
        self.did_if(run, Effect::WrrrSpikeOverBorder, hit.len() == 2 && !hit.iter().any(|one| one.in_lpcm()));
        self.did_if(run, Effect::WrrrSpikeInLpcm, hit.iter().any(|one| one.in_lpcm() && unlocked(one)));
    }

    /// A frame was struck in its first four bytes, and refused with 3.
    pub fn note_command(&self, run: &mut Run) {
        let [sent, came] = [self.sent, self.came].map(|frame| u32::from_be_bytes([frame[0], frame[1], frame[2], frame[3]]));
        let flips = sent ^ came;
        let other = first_code(self.came);
        let as_long = shape(other).is_some() && frame_length(other, self.before.len() / RECORD) == self.sent.len();
        let mut records = self.before.chunks(RECORD).zip(self.unstruck.chunks(RECORD));
        self.of_command_if(run, OfCommand::Struck, true);
        let mut did_if = |effect, came_up| self.did_if(run, effect, came_up);
        did_if(Effect::CommandSpikeInCode, flips & !CODE == 0);
        did_if(Effect::CommandSpikeInCheck, flips & !COMMAND_CHECK == 0);
        did_if(Effect::CommandSpikeInBoth, flips & CODE != 0 && flips & COMMAND_CHECK != 0);
        did_if(Effect::CommandSpikeAtLastPlace, flips == LAST_PLACE);
        did_if(Effect::CommandSpikeOfFifteen, self.width == 15);
        did_if(Effect::CommandSpikeToListed, flips & CODE != 0 && as_long);
        did_if(Effect::CommandSpikeOverBorder, self.sent[4..] != self.came[4..]);
        did_if(Effect::CommandSpikeKeepsUnlocked, records.any(|(before, after)| before[at::UNLOCKED] > after[at::UNLOCKED]));
    }

    /// A write was struck in eleven places of a payload that are the data polynomial, and taken by every monitor that is not in LPCM.
    pub fn note_eleven(&self, run: &mut Run) {
        let all = self.monitors();
        self.of_command_if(run, OfCommand::Slipped, all.iter().any(|one| one.hit_in_data() && one.told()));
        self.did_if(run, Effect::ElevenBesideData, all.iter().any(|one| one.hit() && !one.hit_in_data() && !one.in_lpcm()));
        self.did_if(run, Effect::ElevenInLpcm, all.iter().any(|one| one.hit() && one.in_lpcm()));
    }

    /// A frame was struck in sixteen places of its command that are the command polynomial: another command came.
    pub fn note_sixteen(&self, run: &mut Run) {
        let shapes = [self.sent, self.came].map(|frame| shape(first_code(frame)));
        let obeyed = !refused(self.answer);
        self.did_if(run, Effect::SixteenUnlisted, self.answer == 4);
        self.did_if(run, Effect::SixteenLength, self.answer == 5);
        self.did_if(run, Effect::SixteenObeyed, obeyed && shapes[0] == shapes[1] && self.after != self.unstruck);
        self.did_if(run, Effect::SixteenReadForWrite, obeyed && shapes == [Some(Shape::Write), Some(Shape::Read)]);
        self.did_if(run, Effect::SixteenWriteForRead, obeyed && shapes == [Some(Shape::Read), Some(Shape::Write)]);
    }
}
