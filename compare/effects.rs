//! What an accepted frame did, read off the table before and after it and, in a write, off the payloads; and what a refused one was. An
//! effect counts once a frame.

use crate::inputs::{
    at, data_of, differ, first_code, frame_length, head, in_lpcm, is_damaged, needs_check, own_bytes, set_lpcm, shape, snapped, with_check,
    Shape, CLRCMFLAG, CMF0, CMF1, CMHB, RECORD, WRCMCELLT, WRCMGPIOT, WRRR,
};
use crate::lent::Both;
use crate::run::Run;
use crate::tally::{Effect, Engine, OfCommand};
use crate::{copies, lpcm};
use model::{MUTE_ST, SNAP_ST};

const WRCFGA: u16 = 0x0001;
const WRPWMB: u16 = 0x0021;
/// Bytes 2 to 5 of PWM group B.
const FIXED: [u8; 4] = [0xFF; 4];

/// What one monitor received of a write, its own payload, and its record before and after.
struct Received<'a> {
    sent: &'a [u8],
    /// By the check alone, whatever the monitor made of it.
    damaged: bool,
    before: &'a [u8],
    after: &'a [u8],
}

impl Received<'_> {
    fn taken(&self) -> bool {
        self.before[at::COUNTER] != self.after[at::COUNTER]
    }

    /// The counter bits of its payload.
    fn carries(&self) -> u8 {
        self.sent[data_of(self.sent).len()] >> 2
    }

    fn in_lpcm(&self) -> bool {
        in_lpcm(self.before)
    }

    fn was_unlocked(&self) -> bool {
        self.before[at::UNLOCKED] == 1
    }

    fn muted(&self) -> bool {
        self.before[at::CONFIGURATION_A + 5] & MUTE_ST != 0
    }

    /// Of a WRCFGA: the bit that it cannot change is sent as 1.
    fn sends_snap_st(&self) -> bool {
        self.sent[5] & SNAP_ST != 0
    }

    /// Of a WRRR: other bytes stand in retention than before.
    fn retained(&self) -> bool {
        self.taken() && retention(self.after) != retention(self.before)
    }

    /// Of a WRRR: a locked monitor keeps other bytes than were sent.
    fn kept_locked(&self) -> bool {
        self.taken() && !self.was_unlocked() && retention(self.after) != data_of(self.sent)
    }

    /// Of a write of thresholds: bits that are not kept were sent, and stood.
    fn masked(&self, first: usize) -> bool {
        let dropped = |bytes: &[u8]| bytes[4] & 0xF0 != 0 || bytes[5] != 0;
        self.taken() && dropped(self.sent) && dropped(&self.before[first..])
    }

    /// Whether these data would leave anything else in the record than stood, were their check right and the monitor not in LPCM.
    fn would_show(&self, code: u16) -> bool {
        let mut before = self.before.to_vec();
        set_lpcm(&mut before, false);
        let mut record = before.clone();
        model::frame(&mut record, &[&head(code)[..], &with_check(data_of(self.sent), 0)].concat(), &mut []);
        differ(&record, &before)
    }
}

fn retention(record: &[u8]) -> &[u8] {
    &record[at::RETENTION..][..6]
}

/// `shown` is the table that a read goes by: a whole frame's own before the call, a clocked one's of byte four.
pub fn note(run: &mut Run, engine: Engine, frame: &[u8], shown: &[u8], table: &Both<u8>) {
    let code = first_code(frame);
    run.tally.of_command_if(engine, code, OfCommand::Accepted, true);
    let records = || table.before.chunks(RECORD).zip(table.contents().chunks(RECORD));
    let after_63 = records().any(|(before, after)| before[at::COUNTER] == 63 && after[at::COUNTER] == 1);
    run.tally.did_if(engine, Effect::CounterAfter63, after_63);
    match shape(code) {
        Some(Shape::Write) => {}
        Some(Shape::Read) => {
            copies::note_read(run, engine, code, shown);
            return lpcm::note_read(run, engine, code, shown);
        }
        _ => {
            copies::note_bare(run, engine, code, table);
            return lpcm::note_bare(run, engine, code, table);
        }
    }
    // The last payload is monitor 1's.
    let payloads = frame[4..].chunks(own_bytes(code)).rev();
    let all: Vec<Received> =
        records().zip(payloads).map(|((before, after), sent)| Received { sent, damaged: is_damaged(sent), before, after }).collect();
    let any = |such: &dyn Fn(&Received) -> bool| all.iter().any(such);
    let damaged = any(&|one| one.damaged && !one.in_lpcm() && !one.taken() && one.would_show(code));
    run.tally.of_command_if(engine, code, OfCommand::NotTaken, damaged);
    let asleep = any(&|one| !one.damaged && one.in_lpcm() && !one.taken() && one.would_show(code));
    run.tally.of_command_if(engine, code, OfCommand::NotTakenInLpcm, asleep);
    note_write(code, &all, &mut |effect, came_up| run.tally.did_if(engine, effect, came_up));
}

/// A refused frame: by its number, where it is long enough to have a code, and what was wrong with its length.
pub fn note_refused(run: &mut Run, engine: Engine, frame: &[u8], table: &[u8], number: u32) {
    if frame.len() < 2 {
        return;
    }
    let (code, monitors) = (first_code(frame), table.len() / RECORD);
    run.tally.refused(engine, code, number as usize);
    run.tally.did_if(engine, Effect::CmhbRefused, number == 4 && code == CMHB);
    let write = number == 5 && shape(code) == Some(Shape::Write);
    let eight_for_four = frame.len() == 4 + 8 * monitors && frame_length(code, monitors) == 4 + 4 * monitors;
    let four_for_eight = frame.len() == 4 + 4 * monitors && frame_length(code, monitors) == 4 + 8 * monitors;
    run.tally.did_if(engine, Effect::ClrcmflagOfEight, write && eight_for_four);
    run.tally.did_if(engine, Effect::WriteOfFour, write && four_for_eight);
}

fn note_write(code: u16, all: &[Received], did_if: &mut dyn FnMut(Effect, bool)) {
    let any = |such: &dyn Fn(&Received) -> bool| all.iter().any(such);
    let took = all.iter().filter(|one| one.taken()).count();
    did_if(Effect::TakenBySome, 0 < took && took < all.len());
    did_if(Effect::TakenByNone, took == 0);
    did_if(
        Effect::TakenWithCounter,
        needs_check(code) && any(&|one| one.taken() && ![0, one.before[at::COUNTER]].contains(&one.carries())),
    );
    let in_lpcm = all.iter().filter(|one| one.in_lpcm()).count();
    did_if(Effect::LpcmNone, all.len() > 1 && in_lpcm == 0 && took == all.len());
    did_if(Effect::LpcmSome, took > 0 && any(&|one| one.in_lpcm() && !one.damaged && !one.taken() && one.would_show(code)));
    did_if(Effect::LpcmAll, all.len() > 1 && in_lpcm == all.len() && took == 0);
    did_if(Effect::LpcmLocks, any(&|one| one.in_lpcm() && !one.damaged && one.was_unlocked() && one.after[at::UNLOCKED] == 0));
    did_if(Effect::LpcmAt63, any(&|one| one.in_lpcm() && !one.damaged && one.after[at::COUNTER] == 63));
    match code {
        WRCFGA => {
            did_if(Effect::WrcfgaWhileMuted, any(&|one| one.taken() && one.muted()));
            did_if(Effect::WrcfgaInSnapshot, any(&|one| one.taken() && snapped(one.before) && !one.sends_snap_st()));
            did_if(Effect::WrcfgaSendsSnapSt, any(&|one| one.taken() && !snapped(one.before) && one.sends_snap_st()));
        }
        WRPWMB => {
            did_if(Effect::WrpwmbSentOther, any(&|one| one.taken() && one.sent[2..6] != FIXED));
            did_if(Effect::WrpwmbMakesFf, any(&|one| one.taken() && one.before[at::PWM_B + 2..][..4] != FIXED));
        }
        WRCMCELLT => did_if(Effect::CellThresholdsMasked, any(&|one| one.masked(at::LPCM_CELL_THRESHOLDS))),
        WRCMGPIOT => did_if(Effect::GpioThresholdsMasked, any(&|one| one.masked(at::LPCM_GPIO_THRESHOLDS))),
        CLRCMFLAG => {
            let flags = |such: &dyn Fn(u8, u8) -> bool| any(&|one| one.taken() && such(one.before[CMF0], one.after[CMF0]));
            did_if(Effect::ClrcmflagClearsAll, flags(&|before, after| before != 0 && after == 0));
            did_if(Effect::ClrcmflagClearsSome, flags(&|before, after| before != after && after != 0));
            did_if(Effect::ClrcmflagClearsNone, flags(&|before, after| before == after && after != 0));
            did_if(Effect::ClrcmflagSecondByte, any(&|one| one.taken() && one.sent[1] & one.after[CMF1] != 0));
        }
        WRRR => {
            // At an unlocked monitor, as it would show otherwise.
            let kept_in_lpcm = |one: &Received| one.in_lpcm() && one.would_show(code) && retention(one.after) == retention(one.before);
            did_if(Effect::WrrrInLpcm, any(&|one| !one.damaged && kept_in_lpcm(one)));
            did_if(Effect::WrrrDamagedInLpcm, any(&|one| one.damaged && kept_in_lpcm(one)));
            did_if(Effect::WrrrBesideLpcm, any(&kept_in_lpcm) && any(&|one| one.retained()));
            let right = any(&|one| !one.damaged);
            let stores = any(&|one| one.damaged && one.retained());
            let locked = any(&|one| one.damaged && one.kept_locked());
            did_if(Effect::WrrrStores, any(&|one| !one.damaged && one.retained()));
            did_if(Effect::WrrrLocked, any(&|one| !one.damaged && one.kept_locked()));
            did_if(Effect::WrrrDamagedStores, stores);
            did_if(Effect::WrrrDamagedLocked, locked);
            did_if(Effect::WrrrDamagedBoth, right && stores && locked);
            did_if(Effect::WrrrAllDamaged, !right && took > 1 && took == all.len());
            did_if(Effect::WrrrDamagedAfter63, any(&|one| one.damaged && one.taken() && one.before[at::COUNTER] == 63));
        }
        _ => {}
    }
}
