//! A frame as our host sent it, and what must come of it once a spike has struck it: said in L7's own words, and for a chain with monitors
//! in LPCM in L8's, beside the comparison.

use crate::both::frame;
use crate::chain::Chain;
use crate::difference::Difference;
use crate::host::built;
use crate::inputs::{
    self, at, data_of, differ, first_code, first_of, frame_length, head, in_lpcm, own_bytes, shape, values_owed, Shape, RECORD, WRRR,
};
use crate::lent::Both;
use crate::run::{expect, Done, Run, Written};
use crate::spike::Spike;
use crate::struck::Struck;
use crate::surface::Function;
use std::fmt::Debug;
use std::ops::Range;

/// The places of the first four bytes along the wire.
pub const COMMAND: Range<usize> = 0..32;

pub struct Sent {
    frame: Vec<u8>,
    /// The table that the frame is for, and what it leaves of that if nothing strikes it.
    table: Vec<u8>,
    unstruck: Vec<u8>,
    in_bulk: bool,
}

impl Sent {
    /// With any values, for any table.
    pub fn new(run: &mut Run, code: u16, monitors: usize) -> Result<Sent, Box<Difference>> {
        let table = inputs::table(&mut run.random, monitors);
        Sent::to(run, code, table)
    }

    /// The same for any table with no monitor in LPCM.
    pub fn out_of_lpcm(run: &mut Run, code: u16, monitors: usize) -> Result<Sent, Box<Difference>> {
        let table = inputs::table_out_of_lpcm(&mut run.random, monitors);
        Sent::to(run, code, table)
    }

    /// The same, but that each monitor shows, and not by its counter alone, that it takes the frame.
    pub fn telling(run: &mut Run, code: u16, monitors: usize) -> Result<Sent, Box<Difference>> {
        loop {
            let sent = Sent::out_of_lpcm(run, code, monitors)?;
            if sent.table.chunks(RECORD).zip(sent.unstruck.chunks(RECORD)).all(|(before, after)| differ(before, after)) {
                return Ok(sent);
            }
        }
    }

    /// For any table with all monitors in LPCM, or all but one.
    pub fn in_lpcm(run: &mut Run, code: u16, monitors: usize, but_for: Option<usize>) -> Result<Sent, Box<Difference>> {
        let table = inputs::table_in_lpcm(&mut run.random, monitors, but_for);
        Sent::to(run, code, table)
    }

    fn to(run: &mut Run, code: u16, table: Vec<u8>) -> Result<Sent, Box<Difference>> {
        let monitors = table.len() / RECORD;
        let values = run.random.bytes(values_owed(code, monitors));
        let frame = built(run, code, monitors, &values)?;
        let (answer, unstruck) = as_a_whole(run, &table, &frame)?;
        let sent = Sent { frame, table, unstruck, in_bulk: false };
        sent.expect(run, (answer & 0xFFFF, sent.all()))?;
        Ok(sent)
    }

    /// To be struck by every spike of a long list: there is no time to watch its windows then, and as one frame for one table it counts for
    /// nothing else.
    pub fn in_bulk(self) -> Sent {
        Sent { in_bulk: true, ..self }
    }

    fn code(&self) -> u16 {
        first_code(&self.frame)
    }

    fn monitors(&self) -> usize {
        self.table.len() / RECORD
    }

    /// The answer where all monitors take it that can: in LPCM none takes a write.
    fn all(&self) -> u32 {
        let write = shape(self.code()) == Some(Shape::Write);
        let takes = |record: &&[u8]| !(write && in_lpcm(record));
        (self.table.chunks(RECORD).filter(takes).count() as u32) << 8
    }

    /// The places of all payloads.
    pub fn payloads(&self) -> Range<usize> {
        COMMAND.end..8 * self.frame.len()
    }

    /// The places of the payload that comes after so many others: first the farthest monitor's.
    pub fn payload(&self, after: usize) -> Range<usize> {
        payload_places(self.code(), after)
    }

    pub fn expect<T: PartialEq + Debug>(&self, run: &mut Run, found_and_expected: (T, T)) -> Done {
        expect(run, Function::Frame, found_and_expected, &self.table, self.monitors())
    }

    /// As it came, by both engines: what they answer, and leave of the table.
    fn send(&self, run: &mut Run, came: &[u8]) -> Written {
        let mut chain = if self.in_bulk { Chain::unwatched(run, &self.table)? } else { Chain::of(run, &self.table)? };
        let (answer, _) = chain.frame(run, came)?;
        Ok((answer, chain.table().to_vec()))
    }

    /// What came of it, as it was expected to, is counted.
    fn count(&self, run: &mut Run, spike: Spike, came: &[u8], (answer, after): &(u32, Vec<u8>), note: impl FnOnce(&Struck, &mut Run)) {
        let [sent, before, unstruck] = [&self.frame, &self.table, &self.unstruck];
        let struck = Struck { width: spike.width(), sent, came, answer: *answer, before, after, unstruck };
        if self.in_bulk {
            struck.note_in_bulk(run);
        } else {
            note(&struck, run);
        }
    }

    /// A spike in the command, or in the payloads, that the check tells.
    pub fn strike(&self, run: &mut Run, spike: Spike) -> Done {
        let came = spike.strike(&self.frame);
        let found = self.send(run, &came)?;
        let in_command = came[..4] != self.frame[..4];
        let expected = if in_command { (3, self.table.clone()) } else { self.by_l7(&came) };
        self.expect(run, (&found, &expected))?;
        self.count(run, spike, &came, &found, |struck, run| if in_command { struck.note_command(run) } else { struck.note_payloads(run) });
        Ok(())
    }

    /// Each monitor whose own bytes were hit keeps its record, but that its unlock byte becomes 0, and each other one does as before. WRRR is
    /// excepted (L3): a monitor that was hit takes it, and stores its six bytes as they came where it was unlocked. In LPCM a monitor does, hit
    /// or not, as if it were hit, also with a WRRR.
    fn by_l7(&self, came: &[u8]) -> (u32, Vec<u8>) {
        let own_bytes = own_bytes(self.code());
        let payloads = self.frame[4..].chunks(own_bytes).zip(came[4..].chunks(own_bytes)).rev();
        let records = self.table.chunks(RECORD).zip(self.unstruck.chunks(RECORD));
        let mut taken = 0;
        let mut table = Vec::with_capacity(self.table.len());
        for ((own, own_came), (before, unstruck)) in payloads.zip(records) {
            let hit = own != own_came;
            let takes = !in_lpcm(before) && (!hit || self.code() == WRRR);
            let mut record = if takes { unstruck.to_vec() } else { before.to_vec() };
            if !takes {
                record[at::UNLOCKED] = 0;
            } else if hit && before[at::UNLOCKED] == 1 {
                record[at::RETENTION..][..6].copy_from_slice(&own_came[..6]);
            }
            taken += u32::from(takes);
            table.extend(record);
        }
        (taken << 8, table)
    }

    /// A spike of eleven places in one payload that its check does not tell: taken, as if the host had sent the values that came.
    pub fn slip(&self, run: &mut Run, spike: Spike) -> Done {
        let came = spike.strike(&self.frame);
        let values: Vec<u8> = came[4..].chunks(own_bytes(self.code())).rev().flat_map(|own| data_of(own).to_vec()).collect();
        let other = built(run, self.code(), self.monitors(), &values)?;
        let expected = as_a_whole(run, &self.table, &other)?;
        self.expect(run, (expected.0, self.all()))?;
        let found = self.send(run, &came)?;
        self.expect(run, (&found, &expected))?;
        self.count(run, spike, &came, &found, |struck, run| struck.note_eleven(run));
        Ok(())
    }

    /// A spike of sixteen places in the command that its check does not tell: another code, with the check that belongs to that.
    pub fn mistake(&self, run: &mut Run, spike: Spike) -> Done {
        let came = spike.strike(&self.frame);
        let code = first_code(&came);
        self.expect(run, (&came[..4], &head(code)[..]))?;
        let found = self.send(run, &came)?;
        let number = first_of(&[(shape(code).is_none(), 4), (frame_length(code, self.monitors()) != came.len(), 5)]);
        self.expect(run, (found.0 & 0xFF, number))?;
        self.count(run, spike, &came, &found, |struck, run| struck.note_sixteen(run));
        Ok(())
    }
}

/// The places of the payload that comes after so many others in a write of this code.
pub fn payload_places(code: u16, after: usize) -> Range<usize> {
    let places = 8 * own_bytes(code);
    let first = COMMAND.end + places * after;
    first..first + places
}

/// What a whole frame answers, and leaves of a table of its own.
fn as_a_whole(run: &mut Run, table: &[u8], bytes: &[u8]) -> Written {
    let mut lent = Both::new(&mut run.random, table);
    let answer = frame(run, &mut lent, bytes, 8 * table.len() / RECORD)?;
    Ok((answer, lent.contents().to_vec()))
}
