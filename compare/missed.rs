//! What our host sees of a frame that not every monitor took: said in L5's own words, and for monitors in LPCM in L8's, beside the
//! comparison. The frame came by both engines, with one outcome, so it counts for both.

use crate::chain::Chain;
use crate::host::{check, two_ports, Ports};
use crate::inputs::{at, first_code, in_lpcm, needs_check, own_bytes, shape, Shape, MOST_COUNT, RECORD, REPLY, RSTCC, WRRR};
use crate::run::{expect, Done, Run};
use crate::spike::{Spike, DATA_PLACES};
use crate::surface::{Function, COUNTER_DIFFERS, DAMAGED, PORT_A, PORT_A_DIFFERS, PORT_B, PORT_B_DIFFERS, RIGHT};
use crate::tally::{Engine, OfCommand, Situation};

const BOTH_DAMAGED: u32 = 10;

/// A write or a bare command as our host sent it, and as it came; and the read after it.
pub struct Missed<'a> {
    pub frame: &'a [u8],
    pub came: &'a [u8],
    pub read: u16,
}

/// One monitor: its counter before the frame, and the one that the host expects after it.
struct Monitor {
    old: u8,
    expected: u8,
    hit: bool,
    in_lpcm: bool,
    missed: bool,
}

impl Monitor {
    /// The counter by which it shows that it missed the frame: RSTCC at a counter of 0 leaves what is expected.
    fn shows(&self) -> Option<u8> {
        (self.missed && self.old != self.expected).then_some(self.old)
    }
}

/// The counter after a write or a bare command that is taken.
pub fn next(code: u16, counter: u8) -> u8 {
    match counter {
        _ if code == RSTCC => 0,
        MOST_COUNT => 1,
        _ => counter + 1,
    }
}

impl Missed<'_> {
    fn code(&self) -> u16 {
        first_code(self.frame)
    }

    fn write(&self) -> bool {
        shape(self.code()) == Some(Shape::Write)
    }

    fn refused(&self) -> bool {
        self.frame[..4] != self.came[..4]
    }

    /// Whether its own payload was hit, nearest monitor first, whose payload is the last.
    fn hits(&self, monitors: usize) -> Vec<bool> {
        if !self.write() {
            return vec![false; monitors];
        }
        let own_bytes = own_bytes(self.code());
        self.frame[4..].chunks(own_bytes).zip(self.came[4..].chunks(own_bytes)).rev().map(|(sent, came)| sent != came).collect()
    }

    /// A monitor misses a write that is hit at its own payload, but for WRRR, and any write in LPCM; and all miss a frame that is refused.
    fn monitors(&self, table: &[u8]) -> Vec<Monitor> {
        let code = self.code();
        let records = table.chunks(RECORD).zip(self.hits(table.len() / RECORD));
        records
            .map(|(record, hit)| {
                let in_lpcm = in_lpcm(record);
                let missed = self.refused() || self.write() && (in_lpcm || hit && code != WRRR);
                Monitor { old: record[at::COUNTER], expected: next(code, record[at::COUNTER]), hit, in_lpcm, missed }
            })
            .collect()
    }

    /// The frame comes to the chain, which is then read. It is read before as well, but for WRRR, which would then find all monitors locked.
    pub fn by(&self, run: &mut Run, chain: &mut Chain) -> Done {
        let all = self.monitors(chain.table());
        let earlier = if self.code() == WRRR { None } else { Some(chain.host(run, self.read, &[])?.1) };
        let (answer, _) = chain.frame(run, self.came)?;
        let taken = all.iter().filter(|one| !one.missed).count() as u32;
        expect(run, Function::Frame, (answer, if self.refused() { 3 } else { taken << 8 }), chain.table(), all.len())?;
        let (_, reply) = chain.host(run, self.read, &[])?;
        for (one, position) in all.iter().zip(1..) {
            expect_part(run, chain, &reply, position, one.expected, one.shows())?;
            if let Some(earlier) = &earlier {
                one.expect_beside_earlier(run, chain, [earlier, &reply], position)?;
            }
        }
        self.note(run, &all);
        Ok(())
    }

    fn of_command_if(&self, run: &mut Run, code: u16, what: OfCommand, came_up: bool) {
        for engine in Engine::BOTH {
            run.tally.of_command_if(engine, code, what, came_up);
        }
    }

    fn note(&self, run: &mut Run, all: &[Monitor]) {
        let code = self.code();
        let any = |such: &dyn Fn(&Monitor) -> bool| all.iter().any(such);
        let shown = all.iter().filter(|one| one.shows().is_some()).count();
        let several = all.len() > 1;
        self.of_command_if(run, code, OfCommand::MissedWhole, self.refused() && shown > 0);
        self.of_command_if(run, self.read, OfCommand::ShowedMissed, shown > 0);
        if self.refused() {
            let rstcc = code == RSTCC;
            run.tally.saw_if(Situation::MissedRstcc, rstcc && shown > 0);
            run.tally.saw_if(Situation::MissedRstccAt0, rstcc && shown < all.len());
            run.tally.saw_if(Situation::MissedRefused, self.write() && several && shown == all.len());
            run.tally.saw_if(Situation::MissedBare, !self.write() && !rstcc && several && shown == all.len());
            return;
        }
        if !self.write() {
            return;
        }
        let awake_hit = |one: &Monitor| one.hit && !one.in_lpcm;
        let asleep_not_hit = |one: &Monitor| one.in_lpcm && !one.hit;
        let took = |one: &Monitor| !one.missed;
        self.of_command_if(run, code, OfCommand::MissedInLpcm, any(&asleep_not_hit));
        let tally = &mut run.tally;
        if code == WRRR {
            tally.saw_if(Situation::WrrrNotSeen, any(&awake_hit));
            tally.saw_if(Situation::WrrrInLpcmSeen, any(&|one| one.in_lpcm) && any(&awake_hit));
            return;
        }
        tally.saw_if(Situation::MissedInLpcm, any(&asleep_not_hit) && any(&took));
        tally.saw_if(Situation::MissedAllInLpcm, several && all.iter().all(|one| one.in_lpcm));
        tally.saw_if(Situation::MissedHitAndInLpcm, any(&awake_hit) && any(&asleep_not_hit) && any(&took));
        tally.saw_if(Situation::MissedAt63, any(&|one| awake_hit(one) && one.old == MOST_COUNT));
        tally.saw_if(Situation::MissedAt0, any(&|one| awake_hit(one) && one.old == 0));
        tally.saw_if(Situation::MissedOtherCounters, any(&awake_hit) && any(&took) && any(&|one| one.old != all[0].old));
        // The theorem's chain: one counter, none in LPCM.
        if !any(&|one| one.in_lpcm || one.old != all[0].old) {
            tally.saw_if(Situation::MissedByNone, several && shown == 0);
            tally.saw_if(Situation::MissedByOnly, !several && shown == 1);
            tally.saw_if(Situation::MissedByOne, several && shown == 1);
            tally.saw_if(Situation::MissedByNearest, several && shown == 1 && all[0].missed);
            tally.saw_if(Situation::MissedByFarthest, several && shown == 1 && all[all.len() - 1].missed);
            tally.saw_if(Situation::MissedBySeveral, shown > 1 && shown < all.len());
            tally.saw_if(Situation::MissedByAll, several && shown == all.len());
            tally.saw_if(Situation::MissedOverBorder, shown == 2 && self.width() <= DATA_PLACES);
        }
        self.of_command_if(run, code, OfCommand::Missed, needs_check(code) && any(&awake_hit));
    }

    /// From the first flipped place to the last.
    fn width(&self) -> usize {
        let flipped = |place: &usize| (self.frame[place / 8] ^ self.came[place / 8]) & 0x80 >> (place % 8) != 0;
        let places = 0..8 * self.frame.len();
        match (places.clone().find(flipped), places.rev().find(flipped)) {
            (Some(first), Some(last)) => last - first + 1,
            _ => 0,
        }
    }
}

impl Monitor {
    /// One port was read before the frame and the other after it: the later reply is chosen where the frame was taken, and else port A's.
    fn expect_beside_earlier(&self, run: &mut Run, chain: &Chain, [earlier, later]: [&[u8]; 2], position: usize) -> Done {
        let Monitor { old, expected, .. } = *self;
        let [in_a, in_b] = places(chain.monitors(), position);
        // RSTCC at a counter of 0 changes none.
        let same = old == expected;
        let a_was_earlier = match (same, self.missed) {
            (true, _) => answer(PORT_A, in_a),
            (false, true) => answer(PORT_A_DIFFERS, in_a),
            (false, false) => answer(PORT_B, in_b),
        };
        let b_was_earlier = answer(if self.shows().is_some() { PORT_A_DIFFERS } else { PORT_A }, in_a);
        for (a, b, wanted) in [(earlier, later, a_was_earlier), (later, earlier, b_was_earlier)] {
            let found = two_ports(run, &Ports { a, b: &from_b(b), monitors: chain.monitors(), position, expected })?;
            expect(run, Function::TwoPorts, (found, wanted), chain.table(), position)?;
        }
        run.tally.saw_if(Situation::EarlierAtA, !same && !self.missed);
        run.tally.saw_if(Situation::EarlierMissed, !same && self.missed);
        Ok(())
    }
}

/// Where the monitor's part begins in port A's reply and in port B's.
fn places(monitors: usize, position: usize) -> [usize; 2] {
    [REPLY * (position - 1), REPLY * (monitors - position)]
}

fn answer(first: u32, second: usize) -> u32 {
    (second as u32) << 16 | first << 8
}

/// Port A's reply as port B has it.
fn from_b(reply: &[u8]) -> Vec<u8> {
    reply.chunks(REPLY).rev().flatten().copied().collect()
}

/// The part of the monitor at a position, by itself and from both ports: right, or it shows this old counter. With its part of one port's
/// reply struck, the other port's is chosen, and with both there is none.
pub fn expect_part(run: &mut Run, chain: &Chain, reply: &[u8], position: usize, expected: u8, old: Option<u8>) -> Done {
    let monitors = chain.monitors();
    let [in_a, in_b] = places(monitors, position);
    let verdict = old.map_or(answer(RIGHT, 0), |old| answer(COUNTER_DIFFERS, old.into()));
    let [port_a, port_b] = if old.is_some() { [PORT_A_DIFFERS, PORT_B_DIFFERS] } else { [PORT_A, PORT_B] };

    let at_b = from_b(reply);
    let struck =
        |run: &mut Run, reply: &[u8], first: usize| Spike::any(&mut run.random, 8 * first..8 * (first + REPLY), DATA_PLACES).strike(reply);
    let (struck_a, struck_b) = (struck(run, reply, in_a), struck(run, &at_b, in_b));
    for (eight, wanted) in [(&reply[in_a..][..REPLY], verdict), (&struck_a[in_a..][..REPLY], answer(DAMAGED, 0))] {
        let found = check(run, eight, expected)?;
        expect(run, Function::Check, (found, wanted), chain.table(), position)?;
    }
    for (a, b, wanted) in [
        (reply, &at_b, answer(port_a, in_a)),
        (reply, &struck_b, answer(port_a, in_a)),
        (&struck_a, &at_b, answer(port_b, in_b)),
        (&struck_a, &struck_b, BOTH_DAMAGED),
    ] {
        let found = two_ports(run, &Ports { a, b, monitors, position, expected })?;
        expect(run, Function::TwoPorts, (found, wanted), chain.table(), position)?;
    }
    Ok(())
}
