//! Missed commands (L5): a frame of our host that not every monitor takes, and the read after it, against the counters that the host then
//! expects. By both engines.

use crate::chain::Chain;
use crate::difference::Difference;
use crate::host::built;
use crate::inputs::{self, at, bare_commands, needs_check, reads, set_lpcm, values_owed, writes, MOST, MOST_COUNT, RECORD, RSTCC};
use crate::missed::{expect_part, next, Missed};
use crate::random::Random;
use crate::run::{Done, Run};
use crate::sent::{payload_places, COMMAND};
use crate::spike::{Spike, COMMAND_PLACES, DATA_PLACES};
use crate::tally::Situation;

pub fn cases(run: &mut Run) -> Done {
    every_write_and_read(run)?;
    every_n(run)?;
    every_counter(run)?;
    in_lpcm_or_not(run)?;
    every_command_refused(run)?;
    in_a_row(run)?;
    in_any_chain(run)
}

/// What is hit of a write.
#[derive(Clone, Copy)]
enum Hit {
    None,
    Nearest,
    Farthest,
    AnyOne,
    Several,
    All,
    /// Two, by one spike.
    Border,
    Command,
}

impl Hit {
    const ALL: [Hit; 8] = [Hit::None, Hit::Nearest, Hit::Farthest, Hit::AnyOne, Hit::Several, Hit::All, Hit::Border, Hit::Command];
    /// In the payloads.
    const DATA: [Hit; 4] = [Hit::AnyOne, Hit::Several, Hit::All, Hit::Border];

    /// The frame as it comes. Each payload that is hit has a spike of its own, but over a border.
    fn strike(self, random: &mut Random, code: u16, monitors: usize, frame: &[u8]) -> Vec<u8> {
        let any = random.below(monitors);
        let hit: Vec<usize> = match self {
            Hit::None => vec![],
            Hit::Nearest => vec![monitors - 1],
            Hit::Farthest => vec![0],
            Hit::AnyOne => vec![any],
            Hit::Several => (0..monitors).filter(|&after| after == any || random.once_in(2)).collect(),
            Hit::All => (0..monitors).collect(),
            Hit::Border if monitors > 1 => {
                let width = random.within(2, DATA_PLACES);
                let border = payload_places(code, random.within(1, monitors - 1)).start;
                return Spike::over(random, border, width).strike(frame);
            }
            Hit::Border => vec![any],
            Hit::Command => return Spike::any(random, COMMAND, COMMAND_PLACES).strike(frame),
        };
        hit.into_iter().fold(frame.to_vec(), |came, after| Spike::any(random, payload_places(code, after), DATA_PLACES).strike(&came))
    }
}

/// A frame of our host with any values, as it comes to a chain with this table; and a read after it.
fn missed(run: &mut Run, table: &[u8], code: u16, hit: Hit, read: u16) -> Done {
    let mut chain = Chain::unwatched(run, table)?;
    let monitors = chain.monitors();
    let frame = any_frame(run, code, monitors)?;
    let came = hit.strike(&mut run.random, code, monitors, &frame);
    Missed { frame: &frame, came: &came, read }.by(run, &mut chain)
}

fn any_frame(run: &mut Run, code: u16, monitors: usize) -> Result<Vec<u8>, Box<Difference>> {
    let values = run.random.bytes(values_owed(code, monitors));
    built(run, code, monitors, &values)
}

fn any_of(random: &mut Random, codes: impl Iterator<Item = u16>) -> u16 {
    let all: Vec<u16> = codes.collect();
    random.pick(&all)
}

fn any_read(random: &mut Random) -> u16 {
    any_of(random, reads())
}

fn any_write(random: &mut Random) -> u16 {
    any_of(random, writes())
}

/// A table of monitors that all have this counter, none of them in LPCM.
fn of_one_counter(random: &mut Random, monitors: usize, counter: u8) -> Vec<u8> {
    let mut bytes = inputs::table_out_of_lpcm(random, monitors);
    for record in bytes.chunks_mut(RECORD) {
        record[at::COUNTER] = counter;
    }
    bytes
}

/// Often at the end of the count.
fn any_counter(random: &mut Random) -> u8 {
    let any = random.below(64) as u8;
    random.pick(&[0, MOST_COUNT - 1, MOST_COUNT, any, any])
}

/// L5's own words: all N monitors with one counter and none in LPCM, and any read after any write.
fn every_write_and_read(run: &mut Run) -> Done {
    for ((code, read), hit) in
        writes().flat_map(|code| reads().map(move |read| (code, read))).flat_map(|both| Hit::DATA.map(|hit| (both, hit)))
    {
        let monitors = run.random.pick(&[1, 2, 2, 3, 5]);
        let counter = any_counter(&mut run.random);
        let table = of_one_counter(&mut run.random, monitors, counter);
        missed(run, &table, code, hit, read)?;
    }
    Ok(())
}

fn every_n(run: &mut Run) -> Done {
    for (monitors, hit) in (1..=MOST).flat_map(|monitors| Hit::ALL.map(|hit| (monitors, hit))) {
        let random = &mut run.random;
        let (code, read, counter) = (any_write(random), any_read(random), any_counter(random));
        let table = of_one_counter(random, monitors, counter);
        missed(run, &table, code, hit, read)?;
    }
    Ok(())
}

/// Each counter as the old one.
fn every_counter(run: &mut Run) -> Done {
    for (counter, hit) in (0..=MOST_COUNT).flat_map(|counter| [Hit::None, Hit::AnyOne].map(|hit| (counter, hit))) {
        let random = &mut run.random;
        let (code, read, monitors) = (any_write(random), any_read(random), random.within(1, 3));
        let table = of_one_counter(random, monitors, counter);
        missed(run, &table, code, hit, read)?;
    }
    Ok(())
}

/// Each write where some are in LPCM, or all, hit or not. WRRR more often, since only LPCM has it missed.
fn in_lpcm_or_not(run: &mut Run) -> Done {
    let turns = |code: u16| (0..if needs_check(code) { 64 } else { 320 }).map(move |turn| (code, turn));
    for (code, turn) in writes().flat_map(turns) {
        let random = &mut run.random;
        let monitors = random.within(1, 4);
        let counter = any_counter(random);
        let mut table = of_one_counter(random, monitors, counter);
        for record in table.chunks_mut(RECORD) {
            let asleep = turn % 4 == 0 || random.once_in(2);
            set_lpcm(record, asleep);
        }
        let (read, hit) = (any_read(random), random.pick(&[Hit::None, Hit::None, Hit::AnyOne, Hit::Several]));
        missed(run, &table, code, hit, read)?;
    }
    Ok(())
}

/// Each write and each bare command, struck in its first four bytes: none takes it.
fn every_command_refused(run: &mut Run) -> Done {
    let turns = |code: u16| (0..if code == RSTCC { 240 } else { 60 }).map(move |turn| (code, turn));
    for (code, _) in writes().chain(bare_commands()).flat_map(turns) {
        let random = &mut run.random;
        let monitors = random.within(1, 3);
        let (read, counter) = (any_read(random), any_counter(random));
        let table = of_one_counter(random, monitors, counter);
        missed(run, &table, code, Hit::Command, read)?;
    }
    Ok(())
}

/// The nearest of two monitors misses every write, and the other one none. The count comes round after 63: then it does not show.
fn in_a_row(run: &mut Run) -> Done {
    for _ in 0..50 {
        let counter = run.random.within(1, 63) as u8;
        let table = of_one_counter(&mut run.random, 2, counter);
        let mut chain = Chain::unwatched(run, &table)?;
        let mut expected = counter;
        for missed in 1..=63 {
            let code = any_of(&mut run.random, writes().filter(|code| needs_check(*code)));
            let frame = any_frame(run, code, 2)?;
            let came = Hit::Nearest.strike(&mut run.random, code, 2, &frame);
            chain.frame(run, &came)?;
            expected = next(code, expected);
            let read = any_read(&mut run.random);
            let (_, reply) = chain.host(run, read, &[])?;
            let old = (missed < 63).then_some(counter);
            expect_part(run, &chain, &reply, 1, expected, old)?;
            expect_part(run, &chain, &reply, 2, expected, None)?;
        }
        run.tally.saw_if(Situation::MissedAllRound, expected == counter);
    }
    Ok(())
}

/// Any counters, LPCM or not, any frame that is counted, any hits.
fn in_any_chain(run: &mut Run) -> Done {
    for _ in 0..600 {
        let random = &mut run.random;
        let monitors = random.pick(&[1, 2, 3, 4, 6, 12]);
        let table = inputs::table(random, monitors);
        let (code, hit) = if random.once_in(6) {
            (any_of(random, bare_commands()), random.pick(&[Hit::None, Hit::Command]))
        } else {
            (any_write(random), random.pick(&Hit::ALL))
        };
        let read = any_read(random);
        missed(run, &table, code, hit, read)?;
    }
    Ok(())
}
