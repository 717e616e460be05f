//! Which outputs are on, and by which row of Table 27: every event and phase, every duty, every refusal, and questions between frames.

use crate::both::discharge;
use crate::chain::Chain;
use crate::inputs::{self, first_of, MOST, RECORD};
use crate::lent::Both;
use crate::outputs::{Question, LAST_PHASE, OUTPUTS};
use crate::run::{expect, Done, Run};
use crate::surface::Function;
use crate::tally::Situation;
use model::{event, MUTE_ST, OUTPUT_ON};

const MUTE: u16 = 0x0028;
const UNMUTE: u16 = 0x0029;
const WRCFGA: u16 = 0x0001;
const WRCFGB: u16 = 0x0024;
const WRPWMA: u16 = 0x0020;
const WRPWMB: u16 = 0x0021;

pub fn cases(run: &mut Run) -> Done {
    every_event_and_phase(run)?;
    every_duty(run)?;
    every_dcc(run)?;
    each_position(run)?;
    every_room(run)?;
    every_refusal(run)?;
    by_the_hosts_writes(run)?;
    between_frames(run)?;
    muted_and_unmuted(run)
}

/// Asked of a table of its own.
fn ask(run: &mut Run, bytes: &[u8], question: Question, room: usize) -> Done {
    let mut table = Both::new(&mut run.random, bytes);
    discharge(run, &mut table, question, room)?;
    Ok(())
}

fn any_phase(run: &mut Run) -> u8 {
    run.random.below(usize::from(LAST_PHASE) + 1) as u8
}

/// All 65,536, so that bits above the events and phases above 14 are among them.
fn every_event_and_phase(run: &mut Run) -> Done {
    for (events, phase) in (0..=255).flat_map(|events| (0..=255).map(move |phase| (events, phase))) {
        let monitors = run.random.pick(&[1, 1, 2, 3]);
        let bytes = inputs::discharging(&mut run.random, monitors, phase);
        let position = run.random.within(1, monitors);
        ask(run, &bytes, Question { position, events, phase }, OUTPUTS)?;
    }
    Ok(())
}

/// One record, with what the question may find but for a mute and the DCC bits.
fn by_pwm(run: &mut Run, phase: u8) -> Vec<u8> {
    let mut record = inputs::discharging(&mut run.random, 1, phase);
    inputs::set_mute(&mut record, false);
    inputs::set_dcc(&mut record, 0);
    record
}

/// Each duty of each cell: over the fifteen phases it is on for exactly so many, the first ones.
fn every_duty(run: &mut Run) -> Done {
    for (cell, duty) in (1..=OUTPUTS).flat_map(|cell| (0..=15).map(move |duty| (cell, duty))) {
        for phase in 0..=LAST_PHASE {
            let mut record = by_pwm(run, phase);
            inputs::set_duty(&mut record, cell, duty);
            let events = run.random.byte() & 0xF0;
            let mut table = Both::new(&mut run.random, &record);
            let (_, out) = discharge(run, &mut table, Question { position: 1, events, phase }, OUTPUTS)?;
            expect(run, Function::Discharge, (out[cell - 1], if phase < duty { 0x81 } else { 0x01 }), &record, 1)?;
        }
    }
    Ok(())
}

/// The DCC bit of each cell alone, and of all others, with each set of events: row 4 goes by the cell's own bit.
fn every_dcc(run: &mut Run) -> Done {
    for (cell, events) in (0..OUTPUTS).flat_map(|cell| (0..16).map(move |events| (cell, events))) {
        for dcc in [1 << cell, !(1 << cell)] {
            let phase = any_phase(run);
            let mut record = by_pwm(run, phase);
            inputs::set_dcc(&mut record, dcc);
            let mut table = Both::new(&mut run.random, &record);
            let (answer, out) = discharge(run, &mut table, Question { position: 1, events, phase }, OUTPUTS)?;
            let by_row_4 = (0..OUTPUTS).fold(0, |bits, cell| bits | u16::from(out[cell] == 0x84) << cell);
            let held_off = events & (event::SHUTDOWN | event::WRCFGB) != 0;
            expect(run, Function::Discharge, (by_row_4, if held_off { 0 } else { dcc }), &record, 1)?;
            let on = out.iter().filter(|&&output| output & OUTPUT_ON != 0).count() as u32;
            expect(run, Function::Discharge, (answer, on << 8), &record, 1)?;
        }
    }
    Ok(())
}

/// Each position of each N, and those that it does not have.
fn each_position(run: &mut Run) -> Done {
    for monitors in 1..=MOST {
        for position in 0..=monitors + 2 {
            let phase = any_phase(run);
            let bytes = inputs::discharging(&mut run.random, monitors, phase);
            let events = inputs::events(&mut run.random);
            ask(run, &bytes, Question { position, events, phase }, OUTPUTS)?;
            let position = inputs::wrong_position(&mut run.random, monitors);
            ask(run, &bytes, Question { position, events, phase }, OUTPUTS)?;
        }
    }
    Ok(())
}

/// No byte to more than twice the outputs: what lies past the sixteenth stays.
fn every_room(run: &mut Run) -> Done {
    for (room, _) in (0..=40).flat_map(|room| (0..25).map(move |turn| (room, turn))) {
        let monitors = run.random.within(1, 4);
        let phase = any_phase(run);
        let bytes = inputs::discharging(&mut run.random, monitors, phase);
        let position = run.random.within(1, monitors);
        let events = inputs::events(&mut run.random);
        ask(run, &bytes, Question { position, events, phase }, room)?;
    }
    Ok(())
}

/// Each set of reasons, so that each stands alone and beside every other: the first in the paper's order is given.
fn every_refusal(run: &mut Run) -> Done {
    for reasons in 0..16 {
        let [unsound, position_wrong, phase_wrong, no_room] = [0, 1, 2, 3].map(|reason| reasons >> reason & 1 == 1);
        let expected = first_of(&[(unsound, 1), (position_wrong, 7), (phase_wrong, 7), (no_room, 6)]);
        for _ in 0..100 {
            let monitors = run.random.within(1, MOST);
            let right = any_phase(run);
            let phase = if phase_wrong { run.random.within(15, 255) as u8 } else { right };
            let bytes = if unsound { inputs::unsound(&mut run.random) } else { inputs::discharging(&mut run.random, monitors, phase) };
            let right = run.random.within(1, monitors);
            let position = if position_wrong { inputs::wrong_position(&mut run.random, monitors) } else { right };
            let room = if no_room { run.random.below(OUTPUTS) } else { run.random.within(OUTPUTS, 40) };
            let events = inputs::events(&mut run.random);
            let mut table = Both::new(&mut run.random, &bytes);
            let (answer, _) = discharge(run, &mut table, Question { position, events, phase }, room)?;
            expect(run, Function::Discharge, (answer & 0xFF, expected), &bytes, position)?;
        }
    }
    Ok(())
}

/// Duties as the host writes them, with no DCC bit and no mute: each monitor's outputs go by its own values.
fn by_the_hosts_writes(run: &mut Run) -> Done {
    for monitors in [1, 2, 3, 5, 8, MOST] {
        let mut chain = Chain::out_of_lpcm(run, monitors)?;
        let [duties_a, duties_b] = [(); 2].map(|()| run.random.bytes(6 * monitors));
        chain.host(run, WRPWMA, &duties_a)?;
        chain.host(run, WRCFGB, &vec![0; 6 * monitors])?;
        chain.host(run, WRPWMB, &duties_b)?;
        chain.host(run, UNMUTE, &[])?;
        for position in 1..=monitors {
            let phase = any_phase(run);
            let (_, out) = chain.discharge(run, Question { position, events: 0, phase })?;
            let own = 6 * (position - 1)..6 * position;
            let pairs = [&duties_a[own.clone()], &duties_b[own][..2]].concat();
            let duties = pairs.iter().flat_map(|pair| [pair & 0x0F, pair >> 4]);
            let expected: Vec<u8> = duties.map(|duty| if phase < duty { 0x81 } else { 0x01 }).collect();
            expect(run, Function::Discharge, (out, expected), chain.table(), position)?;
        }
    }
    Ok(())
}

/// A question, a write that may change its answer, and the question again.
fn between_frames(run: &mut Run) -> Done {
    let writes = [(WRPWMA, Situation::AnswerByWrpwma), (WRPWMB, Situation::AnswerByWrpwmb), (WRCFGB, Situation::AnswerByWrcfgb)];
    for (turn, (code, situation)) in (0..300).flat_map(|turn| writes.map(|write| (turn, write))) {
        let monitors = run.random.pick(&[1, 1, 2, 3]);
        let mut question = any_question(run, monitors);
        if turn % 2 == 0 {
            question.events = 0;
        }
        let bytes = inputs::discharging(&mut run.random, monitors, question.phase);
        let mut chain = Chain::of(run, &bytes)?;
        let before = chain.discharge(run, question)?;
        let frame = inputs::frame_of(&mut run.random, code, monitors);
        chain.frame(run, &frame)?;
        let after = chain.discharge(run, question)?;
        run.tally.saw_if(situation, after != before);
    }
    Ok(())
}

/// At a position of the chain and in a phase of the PWM.
fn any_question(run: &mut Run, monitors: usize) -> Question {
    let position = run.random.within(1, monitors);
    let events = inputs::events(&mut run.random);
    Question { position, events, phase: any_phase(run) }
}

/// MUTE, the question, UNMUTE, the question: all off by row 6 but for a shutdown, also after a WRCFGA, and then as before the mute.
fn muted_and_unmuted(run: &mut Run) -> Done {
    for turn in 0..200 {
        let monitors = run.random.pick(&[1, 1, 2, 3]);
        let question = any_question(run, monitors);
        let bytes = inputs::discharging(&mut run.random, monitors, question.phase);
        let mut chain = Chain::of(run, &bytes)?;
        let before = chain.discharge(run, question)?;

        chain.host(run, MUTE, &[])?;
        if turn % 4 == 0 {
            let values = run.random.bytes(6 * monitors);
            chain.host(run, WRCFGA, &values)?;
        }
        let row = if question.events & event::SHUTDOWN != 0 { 0x07 } else { 0x06 };
        let muted = chain.discharge(run, question)?;
        expect(run, Function::Discharge, (muted, (0, vec![row; OUTPUTS])), chain.table(), question.position)?;

        chain.host(run, UNMUTE, &[])?;
        let after = chain.discharge(run, question)?;
        let was_muted = bytes[RECORD * (question.position - 1) + 5] & MUTE_ST != 0;
        if !was_muted {
            run.tally.saw_if(Situation::MutedAndUnmuted, before.0 > 0);
            expect(run, Function::Discharge, (after, before), chain.table(), question.position)?;
        }
    }
    Ok(())
}
