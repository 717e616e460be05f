//! Lists of events on one chain: the same frames, stores, compares, loads, questions and operations of the heartbeat by four ways (the library
//! whole and clocked, the model whole and clocked), whose tables must be one and the same after each event.

use crate::chain::Chain;
use crate::inputs::{self, at, MOST, RECORD, STATUS_D};
use crate::messages::message;
use crate::outputs::Question;
use crate::run::{Done, Run};
use crate::tally::Situation;

const RDSTATD: u16 = 0x0033;
const WRCFGB: u16 = 0x0024;
const CLRCELL: u16 = 0x0711;

pub fn cases(run: &mut Run) -> Done {
    let any = [run.random.within(5, 31), run.random.within(5, 31)];
    for (monitors, events) in [(1, 800), (2, 800), (3, 600), (4, 600), (any[0], 200), (any[1], 200), (MOST, 200)] {
        long_run(run, monitors, events)?;
    }
    compared_later(run)
}

fn long_run(run: &mut Run, monitors: usize, events: usize) -> Done {
    let mut chain = Chain::new(run, monitors)?;
    for _ in 0..events {
        if run.random.once_in(3) {
            // A position beyond the chain now and then: a refused call leaves both alone.
            let beyond = usize::from(run.random.once_in(9));
            let position = run.random.within(1, monitors + beyond);
            let codes = chain.codes_for(run, position.min(monitors));
            match run.random.below(8) {
                0 => chain.store(run, position, &codes)?,
                1 => chain.compare(run, position)?,
                2 => chain.load(run, position, &codes)?,
                3 => chain.time_out(run, position)?,
                4 => drop(chain.wake(run, position)?),
                5 => {
                    let came = message(&mut run.random);
                    chain.relay(run, position, &came)?;
                }
                6 => drop(chain.heartbeat(run, position)?),
                _ => {
                    let (events, phase) = (inputs::events(&mut run.random), run.random.below(16) as u8);
                    chain.discharge(run, Question { position, events, phase })?;
                }
            }
        } else {
            let frame = inputs::frame(&mut run.random, monitors);
            chain.frame(run, &frame)?;
        }
    }
    Ok(())
}

/// Codes placed first and compared later, as test engineers want it: the compare goes by the cells and thresholds of its own moment.
fn compared_later(run: &mut Run) -> Done {
    for _ in 0..250 {
        let monitors = run.random.pick(&[1, 1, 2, 2, 3, 5]);
        let mut chain = Chain::new(run, monitors)?;
        let position = run.random.within(1, monitors);
        let codes = chain.codes_for(run, position);
        chain.store(run, position, &codes)?;
        let mut at_once = chain.table().to_vec();
        model::compare(&mut at_once, position);

        for _ in 0..run.random.within(1, 3) {
            let code = run.random.pick(&[RDSTATD, CLRCELL, WRCFGB, WRCFGB]);
            let frame = inputs::frame_of(&mut run.random, code, monitors);
            chain.frame(run, &frame)?;
        }
        chain.compare(run, position)?;

        let record = RECORD * (position - 1)..RECORD * position;
        let (at_once, later) = (&at_once[record.clone()], &chain.table()[record]);
        if at_once[STATUS_D] != later[STATUS_D] {
            let cells_stand = at_once[at::CELLS..at::STATUS_C] == later[at::CELLS..at::STATUS_C];
            run.tally.saw(if cells_stand { Situation::CompareByLaterThresholds } else { Situation::CompareAfterClrcell });
        }
        let frame = inputs::frame_of(&mut run.random, RDSTATD, monitors);
        chain.frame(run, &frame)?;
    }
    Ok(())
}
