//! The same call to the library and to the model, and everything compared after it: what is done with whole frames and between them.
//! The host, the clocked engine and the heartbeat have files of their own.

use crate::cells;
use crate::difference::{listed, refused, Faults};
use crate::effects;
use crate::lent::{Both, Lent};
use crate::outputs::{self, Question};
use crate::run::{Answered, Run, Written};
use crate::surface::{self, Function};
use crate::tally::Engine;

/// The reply buffer has `room` bytes.
pub fn frame(run: &mut Run, table: &mut Both<u8>, frame: &[u8], room: usize) -> Answered {
    let mut reply = Both::any(&mut run.random, room);
    frame_into(run, table, frame, &mut reply)
}

pub fn frame_into(run: &mut Run, table: &mut Both<u8>, frame: &[u8], reply: &mut Both<u8>) -> Answered {
    table.lend();
    reply.lend();
    let lent_frame = Lent::new(&mut run.random, frame);
    run.begin();
    let library = surface::frame(table.library.part_mut(), lent_frame.part(), reply.library.part_mut());
    let model = model::frame(&mut table.model, frame, &mut reply.model);

    let mut faults = Faults::new();
    faults.answer(library, model);
    faults.written("table", table, refused(library));
    faults.written("reply", reply, refused(library));
    faults.kept("frame", &lent_frame, frame);
    run.settle(Function::Frame, library, faults, || {
        vec![("table", listed(&table.before)), ("frame", listed(frame)), ("reply", listed(&reply.before))]
    })?;
    if refused(library) {
        effects::note_refused(run, Engine::Whole, frame, &table.before, library);
    } else {
        effects::note(run, Engine::Whole, frame, &table.before, table);
    }
    Ok(library)
}

pub fn store(run: &mut Run, table: &mut Both<u8>, position: usize, codes: &[i16]) -> Answered {
    let answer = with_codes(run, Function::Store, (surface::store, model::store), table, position, codes)?;
    if !refused(answer) {
        cells::note_store(run, table, position);
    }
    Ok(answer)
}

pub fn load(run: &mut Run, table: &mut Both<u8>, position: usize, codes: &[i16]) -> Answered {
    let answer = with_codes(run, Function::Load, (surface::load, model::load), table, position, codes)?;
    if !refused(answer) {
        cells::note_load(run, table, position);
    }
    Ok(answer)
}

type WithCodes = fn(&mut [u8], usize, &[i16]) -> u32;

/// A store or a load, by the library and by the model: both are lent the same.
fn with_codes(
    run: &mut Run,
    function: Function,
    (of_library, of_model): (WithCodes, WithCodes),
    table: &mut Both<u8>,
    position: usize,
    codes: &[i16],
) -> Answered {
    table.lend();
    let lent_codes = Lent::new(&mut run.random, codes);
    run.begin();
    let library = of_library(table.library.part_mut(), position, lent_codes.part());
    let model = of_model(&mut table.model, position, codes);

    let mut faults = Faults::new();
    faults.answer(library, model);
    faults.written("table", table, refused(library));
    faults.kept("codes", &lent_codes, codes);
    run.settle(function, library, faults, || {
        vec![("table", listed(&table.before)), ("position", position.to_string()), ("codes", listed(codes))]
    })
}

pub fn compare(run: &mut Run, table: &mut Both<u8>, position: usize) -> Answered {
    let answer = at_position(run, Function::Compare, (surface::compare, model::compare), table, position)?;
    if !refused(answer) {
        cells::note_compare(run, table, position);
    }
    Ok(answer)
}

type AtPosition = fn(&mut [u8], usize) -> u32;

/// A call that is lent a table and a position alone.
pub fn at_position(
    run: &mut Run,
    function: Function,
    (of_library, of_model): (AtPosition, AtPosition),
    table: &mut Both<u8>,
    position: usize,
) -> Answered {
    table.lend();
    run.begin();
    let library = of_library(table.library.part_mut(), position);
    let model = of_model(&mut table.model, position);

    let mut faults = Faults::new();
    faults.answer(library, model);
    faults.written("table", table, refused(library));
    run.settle(function, library, faults, || vec![("table", listed(&table.before)), ("position", position.to_string())])
}

/// The buffer for the outputs has `room` bytes. The table is only read.
pub fn discharge(run: &mut Run, table: &mut Both<u8>, question: Question, room: usize) -> Written {
    table.lend();
    let mut out = Both::any(&mut run.random, room);
    let Question { position, events, phase } = question;
    run.begin();
    let library = surface::discharge(table.library.part(), position, events, phase, out.library.part_mut());
    let model = model::discharge(&table.model, position, events, phase, &mut out.model);

    let mut faults = Faults::new();
    faults.answer(library, model);
    faults.kept("table", &table.library, &table.before);
    faults.written("out", &out, refused(library));
    run.settle(Function::Discharge, library, faults, || {
        vec![("table", listed(&table.before)), ("question", format!("{question:?}")), ("out", listed(&out.before))]
    })?;
    if refused(library) {
        outputs::note_refusal(run, library, &table.before, question, room);
    } else {
        outputs::note_outputs(run, &table.before, question, out.contents());
    }
    Ok((library, out.contents().to_vec()))
}
