//! The four operations of the heartbeat (L8), the same call to the library and to the model, and everything compared after it.

use crate::both::at_position;
use crate::difference::{listed, refused, Faults};
use crate::lent::{Both, Lent};
use crate::run::{Answered, Run, Written};
use crate::surface::{self, Function};
use crate::turns;

/// The buffer for the message has `room` bytes.
pub fn wake(run: &mut Run, table: &mut Both<u8>, position: usize, room: usize) -> Written {
    let out = Both::any(&mut run.random, room);
    let calls = (surface::wake as Sends, model::wake as Sends);
    sends(run, Function::Wake, calls, table, position, out)
}

/// As for a wake.
pub fn heartbeat(run: &mut Run, table: &mut Both<u8>, position: usize, room: usize) -> Written {
    let out = Both::any(&mut run.random, room);
    let calls = (surface::heartbeat as Sends, model::heartbeat as Sends);
    sends(run, Function::Heartbeat, calls, table, position, out)
}

type Sends = fn(&mut [u8], usize, &mut [u8]) -> u32;

fn sends(run: &mut Run, function: Function, calls: (Sends, Sends), table: &mut Both<u8>, position: usize, mut out: Both<u8>) -> Written {
    table.lend();
    run.begin();
    let library = calls.0(table.library.part_mut(), position, out.library.part_mut());
    let model = calls.1(&mut table.model, position, &mut out.model);
    let mut faults = Faults::new();
    faults.answer(library, model);
    settle(run, Operation { function, position, message: &[], table, out: &out }, library, faults)
}

/// A message of any length; the buffer as for a wake.
pub fn relay(run: &mut Run, table: &mut Both<u8>, position: usize, message: &[u8], room: usize) -> Written {
    let mut out = Both::any(&mut run.random, room);
    let lent = Lent::new(&mut run.random, message);
    table.lend();
    run.begin();
    let library = surface::relay(table.library.part_mut(), position, lent.part(), out.library.part_mut());
    let model = model::relay(&mut table.model, position, message, &mut out.model);
    let mut faults = Faults::new();
    faults.answer(library, model);
    faults.kept("message", &lent, message);
    settle(run, Operation { function: Function::Relay, position, message, table, out: &out }, library, faults)
}

/// One that hands out a message, as it was asked for and as it came out.
pub struct Operation<'a> {
    pub function: Function,
    pub position: usize,
    /// Of a relay alone.
    pub message: &'a [u8],
    pub table: &'a Both<u8>,
    pub out: &'a Both<u8>,
}

fn settle(run: &mut Run, operation: Operation, library: u32, mut faults: Faults) -> Written {
    let Operation { function, position, message, table, out } = operation;
    faults.written("table", table, refused(library));
    // Where nothing is sent the buffer stays, as at a refusal.
    faults.written("out", out, refused(library) || library == 0);
    run.settle(function, library, faults, || {
        vec![
            ("table", listed(&table.before)),
            ("position", position.to_string()),
            ("message", listed(message)),
            ("out", listed(&out.before)),
        ]
    })?;
    turns::note(run, &operation, library);
    Ok((library, out.contents().to_vec()))
}

pub fn time_out(run: &mut Run, table: &mut Both<u8>, position: usize) -> Answered {
    let answer = at_position(run, Function::TimeOut, (surface::time_out, model::time_out), table, position)?;
    turns::note_time_out(run, table, position, answer);
    Ok(answer)
}
