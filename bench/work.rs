//! The loops that are timed, one for each function of the surface. Each call is through a pointer that the compiler cannot see behind.

use crate::doors::{Check, Door};
use crate::inputs::RECORD;
use crate::measure::{Bout, State, Work};
use crate::rounds::Figure;
use crate::sides::Side;
use crate::{measure, rounds};

pub fn frame<'a>(side: Side, set: &'a [Vec<u8>]) -> Work<'a> {
    Box::new(move |b: &mut Bout, turns| {
        for _ in 0..turns {
            let frame = &set[b.turn()];
            let (table, reply) = (&mut b.room.table, &mut b.room.reply);
            b.sum += u64::from(unsafe {
                (side.frame)(table.as_mut_ptr(), b.length, frame.as_ptr(), frame.len(), reply.as_mut_ptr(), reply.len())
            });
        }
    })
}

pub fn host_frame<'a>(side: Side, command: u16, n: usize, values: &'a [Vec<u8>]) -> Work<'a> {
    Box::new(move |b: &mut Bout, turns| {
        for _ in 0..turns {
            let values = &values[b.turn()];
            let out = &mut b.room.reply;
            b.sum += u64::from(unsafe { (side.door.host_frame)(command, n, values.as_ptr(), values.len(), out.as_mut_ptr(), out.len()) });
        }
    })
}

pub fn check<'a>(check: Check, payloads: &'a [Vec<u8>], expected: u8) -> Work<'a> {
    Box::new(move |b: &mut Bout, turns| {
        for _ in 0..turns {
            let payload = &payloads[b.turn()];
            b.sum += u64::from(unsafe { check(payload.as_ptr(), payload.len(), expected) });
        }
    })
}

/// At position N, of replies at port A and at port B.
pub fn two_ports<'a>(door: Door, replies: &'a [(Vec<u8>, Vec<u8>)], n: usize, expected: u8) -> Work<'a> {
    Box::new(move |bout: &mut Bout, turns| {
        for _ in 0..turns {
            let (a, b) = &replies[bout.turn()];
            bout.sum += u64::from(unsafe { (door.two_ports)(a.as_ptr(), a.len(), b.as_ptr(), b.len(), n, n, expected) });
        }
    })
}

/// At position N.
pub fn load<'a>(side: Side, codes: &'a [Vec<i16>]) -> Work<'a> {
    Box::new(move |b: &mut Bout, turns| {
        for _ in 0..turns {
            let codes = &codes[b.turn()];
            let table = &mut b.room.table;
            b.sum += u64::from(unsafe { (side.load)(table.as_mut_ptr(), b.length, b.length / RECORD, codes.as_ptr(), codes.len()) });
        }
    })
}

/// At position N, without events, in one phase after another.
pub fn discharge<'a>(side: Side) -> Work<'a> {
    Box::new(move |b: &mut Bout, turns| {
        for _ in 0..turns {
            let phase = (b.turn() % 15) as u8;
            let (table, out) = (&b.room.table, &mut b.room.reply);
            b.sum +=
                u64::from(unsafe { (side.discharge)(table.as_ptr(), b.length, b.length / RECORD, 0, phase, out.as_mut_ptr(), out.len()) });
        }
    })
}

/// Start and so many bytes of a frame, which the next start gives up.
pub fn clocked<'a>(side: Side, set: &'a [Vec<u8>], bytes: usize) -> Work<'a> {
    Box::new(move |b: &mut Bout, turns| {
        for _ in 0..turns {
            let frame = &set[b.turn()][..bytes];
            b.sum += clock_in(side, &mut b.room.state, &b.room.table[..b.length], frame);
        }
    })
}

#[inline(always)]
fn clock_in(side: Side, state: &mut State, table: &[u8], bytes: &[u8]) -> u64 {
    let state = state.0.as_mut_ptr();
    let mut sum = 0;
    unsafe { (side.clock_start)(state) };
    for &byte in bytes {
        sum += u64::from(unsafe { (side.clock_byte)(state, table.as_ptr(), table.len(), byte) });
    }
    sum
}

/// A release, of a state that was clocked to a frame's end before and is copied into place; or the copy alone.
pub fn release<'a>(side: Side, lent: &[u8], set: &[Vec<u8>], release: bool) -> Work<'a> {
    let ready: Vec<State> = set
        .iter()
        .map(|frame| {
            let mut state = State::new();
            clock_in(side, &mut state, lent, frame);
            state
        })
        .collect();
    Box::new(move |b: &mut Bout, turns| {
        for _ in 0..turns {
            let ready = &ready[b.turn()];
            b.room.state.clone_from(ready);
            let (state, table) = (std::hint::black_box(&mut b.room.state), &mut b.room.table);
            if release {
                b.sum += u64::from(unsafe { (side.clock_release)(state.0.as_mut_ptr(), table.as_mut_ptr(), b.length) });
            }
        }
    })
}

/// One group of contestants.
pub fn timed<'a>(what: &str, lent: &[u8], sides: &[Side], work: impl Fn(Side) -> Work<'a>) -> Vec<Figure> {
    figures(&measure::measure(what, lent, vec![sides.iter().map(|&s| (s.name, work(s))).collect()])[0])
}

pub fn figures(times: &[Vec<f64>]) -> Vec<Figure> {
    times.iter().map(|times| rounds::figure(times.iter().copied())).collect()
}

/// What the second group took more than the first.
pub fn differences(first: &[Vec<f64>], second: &[Vec<f64>]) -> Vec<Figure> {
    first.iter().zip(second).map(|(a, b)| rounds::more(a, b)).collect()
}

pub fn each(figures: &[Figure], parts: usize) -> Vec<Figure> {
    let parts = parts as f64;
    figures.iter().map(|f| Figure { median: f.median / parts, least: f.least / parts, spread: f.spread }).collect()
}
