//! Before anything is timed: the contestants give the same answers and leave the same bytes, on damaged inputs too. It makes sure that
//! all of them do the same work; compare/ is the test of the library.

use crate::inputs::{any_command, data_size, head, host_frame, seal, turned, Random, COUNTER, RECORD, UNLOCKED, WRITES};
use crate::measure::State;
use crate::sides::{words, Side};

const TABLES: usize = 1500;
const FRAMES_EACH: usize = 8;
pub const CANARY: u8 = 0xa5;

/// Everything that one contestant keeps through the frames of a table.
struct Kept {
    side: Side,
    table: Vec<u8>,
    reply: Vec<u8>,
    state: State,
}

pub fn fail(what: &str, one: &str, other: &str, case: String) -> ! {
    eprintln!("bench: {what}: {one} and {other} differ\n{case}");
    std::process::exit(1);
}

/// Asks all contestants the same and ends the run where one of them differs from the first.
fn same<T: PartialEq + std::fmt::Debug>(what: &str, kept: &mut [Kept], case: &dyn Fn() -> String, mut ask: impl FnMut(&mut Kept) -> T) {
    let first = ask(&mut kept[0]);
    for i in 1..kept.len() {
        let other = ask(&mut kept[i]);
        if other != first {
            fail(what, kept[0].side.name, kept[i].side.name, format!("{}\n{first:02x?}\n{other:02x?}", case()));
        }
    }
}

fn any_frame(side: &Side, n: usize, random: &mut Random) -> Vec<u8> {
    let command = any_command(random);
    let mut frame = host_frame(side, command, n, random);
    let payloads = if WRITES.contains(&command) { n } else { 0 };
    if payloads > 0 && random.below(4) == 0 {
        // Counter bits that our host would not send, with the PEC that is right for them.
        let size = data_size(command);
        let at = 4 + (size + 2) * random.below(payloads);
        frame[at + size] = random.next() as u8;
        seal(&mut frame[at..at + size + 2]);
    }
    match random.below(10) {
        0 => {
            let at = random.below(frame.len());
            frame[at] ^= 1 << random.below(8);
        }
        1 => frame.truncate(random.below(frame.len())),
        2 => {
            let more = 1 + random.below(20);
            frame.extend(random.bytes(more));
        }
        3 => {
            let code = random.below(0x800) as u16;
            frame[..4].copy_from_slice(&head(code));
        }
        _ => {}
    }
    frame
}

fn any_table(n: usize, random: &mut Random) -> Vec<u8> {
    let mut table = random.sound_table(n);
    match random.below(40) {
        0 => table[random.below(n) * RECORD + COUNTER] = 64 + random.below(192) as u8,
        1 => table[random.below(n) * RECORD + UNLOCKED] = 2 + random.below(254) as u8,
        2 => table.truncate(random.below(n * RECORD)),
        _ => {}
    }
    table
}

fn frames(sides: &[Side], random: &mut Random) {
    for _ in 0..TABLES {
        let n = 1 + random.below(32);
        let table = any_table(n, random);
        let mut kept: Vec<Kept> =
            sides.iter().map(|&side| Kept { side, table: table.clone(), reply: vec![CANARY; 300], state: State::new() }).collect();
        for k in &mut kept {
            unsafe { (k.side.clock_start)(k.state.0.as_mut_ptr()) };
        }
        for _ in 0..FRAMES_EACH {
            let frame = any_frame(&sides[0], n, random);
            let room = [8 * n, 8 * n, 300, 8 * n - 1][random.below(4)];
            let before = kept[0].table.clone();
            let case = || format!("N = {n}, room {room}, frame {frame:02x?}\ntable {before:02x?}");
            if random.below(2) == 0 {
                same("frame", &mut kept, &case, |k| {
                    let (table, reply) = (&mut k.table, &mut k.reply);
                    let answer =
                        unsafe { (k.side.frame)(table.as_mut_ptr(), table.len(), frame.as_ptr(), frame.len(), reply.as_mut_ptr(), room) };
                    (answer, table.clone(), reply.clone())
                });
            } else {
                clocked(&mut kept, n, &frame, &case, random);
            }
            let codes = random.codes(16);
            let position = random.below(n + 2);
            same("load", &mut kept, &case, |k| {
                let table = &mut k.table;
                let answer = unsafe { (k.side.load)(table.as_mut_ptr(), table.len(), position, codes.as_ptr(), codes.len()) };
                (answer, table.clone())
            });
            discharge(&mut kept, position, random);
        }
    }
}

/// Which outputs are on, with any events and with phases above 14 among them.
fn discharge(kept: &mut [Kept], position: usize, random: &mut Random) {
    let (events, phase, room) = (random.next() as u8, random.below(18) as u8, [16, 16, 20, 15][random.below(4)]);
    let before = kept[0].table.clone();
    let case = || format!("position {position}, events {events:02x}, phase {phase}, room {room}\ntable {before:02x?}");
    same("discharge", kept, &case, |k| {
        let mut out = [CANARY; 20];
        let table = &k.table;
        let answer = unsafe { (k.side.discharge)(table.as_ptr(), table.len(), position, events, phase, out.as_mut_ptr(), room) };
        (answer, out, table.clone())
    });
}

/// A frame through the clocked engine, with the windows looked at after some of the bytes.
fn clocked(kept: &mut [Kept], n: usize, frame: &[u8], case: &dyn Fn() -> String, random: &mut Random) {
    for &byte in frame {
        same("clocked byte", kept, case, |k| unsafe { (k.side.clock_byte)(k.state.0.as_mut_ptr(), k.table.as_ptr(), k.table.len(), byte) });
        if random.below(8) == 0 {
            for position in 0..n + 2 {
                let room = random.below(12);
                same("window", kept, case, |k| {
                    let mut out = [CANARY; 12];
                    let answer = unsafe { (k.side.clock_window)(k.state.0.as_ptr(), position, out.as_mut_ptr(), room) };
                    (answer, out)
                });
            }
        }
    }
    same("release", kept, case, |k| {
        let answer = unsafe { (k.side.clock_release)(k.state.0.as_mut_ptr(), k.table.as_mut_ptr(), k.table.len()) };
        (answer, k.table.clone())
    });
}

fn check_words(random: &mut Random) {
    for _ in 0..TABLES {
        let length = random.below(70);
        let bytes = random.bytes(length);
        let ways = words::ways();
        let both = |way: &words::Way| {
            let lent = if way.reversed { turned(&bytes) } else { bytes.clone() };
            ((way.command)(&lent), (way.data)(&lent))
        };
        for way in &ways[1..] {
            if both(way) != both(&ways[0]) {
                fail("check words", ways[0].name, way.name, format!("{bytes:02x?}: {:03x?}, {:03x?}", both(&ways[0]), both(way)));
            }
        }
    }
}

/// How many inputs all contestants agreed on. What a door has is in doors_agree.rs.
pub fn agree(sides: &[Side]) -> usize {
    let mut random = Random(6830);
    check_words(&mut random);
    frames(sides, &mut random);
    TABLES + 3 * TABLES * FRAMES_EACH
}
