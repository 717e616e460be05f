//! Before anything is timed: the doors give the same answers and leave the same bytes, on damaged inputs too, and every answer that the
//! header gives a door came up. Several refusals may hold at once, so that their order is seen.

use crate::agree::{fail, CANARY};
use crate::doors::Door;
use crate::inputs::{any_command, frame_length, head, seal, turned, values_for, Random};
use crate::sides::words;
use std::collections::BTreeMap;
use std::fmt::Debug;

const EACH: usize = 3000;
const AT_LEAST: usize = 20;
const CMHB: u16 = 0x43;
const MOST_COUNT: u8 = 63;
const NO_CHECK: &str = "check, no counter expected";
const NO_PORTS: &str = "two ports, no counter expected";

/// What each function can answer: the number of a refusal, or 100 hex times the first value. What may not be expected is a row of its own.
const ANSWERS: [(&str, &[u32]); 7] = [
    ("host frame", &[4, 7, 8, 6, 0]),
    ("check", &[5, 0x100, 0x200, 0x300]),
    (NO_CHECK, &[7]),
    ("two ports", &[7, 5, 10, 0x100, 0x200, 0x300, 0x400]),
    (NO_PORTS, &[7]),
    ("verdict", &[5, 0x100, 0x200, 0x300, 0x400]),
    ("summary", &[8, 6, 0, 0x100]),
];

struct Doors<'a> {
    doors: &'a [Door],
    random: Random,
    /// How often each answer came, by function.
    came: BTreeMap<(&'a str, u32), usize>,
}

impl<'a> Doors<'a> {
    /// Asks all doors the same and ends the run where one of them differs from the first, which it gives back.
    fn same<T: PartialEq + Debug>(&self, what: &str, case: &dyn Debug, ask: impl Fn(&Door) -> T) -> T {
        let first = ask(&self.doors[0]);
        for door in &self.doors[1..] {
            let other = ask(door);
            if other != first {
                fail(what, self.doors[0].name, door.name, format!("{case:02x?}\n{first:02x?}\n{other:02x?}"));
            }
        }
        first
    }

    fn count(&mut self, what: &'a str, answer: u32) {
        *self.came.entry((what, answer & 0xffff)).or_default() += 1;
    }

    fn one_in(&mut self, of: usize) -> bool {
        self.random.below(of) == 0
    }

    /// N or a position: mostly one of a chain, and some that only look like one where their upper bits are lost.
    fn any_number(&mut self, end: usize) -> usize {
        let number = self.random.below(end);
        if self.one_in(20) {
            number | 1 << [8, 16, 32, 63][self.random.below(4)]
        } else {
            number
        }
    }

    fn any_length(&mut self, right: usize) -> usize {
        if self.one_in(10) {
            self.random.below(right + 9)
        } else {
            right
        }
    }

    fn strike(&mut self, bytes: &mut [u8]) {
        bytes[self.random.below(bytes.len())] ^= 1 << self.random.below(8);
    }

    /// Right, or not in one bit, or any bytes.
    fn any_payload(&mut self) -> Vec<u8> {
        let mut payload = self.random.bytes(8);
        if !self.one_in(4) {
            seal(&mut payload);
            if self.one_in(3) {
                self.strike(&mut payload);
            }
        }
        payload
    }

    /// One of the counters that came, or another one; and what only looks like one where its upper bits are lost.
    fn any_expected(&mut self, came: &[u8]) -> u8 {
        let counter = if came.is_empty() || self.one_in(3) { self.random.below(64) as u8 } else { came[self.random.below(came.len())] };
        if self.one_in(8) {
            counter | [0x40, 0x80, 0xc0][self.random.below(3)]
        } else {
            counter
        }
    }

    fn host_frame(&mut self) {
        let random = &mut self.random;
        let command = [any_command(random), any_command(random), random.below(0x800) as u16, random.next() as u16][random.below(4)];
        let n = self.any_number(35);
        let near = n % 64;
        let count = self.any_length(values_for(command, near));
        let values = self.random.bytes(count);
        let length = frame_length(command, near);
        let room = [length, 300, length - 1][self.random.below(3)];
        let (answer, _) = self.same("host frame", &(command, n, &values, room), |door| {
            let mut out = [CANARY; 300];
            let answer = unsafe { (door.host_frame)(command, n, values.as_ptr(), values.len(), out.as_mut_ptr(), room) };
            (answer, out)
        });
        self.count("host frame", answer);
    }

    fn check(&mut self) {
        let mut payload = self.any_payload();
        let length = self.any_length(8);
        payload.resize(length, 0);
        let came: Vec<u8> = payload.get(6).map(|&byte| byte >> 2).into_iter().collect();
        let expected = self.any_expected(&came);
        let answer = self.same("check", &(&payload, expected), |door| unsafe { (door.check)(payload.as_ptr(), length, expected) });
        self.count(if expected > MOST_COUNT { NO_CHECK } else { "check" }, answer);
        let by_shifts = unsafe { words::plain_check_by_shifts(payload.as_ptr(), length, expected) };
        if by_shifts != answer {
            fail("check", self.doors[0].name, "C by shifts", format!("{payload:02x?}, {expected}"));
        }
        if let Some(crcutil) = words::crcutil() {
            if unsafe { (crcutil.check)(turned(&payload).as_ptr(), length, expected.reverse_bits()) } != answer {
                fail("check", self.doors[0].name, "crcutil", format!("{payload:02x?}, {expected}"));
            }
        }
    }

    fn two_ports(&mut self) {
        let n = self.any_number(35);
        let near = n % 64;
        let position = if self.one_in(10) { self.any_number(40) } else { 1 + self.random.below(near.max(1)) };
        let mut reply = || {
            let mut reply: Vec<u8> = (0..near).flat_map(|_| self.any_payload()).collect();
            reply.resize(self.any_length(8 * near), 0);
            reply
        };
        let (a, b) = (reply(), reply());
        let at_port = |reply: &[u8], place: usize| reply.get(place.wrapping_mul(8).wrapping_add(6)).map(|&byte| byte >> 2);
        let came = [at_port(&a, position.wrapping_sub(1)), at_port(&b, near.wrapping_sub(position))];
        let expected = self.any_expected(&came.into_iter().flatten().collect::<Vec<u8>>());
        let answer = self.same("two ports", &(&a, &b, n, position, expected), |door| unsafe {
            (door.two_ports)(a.as_ptr(), a.len(), b.as_ptr(), b.len(), n, position, expected)
        });
        self.count(if expected > MOST_COUNT { NO_PORTS } else { "two ports" }, answer);
    }

    /// Near what passes: a right message of another count, of flags, of another command, with counter bits, and one with a bit turned over.
    fn verdict(&mut self) {
        let random = &mut self.random;
        let command = if random.below(8) == 0 { any_command(random) } else { CMHB };
        let count = [0x42, 0x42, 0x41, random.next() as u8][random.below(4)];
        let flags = [0, 0, 1 << random.below(8), random.next() as u8][random.below(4)];
        let counter = [0, random.next() as u8][random.below(2)];
        let mut message = head(command).to_vec();
        message.extend([count, flags, counter, 0]);
        seal(&mut message[4..]);
        if self.one_in(4) {
            self.strike(&mut message);
        }
        let length = if self.one_in(20) { 0 } else { self.any_length(8) };
        message.resize(length, 0);
        let late = [0, 0, 0, 1, 0x80, self.random.next() as u8][self.random.below(6)];
        let answer = self.same("verdict", &(&message, late), |door| unsafe { (door.verdict)(message.as_ptr(), length, late) });
        self.count("verdict", answer);
    }

    fn summary(&mut self) {
        let random = &mut self.random;
        let length = [0, 1, 2, 512, 513, random.below(600), 1 + random.below(512)][random.below(7)];
        let mut codes: Vec<i16> = match random.below(6) {
            0 => vec![i16::MIN; length],
            1 => vec![[i16::MAX, -i16::MAX][random.below(2)]; length],
            _ => random.codes(length),
        };
        for _ in 0..random.below(length + 1) {
            codes[random.below(length)] = i16::MIN;
        }
        let room = [3, 3, 5, random.below(5)][random.below(4)];
        let (answer, _) = self.same("summary", &(&codes, room), |door| {
            let mut out = [f64::from_bits(u64::from_ne_bytes([CANARY; 8])); 5];
            let answer = unsafe { (door.summary)(codes.as_ptr(), length, out.as_mut_ptr(), room) };
            (answer, out.map(f64::to_bits))
        });
        self.count("summary", answer);
    }

    /// Of every code. Which NaN it is that says a cell is cleared is left open.
    fn readings(&self) {
        for code in i16::MIN..=i16::MAX {
            self.same("microvolts", &code, |door| unsafe { (door.microvolts)(code) });
            self.same("volts", &code, |door| {
                let volts = unsafe { (door.volts)(code) };
                (!volts.is_nan()).then(|| volts.to_bits())
            });
        }
    }
}

/// How many inputs all doors agreed on, beside every code.
pub fn agree(doors: &[Door]) -> usize {
    let mut all = Doors { doors, random: Random(4), came: BTreeMap::new() };
    for _ in 0..EACH {
        all.host_frame();
        all.check();
        all.two_ports();
        all.verdict();
        all.summary();
    }
    all.readings();
    for (what, answers) in ANSWERS {
        for &answer in answers {
            let came = all.came.get(&(what, answer)).copied().unwrap_or(0);
            if came < AT_LEAST {
                eprintln!("bench: {what}: the answer {answer:03x} came {came} times, and {AT_LEAST} are wanted");
                std::process::exit(1);
            }
        }
    }
    all.came.values().sum()
}
