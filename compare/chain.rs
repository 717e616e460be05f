//! One chain twice: a table that is lent with whole frames, and one whose frames are clocked. The two must stay the same.

use crate::beats::{heartbeat, relay, time_out, wake};
use crate::both::{compare, discharge, frame_into, load, store};
use crate::clocks::Clocks;
use crate::difference::{listed, refused, Difference, Faults};
use crate::host::built;
use crate::inputs::{self, Shape, RECORD};
use crate::lent::{Both, Lent};
use crate::messages::LENGTH;
use crate::outputs::{Question, OUTPUTS};
use crate::run::{expect, Done, Run, Written};
use crate::surface::Function;

pub struct Chain {
    whole: Both<u8>,
    clocked: Both<u8>,
    clocks: Clocks,
    monitors: usize,
}

impl Chain {
    pub fn new(run: &mut Run, monitors: usize) -> Result<Chain, Box<Difference>> {
        let bytes = inputs::table(&mut run.random, monitors);
        Chain::of(run, &bytes)
    }

    /// With no monitor in LPCM.
    pub fn out_of_lpcm(run: &mut Run, monitors: usize) -> Result<Chain, Box<Difference>> {
        let bytes = inputs::table_out_of_lpcm(&mut run.random, monitors);
        Chain::of(run, &bytes)
    }

    /// A chain with this sound table.
    pub fn of(run: &mut Run, bytes: &[u8]) -> Result<Chain, Box<Difference>> {
        let clocks = Clocks::new(run)?;
        Ok(Chain::with(run, bytes, clocks))
    }

    /// The same, but that nobody watches its windows.
    pub fn unwatched(run: &mut Run, bytes: &[u8]) -> Result<Chain, Box<Difference>> {
        let clocks = Clocks::unwatched(run)?;
        Ok(Chain::with(run, bytes, clocks))
    }

    fn with(run: &mut Run, bytes: &[u8], clocks: Clocks) -> Chain {
        let whole = Both::new(&mut run.random, bytes);
        let clocked = Both::new(&mut run.random, bytes);
        Chain { whole, clocked, clocks, monitors: bytes.len() / RECORD }
    }

    pub fn monitors(&self) -> usize {
        self.monitors
    }

    /// Both hold it after each event.
    pub fn table(&self) -> &[u8] {
        self.whole.contents()
    }

    pub fn codes_for(&self, run: &mut Run, position: usize) -> Vec<i16> {
        inputs::codes_for(&mut run.random, &self.whole.contents()[RECORD * (position - 1)..])
    }

    pub fn store(&mut self, run: &mut Run, position: usize, codes: &[i16]) -> Done {
        store(run, &mut self.whole, position, codes)?;
        let answer = store(run, &mut self.clocked, position, codes)?;
        self.same(run, Function::Store, answer, position)
    }

    pub fn compare(&mut self, run: &mut Run, position: usize) -> Done {
        compare(run, &mut self.whole, position)?;
        let answer = compare(run, &mut self.clocked, position)?;
        self.same(run, Function::Compare, answer, position)
    }

    pub fn load(&mut self, run: &mut Run, position: usize, codes: &[i16]) -> Done {
        load(run, &mut self.whole, position, codes)?;
        let answer = load(run, &mut self.clocked, position, codes)?;
        self.same(run, Function::Load, answer, position)
    }

    /// The outputs of the monitor at a position, where the question is not refused, and how many are on.
    pub fn discharge(&mut self, run: &mut Run, question: Question) -> Written {
        let whole = discharge(run, &mut self.whole, question, OUTPUTS)?;
        let clocked = discharge(run, &mut self.clocked, question, OUTPUTS)?;
        self.same(run, Function::Discharge, clocked.0, question.position)?;
        if !refused(whole.0) {
            expect(run, Function::Discharge, (&clocked, &whole), self.table(), question.position)?;
        }
        Ok(whole)
    }

    /// The manager at a position wakes. The message, where one is sent.
    pub fn wake(&mut self, run: &mut Run, position: usize) -> Written {
        let whole = wake(run, &mut self.whole, position, LENGTH)?;
        let clocked = wake(run, &mut self.clocked, position, LENGTH)?;
        self.same_sent(run, Function::Wake, (whole, clocked), position)
    }

    /// A message reaches the monitor at a position.
    pub fn relay(&mut self, run: &mut Run, position: usize, message: &[u8]) -> Written {
        let whole = relay(run, &mut self.whole, position, message, LENGTH)?;
        let clocked = relay(run, &mut self.clocked, position, message, LENGTH)?;
        self.same_sent(run, Function::Relay, (whole, clocked), position)
    }

    pub fn heartbeat(&mut self, run: &mut Run, position: usize) -> Written {
        let whole = heartbeat(run, &mut self.whole, position, LENGTH)?;
        let clocked = heartbeat(run, &mut self.clocked, position, LENGTH)?;
        self.same_sent(run, Function::Heartbeat, (whole, clocked), position)
    }

    /// Where nothing is sent the two buffers stay, each as it was filled.
    fn same_sent(&self, run: &mut Run, function: Function, (whole, clocked): ((u32, Vec<u8>), (u32, Vec<u8>)), position: usize) -> Written {
        self.same(run, function, clocked.0, position)?;
        let sent = |(answer, out): &(u32, Vec<u8>)| (*answer, if answer >> 16 == 0 { Vec::new() } else { out.clone() });
        expect(run, function, (sent(&clocked), sent(&whole)), self.table(), position)?;
        Ok(whole)
    }

    pub fn time_out(&mut self, run: &mut Run, position: usize) -> Done {
        let whole = time_out(run, &mut self.whole, position)?;
        let clocked = time_out(run, &mut self.clocked, position)?;
        expect(run, Function::TimeOut, (clocked, whole), self.table(), position)?;
        self.same(run, Function::TimeOut, clocked, position)
    }

    fn same(&self, run: &mut Run, function: Function, answer: u32, position: usize) -> Done {
        let mut faults = Faults::new();
        self.compare_tables(&mut faults);
        if !faults.none() {
            run.settle(function, answer, faults, || vec![("table", listed(&self.clocked.before)), ("position", position.to_string())])?;
        }
        Ok(())
    }

    fn compare_tables(&self, faults: &mut Faults) {
        let (whole, clocked) = (self.whole.contents(), self.clocked.contents());
        if whole != clocked {
            faults.add(format!("table: whole {}, clocked {}", listed(whole), listed(clocked)));
        }
    }

    /// The frame that the host builds of these values, as the next one.
    pub fn host(&mut self, run: &mut Run, code: u16, values: &[u8]) -> Written {
        let frame = built(run, code, self.monitors, values)?;
        self.frame(run, &frame)
    }

    /// A read, and the six bytes that each monitor shows.
    pub fn read(&mut self, run: &mut Run, code: u16) -> Result<Vec<Vec<u8>>, Box<Difference>> {
        let frame = inputs::frame_of(&mut run.random, code, self.monitors);
        let (_, reply) = self.frame(run, &frame)?;
        Ok(reply.chunks(inputs::REPLY).map(|eight| inputs::data_of(eight).to_vec()).collect())
    }

    /// The answer and, where it is an accepted read's, the reply.
    pub fn frame(&mut self, run: &mut Run, frame: &[u8]) -> Written {
        let mut reply = Both::any(&mut run.random, 8 * self.monitors);
        let answer = frame_into(run, &mut self.whole, frame, &mut reply)?;

        let table = self.clocked.contents().to_vec();
        let lent = Lent::new(&mut run.random, &table);
        let mut answered = Vec::with_capacity(frame.len());
        for &byte in frame {
            answered.push(self.clocks.byte(run, &lent, &table, byte)?);
        }
        let release = self.clocks.release(run, &mut self.clocked)?;

        let mut faults = Faults::new();
        if answer != release {
            faults.add(format!("answer: whole {answer:#010x}, clocked {release:#010x}"));
        }
        self.compare_tables(&mut faults);
        let read = !refused(answer) && inputs::shape(inputs::first_code(frame)) == Some(Shape::Read);
        if read && answered[4..] != *reply.contents() {
            faults.add(format!("reply: whole {}, clocked {}", listed(reply.contents()), listed(&answered[4..])));
        }
        if !faults.none() {
            run.settle(Function::ClockRelease, release, faults, || vec![("table", listed(&table)), ("frame", listed(frame))])?;
        }
        Ok((answer, reply.contents().to_vec()))
    }
}
