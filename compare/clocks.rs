//! One clock of the library and one of the model, driven together. After every byte the windows of all positions are compared, but where
//! nobody watches them.

use crate::difference::{listed, refused, Difference, Faults};
use crate::effects;
use crate::inputs::{at, first_code, CLRCMFLAG, RECORD};
use crate::lent::{Both, Lent};
use crate::run::{Answered, Done, Run};
use crate::surface::{self, Function, CLOCK_STATE};
use crate::tally::{Engine, Situation};

/// Positions that are looked at: each that a chain can have, and two beyond.
const POSITIONS: usize = 34;
/// Rooms that a window's buffer is lent with: none to more than a window holds.
const ROOMS: usize = 11;

pub struct Clocks {
    state: Lent<u8>,
    state_before: Vec<u8>,
    model: model::Clock,
    /// The bytes since the start, and the table lent with byte four: what a difference must show.
    came: Vec<u8>,
    at_four: Vec<u8>,
    /// A buffer of each room for the windows; none where nobody watches them.
    outs: Vec<Both<u8>>,
}

impl Clocks {
    /// Two clocks that stand at a start; the library's was any bytes before.
    pub fn new(run: &mut Run) -> Result<Clocks, Box<Difference>> {
        Clocks::watched_with(run, ROOMS)
    }

    /// For a list of frames that is too long for a look at every window after every byte.
    pub fn unwatched(run: &mut Run) -> Result<Clocks, Box<Difference>> {
        Clocks::watched_with(run, 0)
    }

    fn watched_with(run: &mut Run, rooms: usize) -> Result<Clocks, Box<Difference>> {
        let filled = run.random.bytes(CLOCK_STATE);
        let outs = (0..rooms).map(|room| Both::new(&mut run.random, &vec![0; room])).collect();
        let mut clocks = Clocks {
            state: Lent::new(&mut run.random, &filled),
            state_before: filled,
            model: model::Clock::new(),
            came: Vec::new(),
            at_four: Vec::new(),
            outs,
        };
        clocks.start(run)?;
        Ok(clocks)
    }

    pub fn start(&mut self, run: &mut Run) -> Done {
        self.state_before.copy_from_slice(self.state.part());
        run.begin();
        surface::clock_start(self.state.part_mut());
        self.model.start();
        let mut faults = Faults::new();
        faults.canaries("state", &self.state);
        run.settle(Function::ClockStart, 0, faults, || self.inputs())?;
        self.came.clear();
        self.at_four.clear();
        self.windows(run)
    }

    /// Any bytes as a state, then a start: the surface takes them.
    pub fn start_from_any(&mut self, run: &mut Run) -> Done {
        let filled = run.random.bytes(CLOCK_STATE);
        self.state.part_mut().copy_from_slice(&filled);
        self.start(run)
    }

    /// Gives the byte answered.
    pub fn byte(&mut self, run: &mut Run, table: &Lent<u8>, table_holds: &[u8], byte: u8) -> Result<u8, Box<Difference>> {
        self.state_before.copy_from_slice(self.state.part());
        run.begin();
        let library = surface::clock_byte(self.state.part_mut(), table.part(), byte);
        let model = self.model.byte(table_holds, byte);
        if self.came.len() == 3 {
            self.at_four = table_holds.to_vec();
        }

        let mut faults = Faults::new();
        faults.answer(library, model);
        faults.kept("table", table, table_holds);
        faults.canaries("state", &self.state);
        run.settle(Function::ClockByte, library, faults, || {
            let mut inputs = self.inputs();
            inputs.extend([("table", listed(table_holds)), ("byte", format!("{byte:02X}"))]);
            inputs
        })?;
        self.came.push(byte);
        self.windows(run)?;
        Ok((library >> 8) as u8)
    }

    fn windows(&mut self, run: &mut Run) -> Done {
        if self.outs.is_empty() {
            return Ok(());
        }
        self.state_before.copy_from_slice(self.state.part());
        for position in (0..=POSITIONS).chain([usize::MAX]) {
            let room = run.random.below(ROOMS);
            self.window(run, position, room)?;
        }
        Ok(())
    }

    fn window(&mut self, run: &mut Run, position: usize, room: usize) -> Done {
        let out = &mut self.outs[room];
        out.lend();
        out.model.copy_from_slice(&out.before);
        run.begin();
        let library = surface::clock_window(self.state.part(), position, out.library.part_mut());
        let model = self.model.window(position, &mut out.model);

        let mut faults = Faults::new();
        faults.answer(library, model);
        faults.written("out", out, refused(library));
        faults.kept("state", &self.state, &self.state_before);
        run.settle(Function::ClockWindow, library, faults, || {
            let mut inputs = self.inputs();
            inputs.extend([("position", position.to_string()), ("out", listed(&self.outs[room].before))]);
            inputs
        })?;
        self.note_window(run, position, room, (library >> 16) as usize);
        // Other bytes for the next call, so that what a window leaves does not pass for what it writes.
        for byte in self.outs[room].library.part_mut() {
            *byte = byte.wrapping_mul(5).wrapping_add(0x35);
        }
        Ok(())
    }

    fn note_window(&self, run: &mut Run, position: usize, room: usize, held: usize) {
        if held == 0 {
            return;
        }
        if first_code(&self.came) != CLRCMFLAG {
            run.tally.saw_if(Situation::WindowPartlyFull, held < 8);
            return;
        }
        let came = self.came.len() - 4;
        run.tally.saw_if(Situation::ShortWindowPartlyFull, held < 4);
        run.tally.saw_if(Situation::ShortWindowFull, held == 4 && came > 4);
        run.tally.saw_if(Situation::ShortWindowPassedOn, position > 1);
        run.tally.saw_if(Situation::ShortWindowInTightRoom, held == 4 && room < 8);
    }

    pub fn release(&mut self, run: &mut Run, table: &mut Both<u8>) -> Answered {
        let answer = self.release_alone(run, table)?;
        self.came.clear();
        self.at_four.clear();
        self.windows(run)?;
        Ok(answer)
    }

    /// Releases copies of both clocks: what a release here would have given, while the frame goes on.
    pub fn release_copies(&mut self, run: &mut Run, table: &mut Both<u8>) -> Answered {
        let state = self.state.part().to_vec();
        let model = self.model.clone();
        let answer = self.release_alone(run, table)?;
        self.state.part_mut().copy_from_slice(&state);
        self.model = model;
        Ok(answer)
    }

    fn release_alone(&mut self, run: &mut Run, table: &mut Both<u8>) -> Answered {
        table.lend();
        self.state_before.copy_from_slice(self.state.part());
        run.begin();
        let library = surface::clock_release(self.state.part_mut(), table.library.part_mut());
        let model = self.model.release(&mut table.model);

        let mut faults = Faults::new();
        faults.answer(library, model);
        faults.written("table", table, refused(library));
        faults.canaries("state", &self.state);
        run.settle(Function::ClockRelease, library, faults, || {
            let mut inputs = self.inputs();
            inputs.push(("table", listed(&table.before)));
            inputs
        })?;
        self.note(run, library, table);
        Ok(library)
    }

    fn note(&self, run: &mut Run, answer: u32, table: &Both<u8>) {
        if !refused(answer) {
            return effects::note(run, Engine::Clocked, &self.came, &self.at_four, table);
        }
        effects::note_refused(run, Engine::Clocked, &self.came, &table.before, answer);
        if answer == 1 && sound(&table.before) && self.came.len() >= 4 {
            let unsound = !sound(&self.at_four);
            run.tally.saw(if unsound { Situation::UnsoundAtByteFour } else { Situation::OtherNAtRelease });
        }
    }

    fn inputs(&self) -> Vec<(&'static str, String)> {
        vec![
            ("state", listed(&self.state_before)),
            ("bytes clocked since the start", listed(&self.came)),
            ("table lent with byte four", listed(&self.at_four)),
        ]
    }
}

fn sound(table: &[u8]) -> bool {
    let monitors = table.len() / RECORD;
    let length = (1..=32).contains(&monitors) && table.len() % RECORD == 0;
    length && table.chunks(RECORD).all(|record| record[at::COUNTER] <= 63 && record[at::UNLOCKED] <= 1)
}
