//! "The clocked engine": a window at each monitor, which fills and passes on in a write, and draws in a read. It has room for the payload
//! of the command: eight bytes, and four in a CLRCMFLAG.

use crate::chain::{records, records_mut, sound};
use crate::commands::{received, Command};
use crate::monitor;
use crate::numbers::{packed, Outcome, Refusal};

const NOTHING_SENT: u8 = 0xFF;

/// So many bytes as there is room for; the oldest one moves round, so that no byte has to.
#[derive(Clone, Copy)]
struct Window {
    bytes: [u8; 8],
    room: u8,
    oldest: u8,
    held: u8,
}

impl Window {
    const EMPTY: Window = Window { bytes: [0; 8], room: 8, oldest: 0, held: 0 };

    fn full(bytes: [u8; 8]) -> Window {
        Window { bytes, held: 8, ..Window::EMPTY }
    }

    /// A byte enters. A full window gives its oldest byte for it.
    fn enter(&mut self, byte: u8) -> Option<u8> {
        if self.held < self.room {
            self.bytes[usize::from(self.held)] = byte;
            self.held += 1;
            return None;
        }
        let place = usize::from(self.oldest);
        self.oldest = (self.oldest + 1) % self.room;
        Some(std::mem::replace(&mut self.bytes[place], byte))
    }

    fn oldest_first(&self) -> [u8; 8] {
        let mut bytes = self.bytes;
        bytes[..usize::from(self.room)].rotate_left(usize::from(self.oldest));
        bytes
    }
}

#[derive(Clone)]
pub struct Clock {
    /// How many bytes came; it stops at the largest number, which no frame's length is.
    came: usize,
    head: [u8; 4],
    /// N of the table lent with byte four, where that was sound.
    monitors: Option<usize>,
    /// Why the command is not known: FrameShort until byte four.
    command: Result<Command, Refusal>,
    windows: [Window; 32],
}

impl Default for Clock {
    fn default() -> Clock {
        Clock::new()
    }
}

impl Clock {
    pub const fn new() -> Clock {
        Clock { came: 0, head: [0; 4], monitors: None, command: Err(Refusal::FrameShort), windows: [Window::EMPTY; 32] }
    }

    /// Before a frame, or to give one up at any byte.
    pub fn start(&mut self) {
        *self = Clock::new();
    }

    /// Clocks one byte in. Value: the byte answered.
    pub fn byte(&mut self, table: &[u8], byte: u8) -> u32 {
        let answered = if self.came < 4 {
            self.head[self.came] = byte;
            if self.came == 3 {
                self.byte_four(table);
            }
            NOTHING_SENT
        } else {
            self.later_byte(byte)
        };
        self.came = self.came.saturating_add(1);
        packed(Ok((usize::from(answered), 0)))
    }

    fn byte_four(&mut self, table: &[u8]) {
        self.command = received(self.head);
        self.monitors = sound(table).ok();
        match (self.monitors, self.command) {
            (Some(_), Ok(Command::Read(read))) => {
                for (window, record) in self.windows.iter_mut().zip(records(table)) {
                    *window = Window::full(monitor::reply(record, read));
                }
            }
            (Some(_), Ok(Command::Write(write))) => {
                for window in &mut self.windows {
                    window.room = write.payload_bytes() as u8;
                }
            }
            _ => {}
        }
    }

    fn later_byte(&mut self, byte: u8) -> u8 {
        // Without a sound table at byte four no window takes part, and an unknown command moves none.
        let windows = &mut self.windows[..self.monitors.unwrap_or(0)];
        match self.command {
            Ok(Command::Write(_)) => {
                let mut passed = byte;
                for window in windows {
                    match window.enter(passed) {
                        Some(oldest) => passed = oldest,
                        None => break,
                    }
                }
                NOTHING_SENT
            }
            Ok(Command::Read(_)) => {
                windows.iter_mut().rev().fold(NOTHING_SENT, |drawn, window| window.enter(drawn).unwrap_or(NOTHING_SENT))
            }
            Ok(Command::Bare(_)) | Err(_) => NOTHING_SENT,
        }
    }

    /// The window at a position, oldest byte first. Second value: how many bytes it holds.
    pub fn window(&self, position: usize, out: &mut [u8]) -> u32 {
        packed(self.window_of(position, out))
    }

    fn window_of(&self, position: usize, out: &mut [u8]) -> Outcome {
        if !(1..=self.monitors.unwrap_or(0)).contains(&position) {
            return Err(Refusal::PositionWrong);
        }
        let window = &self.windows[position - 1];
        let held = usize::from(window.held);
        let out = out.get_mut(..held).ok_or(Refusal::NoRoom)?;
        out.copy_from_slice(&window.oldest_first()[..held]);
        Ok((0, held))
    }

    /// Ends the frame; the next one starts empty, also after a refusal. Values as for a whole frame.
    pub fn release(&mut self, table: &mut [u8]) -> u32 {
        let outcome = self.act(table);
        self.start();
        packed(outcome)
    }

    fn act(&self, table: &mut [u8]) -> Outcome {
        let monitors = sound(table)?;
        if self.came >= 4 && self.monitors != Some(monitors) {
            return Err(Refusal::TableNotSound);
        }
        let command = self.command?;
        if self.came - 4 != command.length_after_four(monitors) {
            return Err(Refusal::LengthWrong);
        }
        let records = records_mut(table);
        match command {
            Command::Read(_) => {
                records.iter_mut().for_each(monitor::lock);
                Ok((monitors, 8 * monitors))
            }
            Command::Write(write) => {
                let mut taken = 0;
                for (record, window) in records.iter_mut().zip(&self.windows) {
                    taken += usize::from(monitor::write(record, write, &window.oldest_first()[..write.payload_bytes()]));
                }
                Ok((taken, 0))
            }
            Command::Bare(bare) => {
                records.iter_mut().for_each(|record| monitor::bare(record, bare));
                Ok((monitors, 0))
            }
        }
    }
}
