//! One measure: what each contestant is lent, and that all of them end with the same bytes and answers.

use crate::inputs::{INPUTS, RECORD};
use crate::rounds::rounds;
use crate::sides::CLOCK_ROOM;

/// What one contestant is lent. The places are the same for all, so that none has a luckier one in the cache.
#[repr(C, align(4096))]
pub struct Room {
    pub table: [u8; 32 * RECORD],
    pub reply: [u8; 512],
    pub state: State,
}

#[repr(C, align(16))]
#[derive(Clone)]
pub struct State(pub [u8; CLOCK_ROOM]);

impl State {
    pub fn new() -> State {
        State([0; CLOCK_ROOM])
    }
}

pub struct Bout {
    pub room: Box<Room>,
    /// Of the table, in bytes.
    pub length: usize,
    /// Of all answers.
    pub sum: u64,
    turns: usize,
}

impl Bout {
    fn new(lent: &[u8]) -> Bout {
        let mut room = Box::new(Room { table: [0; 32 * RECORD], reply: [0xa5; 512], state: State::new() });
        room.table[..lent.len()].copy_from_slice(lent);
        Bout { room, length: lent.len(), sum: 0, turns: 0 }
    }

    /// Which of the inputs is next.
    pub fn turn(&mut self) -> usize {
        self.turns += 1;
        self.turns % INPUTS
    }

    /// All but the state of a clock, which each contestant keeps in its own way.
    fn same(&self, other: &Bout) -> bool {
        (self.sum, self.turns) == (other.sum, other.turns) && self.room.table == other.room.table && self.room.reply == other.room.reply
    }
}

/// Does so many turns. It is called through a pointer, so that it cannot be specialised to what it calls.
pub type Work<'a> = Box<dyn Fn(&mut Bout, usize) + 'a>;

/// The nanoseconds of a turn, by group, contestant and round. Every group has the same contestants, and each of them its own room.
pub fn measure(what: &str, lent: &[u8], groups: Vec<Vec<(&str, Work)>>) -> Vec<Vec<Vec<f64>>> {
    let mut bouts: Vec<Vec<Bout>> = groups.iter().map(|group| group.iter().map(|_| Bout::new(lent)).collect()).collect();
    let agree = |bouts: &[Vec<Bout>], when: &str| {
        for (group, bouts) in groups.iter().zip(bouts) {
            for (contestant, bout) in group.iter().zip(bouts).skip(1) {
                if !bout.same(&bouts[0]) {
                    eprintln!("bench: {what}: {} and {} differ {when}", group[0].0, contestant.0);
                    std::process::exit(1);
                }
            }
        }
    };
    for _ in 0..4 * INPUTS {
        for (group, bouts) in groups.iter().zip(&mut bouts) {
            for ((_, work), bout) in group.iter().zip(bouts) {
                work(bout, 1);
            }
        }
        agree(&bouts, "before timing");
    }
    let times = rounds(groups.len(), groups[0].len(), |g, c, turns| groups[g][c].1(&mut bouts[g][c], turns));
    agree(&bouts, "after timing");
    times
}
