//! How a time is taken. All contestants of a group do the same number of turns in every round, and each round starts with another one
//! of them, so that all meet the same states of the machine. Groups whose times are subtracted run in the same rounds.
//!
//! The clock is the processor time of this thread: what other programs take of the machine meanwhile does not count.

use std::time::Duration;

pub const ROUNDS: usize = 41;
/// The quickest contestant of a group works at least so long in a round; the others longer.
pub const LEAST_ROUND_MS: f64 = 1.0;

/// Nanoseconds: the median of the rounds, the smallest, and the middle half's width as a part of the median.
#[derive(Clone, Copy)]
pub struct Figure {
    pub median: f64,
    pub least: f64,
    pub spread: f64,
}

pub fn figure(times: impl Iterator<Item = f64>) -> Figure {
    let mut times: Vec<f64> = times.collect();
    times.sort_by(f64::total_cmp);
    let n = times.len();
    let median = times[n / 2];
    Figure { median, least: times[0], spread: (times[n * 3 / 4] - times[n / 4]) / median }
}

/// Linux's timespec on 64-bit machines, and its number for the clock of a thread.
#[repr(C)]
#[derive(Default)]
struct Timespec {
    seconds: i64,
    nanoseconds: i64,
}

const CLOCK_THREAD_CPUTIME_ID: i32 = 3;

unsafe extern "C" {
    fn clock_gettime(clock: i32, time: *mut Timespec) -> i32;
}

fn now() -> Duration {
    let mut time = Timespec::default();
    let status = unsafe { clock_gettime(CLOCK_THREAD_CPUTIME_ID, &mut time) };
    assert!(status == 0, "this system has no clock of a thread's processor time");
    Duration::new(time.seconds as u64, time.nanoseconds as u32)
}

/// A figure for what the second takes more than the first, round by round; the smallest is the difference of the two smallest.
pub fn more(first: &[f64], second: &[f64]) -> Figure {
    let least = |times: &[f64]| times.iter().copied().fold(f64::INFINITY, f64::min);
    Figure { least: least(second) - least(first), ..figure(first.iter().zip(second).map(|(a, b)| b - a)) }
}

fn took(work: impl FnOnce()) -> f64 {
    let from = now();
    work();
    (now() - from).as_nanos() as f64
}

/// The nanoseconds of one turn, by group, contestant and round. `work` is told group, contestant and turns.
pub fn rounds(groups: usize, contestants: usize, mut work: impl FnMut(usize, usize, usize)) -> Vec<Vec<Vec<f64>>> {
    // Every contestant takes part in the trials too: their ends must stay comparable.
    let mut quickest = |g, turns| (0..contestants).map(|c| took(|| work(g, c, turns))).fold(f64::INFINITY, f64::min);
    let turns: Vec<usize> = (0..groups)
        .map(|g| {
            let mut turns = 64;
            loop {
                let ns = quickest(g, turns);
                if ns >= LEAST_ROUND_MS * 1e6 {
                    return turns;
                }
                // A tenth more than the trial says is needed, but no leap from a trial too short to tell.
                turns = (turns as f64 * (1.1 * LEAST_ROUND_MS * 1e6 / ns).clamp(1.1, 16.0)) as usize;
            }
        })
        .collect();
    let mut times = vec![vec![Vec::with_capacity(ROUNDS); contestants]; groups];
    for round in 0..ROUNDS {
        for g in 0..groups {
            for c in (0..contestants).map(|i| (i + round) % contestants) {
                times[g][c].push(took(|| work(g, c, turns[g])) / turns[g] as f64);
            }
        }
    }
    times
}
