//! The library timed against plain programs, in one process and one run, with the same inputs in the same order for all.
//! It ends with 0 also where a goal is missed, and with 1 where two contestants differ in a result.

mod agree;
mod check_words;
mod clocked;
mod doors;
mod doors_agree;
mod frames;
mod growth;
mod inputs;
mod measure;
mod rounds;
mod sides;
mod small;
mod table;
mod work;

use inputs::INPUTS;
use rounds::{LEAST_ROUND_MS, ROUNDS};

fn main() {
    let lines = std::env::args().nth(1).and_then(|file| std::fs::read_to_string(file).ok());
    let counted = small::counted(&lines.unwrap_or_default());
    let sides = sides::all();
    let names: Vec<&str> = sides.iter().map(|s| s.name).collect();
    let agreed = agree::agree(&sides) + doors_agree::agree(&doors::all());
    println!("- Results: {agreed} inputs of a fixed seed, damaged ones among them, had the same answers and bytes from all, and so had");
    println!("  every code of a cell, and each measure, before it and after it.");
    println!("- Method: {ROUNDS} rounds of at least {LEAST_ROUND_MS} ms for each contestant; they take turns within a round, and each");
    println!("  round starts with another one. {INPUTS} inputs in rotation. The clock is the thread's processor time.");
    println!("- Buffers were not cleared between calls: tables and replies persist, so counters move on. A clock is started for each");
    println!("  frame, and copied for a release.");
    println!("- A cell is the median in ns (the smallest; the width of the middle half, as a part of the median). Ratios are of");
    println!("  medians, of osk to the best of the plain programs: {}.", names[1..].join(", "));
    let mut random = inputs::Random(2024);
    check_words::through_the_surface(&sides, &mut random);
    check_words::bare(&mut random);
    small::controller(&counted, &sides);
    frames::whole(&sides, &names, &mut random);
    clocked::bytes(&sides, &names, &mut random);
    growth::growth(&sides, &mut random);
}
