//! Section 1c: what a small controller links, in bytes and in the time of a check. The bytes are counted by tools/door-contents.

use crate::check_words::{payloads, COUNTER_SENT};
use crate::doors::TIMED;
use crate::inputs::Random;
use crate::measure::measure;
use crate::sides::Side;
use crate::table::cell;
use crate::work::{self, figures};

/// What bench/run had counted for each of the timed doors, and for the same by gcc -Os.
const FILES: [(&str, Option<&str>); TIMED.len()] =
    [("liboskorbine.a", None), ("libdoor.a", None), ("plain_door.o", Some("plain_door_os.o")), ("small_door.o", Some("small_door_os.o"))];
const PLAIN_C: usize = 2;

/// Code and constants.
type Bytes = (usize, usize);
/// As in FILES.
pub type Counted = [(Bytes, Option<Bytes>); TIMED.len()];

/// From lines 'FILE code constants unwinding'. It ends the run where one is missing.
pub fn counted(lines: &str) -> Counted {
    let bytes = |file| lines.lines().find_map(|line| of(file, line)).unwrap_or_else(|| missing(file));
    FILES.map(|(file, by_os)| (bytes(file), by_os.map(bytes)))
}

fn of(file: &str, line: &str) -> Option<Bytes> {
    let words: Vec<&str> = line.split_whitespace().collect();
    let [path, code, constants, _] = words[..] else { return None };
    (path.rsplit('/').next() == Some(file)).then_some((code.parse().ok()?, constants.parse().ok()?))
}

fn missing(file: &str) -> ! {
    eprintln!("bench: nobody counted the bytes of {file}");
    std::process::exit(1)
}

pub fn controller(counted: &Counted, sides: &[Side]) {
    let payloads = payloads(&sides[0], &mut Random(4));
    let contestants = TIMED.iter().map(|door| (door.name, work::check(door.check, &payloads, COUNTER_SENT)));
    let check = figures(&measure("check by a door", &[], vec![contestants.collect()])[0]);
    println!("\n## 1c. The small controller\n");
    println!("| | code | constants | both by gcc -Os | check of a payload, ns | to plain C with its tables |");
    println!("|---|---|---|---|---|---|");
    for ((door, figure), ((code, constants), by_os)) in TIMED.iter().zip(&check).zip(counted) {
        let by_os = by_os.map(|(code, constants)| format!("{code}, {constants}")).unwrap_or_default();
        let ratio = figure.median / check[PLAIN_C].median;
        println!("| {} | {code} | {constants} | {by_os} | {} | {ratio:.2} |", door.name, cell(figure));
    }
    println!();
    println!("Bytes of the sections that a program loads, by their flags: code can be run, constants can only be read. What unwinds is");
    println!("counted apart, and not here. liboskorbine.a has all twenty functions, and each of the others the seven of a door; plain C");
    println!("is bench/plain_door.c, which was timed as gcc -O2 makes it.");
}
