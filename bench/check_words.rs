//! Section 1: the check words, through the surface and bare.

use crate::inputs::{self, Random, INPUTS, MUTE, WRCFGB};
use crate::measure::{measure, Bout, Work};
use crate::sides::{words, Side};
use crate::table::{row, table, Goal};
use crate::work::{self, each, figures, timed};

fn reversed(set: &[Vec<u8>]) -> Vec<Vec<u8>> {
    set.iter().map(|bytes| inputs::turned(bytes)).collect()
}

/// The counter that our host seals a payload with.
pub const COUNTER_SENT: u8 = 0;
/// Another one.
const NEXT: u8 = 1;
/// The chain that two ports are timed at.
const N: usize = 32;

/// As our host seals them, all right.
pub fn payloads(side: &Side, random: &mut Random) -> Vec<Vec<u8>> {
    (0..INPUTS).map(|_| inputs::host_frame(side, WRCFGB, 1, random)[4..].to_vec()).collect()
}

pub fn through_the_surface(sides: &[Side], random: &mut Random) {
    let plain = sides.len();
    let lent = random.sound_table(1);
    let payloads = payloads(&sides[0], random);
    let turned = reversed(&payloads);
    let checks = |expected| {
        let mut checks: Vec<(&str, Work)> = sides.iter().map(|&s| (s.name, work::check(s.door.check, &payloads, expected))).collect();
        checks.push(("C by shifts", work::check(words::plain_check_by_shifts, &payloads, expected)));
        checks
    };
    let mut contestants = checks(COUNTER_SENT);
    if let Some(crcutil) = words::crcutil() {
        contestants.push(("crcutil", work::check(crcutil.check, &turned, COUNTER_SENT.reverse_bits())));
    }
    let names: Vec<&str> = contestants.iter().map(|c| c.0).collect();
    let check = figures(&measure("check", &lent, vec![contestants])[0]);
    let differs = figures(&measure("check, another counter", &lent, vec![checks(NEXT)])[0]);
    let mut rows = vec![
        row("check of a payload", check.clone(), plain + 1, Goal::Ratio),
        row("- of it, each of the 6 data bytes", each(&check, 6), plain + 1, Goal::None),
        row("check, the counter differs", differs, plain + 1, Goal::Ratio),
    ];
    for (what, counters) in [("A right", [NEXT; 2]), ("A differs, B right", [COUNTER_SENT, NEXT]), ("both differ", [COUNTER_SENT; 2])] {
        // Its own inputs, so that those of the rows below are the same as without it.
        let mut random = Random(5);
        let replies: Vec<(Vec<u8>, Vec<u8>)> =
            (0..INPUTS).map(|_| (inputs::reply(N, counters[0], &mut random), inputs::reply(N, counters[1], &mut random))).collect();
        let found = timed(what, &lent, sides, |s| work::two_ports(s.door, &replies, N, NEXT));
        rows.push(row(format!("two ports, N = {N}: {what}"), found, plain, Goal::Ratio));
    }
    let none = vec![Vec::new(); INPUTS];
    let bare = timed("host frame, MUTE", &lent, sides, |s| work::host_frame(s, MUTE, 32, &none));
    rows.push(row("host frame, MUTE", bare, plain, Goal::Ratio));
    let values: Vec<Vec<u8>> = (0..INPUTS).map(|_| random.bytes(6 * 32)).collect();
    let write = timed("host frame, WRCFGB", &lent, sides, |s| work::host_frame(s, WRCFGB, 32, &values));
    rows.push(row("host frame, WRCFGB, N = 32", write.clone(), plain, Goal::Ratio));
    rows.push(row("- of it, each of the 32 payloads", each(&write, 32), plain, Goal::None));
    rows.push(row("- of it, each of the 192 data bytes", each(&write, 192), plain, Goal::None));
    table("1. Check words through the surface", &names, &rows);
    println!("The surface has no bare remainder. A check is one data PEC, over 6 bytes and 6 bits; two ports are one of A's");
    println!("eight bytes, and where A's are not right with the counter expected one of B's; MUTE's frame is one command PEC,");
    println!("over 2 bytes; WRCFGB's is 32 data PECs and one command PEC.");
    println!("C by shifts is the library's own way to the check, in plain C; the other plain programs go through a table.");
    match check.get(plain + 1) {
        Some(crcutil) => println!("Check of a payload, osk / crcutil: {:.2}.", check[0].median / crcutil.median),
        None => println!("There is no crcutil here: the package libcrcutil-dev was not found."),
    }
}

/// The ways to a remainder, without the library: so that the plain column can be judged too.
pub fn bare(random: &mut Random) {
    fn word<'a>(word: fn(&[u8]) -> u16, set: &'a [Vec<u8>]) -> Work<'a> {
        Box::new(move |b: &mut Bout, turns| {
            for _ in 0..turns {
                b.sum += u64::from(word(&set[b.turn()]));
            }
        })
    }
    let ways = words::ways();
    let mut rows = Vec::new();
    for (what, length) in [("command PEC", 2), ("data PEC", 6), ("data PEC", 256)] {
        let set: Vec<Vec<u8>> = (0..INPUTS).map(|_| random.bytes(length)).collect();
        let turned = reversed(&set);
        let contestants = ways.iter().map(|way| {
            let call = if what == "command PEC" { way.command } else { way.data };
            (way.name, word(call, if way.reversed { &turned } else { &set }))
        });
        let found = figures(&measure(what, &[], vec![contestants.collect()])[0]);
        rows.push(row(format!("{what} over {length} bytes"), found, 0, Goal::None));
    }
    table("1b. Bare check words, beside the library", &ways.iter().map(|way| way.name).collect::<Vec<&str>>(), &rows);
    println!("For scale: a call that does nothing takes {:.1} ns in the same loop.", empty_call());
}

fn empty_call() -> f64 {
    #[inline(never)]
    unsafe extern "C" fn nothing(_: *const u8, _: usize, _: u8) -> u32 {
        0
    }
    let set = vec![vec![0; 8]; INPUTS];
    let work = work::check(std::hint::black_box(nothing), &set, 0);
    figures(&measure("nothing", &[], vec![vec![("nothing", work)]])[0])[0].median
}
