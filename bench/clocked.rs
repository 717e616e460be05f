//! Section 3: the clocked engine.

use crate::inputs::{Frames, Random, SIZES};
use crate::measure::measure;
use crate::rounds::Figure;
use crate::sides::Side;
use crate::table::{row, table, Goal};
use crate::work::{self, differences, each, figures};

pub fn bytes(sides: &[Side], names: &[&str], random: &mut Random) {
    let mut rows = Vec::new();
    for n in SIZES {
        let lent = random.live_table(n);
        let frames = Frames::new(&sides[0], n, random);
        let goal = if n == 32 { Goal::ClockedByte } else { Goal::None };
        for (kind, set) in [("write", &frames.writes), ("read", &frames.reads)] {
            let what = format!("N = {n}: {kind}");
            let all = 4 + 8 * n;
            let up_to = |bytes| sides.iter().map(|&s| (s.name, work::clocked(s, set, bytes))).collect();
            let times = measure(&what, &lent, vec![up_to(3), up_to(4), up_to(all)]);
            let mut add = |part: &str, figures: Vec<Figure>, goal| rows.push(row(format!("{what}, {part}"), figures, sides.len(), goal));
            add("a byte", each(&figures(&times[2]), all), goal);
            add("a byte past the 4th", each(&differences(&times[1], &times[2]), 8 * n), goal);
            add("the 4th byte", differences(&times[0], &times[1]), goal);
            let with = |release| sides.iter().map(|&s| (s.name, work::release(s, &lent, set, release))).collect();
            let times = measure(&what, &lent, vec![with(false), with(true)]);
            add("release", differences(&times[0], &times[1]), Goal::None);
        }
    }
    table("3. Clocked frames", names, &rows);
    println!("A byte: start and all bytes of a frame, divided by the bytes. The 4th byte looks at the whole table, and in a");
    println!("read it makes all N replies, in every program here. The rows after the first are differences taken within each");
    println!("round: of all bytes and four, of four and three, of a copied state with its release and the copy alone.");
    println!("The smallest is there the difference of the two smallest.");
}
