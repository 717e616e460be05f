//! Section 4: the cost as N grows.

use crate::inputs::{Frames, Random};
use crate::sides::Side;
use crate::table::ns;
use crate::work::{self, each, timed};

const CHAINS: [usize; 6] = [1, 2, 4, 8, 16, 32];
const KINDS: [&str; 4] = ["write (WRCFGB)", "read (RDCVA)", "clocked write, a byte", "clocked read, a byte"];

struct Line {
    a: f64,
    b: f64,
    furthest_ns: f64,
    furthest_part: f64,
}

/// a + b N through the points by least squares, and the largest distances from it: in ns, and as a part of the value.
fn line(points: &[(f64, f64)]) -> Line {
    let count = points.len() as f64;
    let mean_n = points.iter().map(|p| p.0).sum::<f64>() / count;
    let mean_ns = points.iter().map(|p| p.1).sum::<f64>() / count;
    let along = points.iter().map(|p| (p.0 - mean_n).powi(2)).sum::<f64>();
    let b = points.iter().map(|p| (p.0 - mean_n) * (p.1 - mean_ns)).sum::<f64>() / along;
    let a = mean_ns - b * mean_n;
    let away = |p: &(f64, f64)| (p.1 - a - b * p.0).abs();
    Line {
        a,
        b,
        furthest_ns: points.iter().map(away).fold(0.0, f64::max),
        furthest_part: points.iter().map(|p| away(p) / p.1).fold(0.0, f64::max),
    }
}

pub fn growth(sides: &[Side], random: &mut Random) {
    let mut medians: Vec<Vec<Vec<f64>>> = vec![vec![Vec::new(); sides.len()]; KINDS.len()];
    for n in CHAINS {
        let lent = random.live_table(n);
        let frames = Frames::new(&sides[0], n, random);
        let all = 4 + 8 * n;
        let found = [
            timed(KINDS[0], &lent, sides, |s| work::frame(s, &frames.writes)),
            timed(KINDS[1], &lent, sides, |s| work::frame(s, &frames.reads)),
            each(&timed(KINDS[2], &lent, sides, |s| work::clocked(s, &frames.writes, all)), all),
            each(&timed(KINDS[3], &lent, sides, |s| work::clocked(s, &frames.reads, all)), all),
        ];
        for (kind, figures) in found.iter().enumerate() {
            for (side, figure) in figures.iter().enumerate() {
                medians[kind][side].push(figure.median);
            }
        }
    }
    println!("\n## 4. Cost as N grows\n");
    println!("| ns | of | {} | line | furthest from it |", CHAINS.map(|n| format!("N = {n}")).join(" | "));
    println!("|---|---|{}---|---|", "---|".repeat(CHAINS.len()));
    for (kind, by_side) in KINDS.iter().zip(&medians) {
        for (side, medians) in sides.iter().zip(by_side) {
            let points: Vec<(f64, f64)> = CHAINS.iter().map(|&n| n as f64).zip(medians.iter().copied()).collect();
            let l = line(&points);
            let cells: Vec<String> = medians.iter().map(|&m| ns(m)).collect();
            let away = format!("{:.1} ns; {:.0}%", l.furthest_ns, l.furthest_part * 100.0);
            println!("| {kind} | {} | {} | {:.1} + {:.2} N | {away} |", side.name, cells.join(" | "), l.a, l.b);
        }
    }
    println!();
    println!("The line goes through the six medians by least squares. Furthest from it: the largest distance in ns, and the");
    println!("largest as a part of the value it is at. Goal: linear in N.");
}
