//! Markdown tables of figures.

use crate::rounds::Figure;

const RATIO_GOAL: f64 = 1.1;
/// A hundredth of what eight bits take on the wire at 2 Mbit/s.
const CLOCKED_BYTE_GOAL_NS: f64 = 40.0;

#[derive(Clone, Copy)]
pub enum Goal {
    None,
    Ratio,
    ClockedByte,
}

pub struct Row {
    what: String,
    figures: Vec<Figure>,
    ratio: Option<f64>,
    goal: String,
}

/// The first `sides` figures are of the library and of the plain programs; those after them take no part in the ratio.
pub fn row(what: impl Into<String>, figures: Vec<Figure>, sides: usize, goal: Goal) -> Row {
    let best = figures.iter().take(sides).skip(1).map(|f| f.median).min_by(f64::total_cmp);
    let ratio = best.map(|best| figures[0].median / best);
    let verdict = |met: bool| if met { "met" } else { "missed" };
    let goal = match (goal, ratio) {
        (Goal::Ratio, Some(ratio)) => format!("goal {RATIO_GOAL}: {}", verdict(ratio <= RATIO_GOAL)),
        (Goal::ClockedByte, _) => format!("goal {CLOCKED_BYTE_GOAL_NS} ns: {}", verdict(figures[0].median < CLOCKED_BYTE_GOAL_NS)),
        _ => String::new(),
    };
    Row { what: what.into(), figures, ratio, goal }
}

pub fn ns(value: f64) -> String {
    if value.abs() < 1000.0 {
        format!("{value:.1}")
    } else {
        format!("{value:.0}")
    }
}

/// The median, the smallest, and the width of the middle half.
pub fn cell(figure: &Figure) -> String {
    format!("{} ({}; {:.1}%)", ns(figure.median), ns(figure.least), figure.spread * 100.0)
}

pub fn table(title: &str, names: &[&str], rows: &[Row]) {
    let ratios = rows.iter().any(|r| r.ratio.is_some());
    println!("\n## {title}\n");
    println!("| ns | {} |{}", names.join(" | "), if ratios { " osk / best plain | |" } else { "" });
    println!("|---|{}{}", "---|".repeat(names.len()), if ratios { "---|---|" } else { "" });
    for row in rows {
        let mut cells: Vec<String> = row.figures.iter().map(cell).collect();
        cells.resize(names.len(), String::new());
        if ratios {
            cells.push(row.ratio.map(|r| format!("{r:.2}")).unwrap_or_default());
            cells.push(row.goal.clone());
        }
        println!("| {} | {} |", row.what, cells.join(" | "));
    }
    println!();
}
