//! The host's functions and the readings, the same call to the library and to the model, and everything compared after it.

use crate::difference::{listed, refused, Difference, Faults};
use crate::inputs::{carried, shape, values_owed, Part, Shape, CMHB, MOST, MOST_COUNT};
use crate::lent::{Both, Lent};
use crate::messages::{Message, PASS_COUNT};
use crate::run::{Answered, Done, Run, Written};
use crate::surface::{self, Function};
use crate::tally::OfHost;

/// The buffer to build in has `room` bytes.
pub fn host_frame(run: &mut Run, command: u16, monitors: usize, values: &[u8], room: usize) -> Written {
    let lent_values = Lent::new(&mut run.random, values);
    let mut out = Both::any(&mut run.random, room);
    run.begin();
    let library = surface::host_frame(command, monitors, lent_values.part(), out.library.part_mut());
    let model = model::host_frame(command, monitors, values, &mut out.model);

    let mut faults = Faults::new();
    faults.answer(library, model);
    faults.written("out", &out, refused(library));
    faults.kept("values", &lent_values, values);
    run.settle(Function::HostFrame, library, faults, || {
        vec![
            ("command", format!("{command:04X}")),
            ("monitors", monitors.to_string()),
            ("values", listed(values)),
            ("out", listed(&out.before)),
        ]
    })?;
    note_host_frame(run, command, monitors, values.len(), library & 0xFF);
    Ok((library, out.contents().to_vec()))
}

fn note_host_frame(run: &mut Run, command: u16, monitors: usize, values: usize, number: u32) {
    run.tally.host(command, number as usize);
    run.tally.of_host_if(OfHost::Cmhb, number == 4 && command == CMHB);
    if number == 8 && shape(command) == Some(Shape::Write) {
        let owed = values_owed(command, monitors);
        run.tally.of_host_if(OfHost::SixForTwo, values == 6 * monitors && owed == 2 * monitors);
        run.tally.of_host_if(OfHost::TwoForSix, values == 2 * monitors && owed == 6 * monitors);
    }
}

/// The frame that the host builds of these values, in more room than it needs.
pub fn built(run: &mut Run, command: u16, monitors: usize, values: &[u8]) -> Result<Vec<u8>, Box<Difference>> {
    let (answer, mut out) = host_frame(run, command, monitors, values, 4 + 8 * MOST)?;
    out.truncate((answer >> 16) as usize);
    Ok(out)
}

pub fn check(run: &mut Run, payload: &[u8], expected: u8) -> Answered {
    let lent = Lent::new(&mut run.random, payload);
    run.begin();
    let library = surface::check(lent.part(), expected);

    let mut faults = Faults::new();
    faults.answer(library, model::check(payload, expected));
    faults.kept("payload", &lent, payload);
    run.settle(Function::Check, library, faults, || vec![("payload", listed(payload)), ("expected", expected.to_string())])?;
    note_check(run, payload, expected, library);
    Ok(library)
}

fn note_check(run: &mut Run, payload: &[u8], expected: u8, answer: u32) {
    let mut did_if = |what, came_up| run.tally.of_host_if(what, came_up);
    if payload.len() != 8 {
        did_if(OfHost::CheckLength, answer == 5);
        did_if(OfHost::CheckCounterAndLength, answer == 7);
        return;
    }
    let (received, part) = (carried(payload), Part::of(payload, expected));
    let damaged = part == Part::Damaged;
    did_if(OfHost::CheckCounter, answer == 7 && !damaged);
    did_if(OfHost::CheckCounterDamaged, answer == 7 && damaged);
    did_if(OfHost::CheckCounterLowBits, answer == 7 && !damaged && received == expected & MOST_COUNT);
    if answer == 7 {
        return;
    }
    did_if(OfHost::PayloadRight, part == Part::Right);
    did_if(OfHost::PayloadRightAt0, part == Part::Right && expected == 0);
    did_if(OfHost::PayloadRightAt63, part == Part::Right && expected == MOST_COUNT);
    let differs = part == Part::Differs;
    did_if(OfHost::CounterDiffers, differs);
    did_if(OfHost::Counter0Received, differs && received == 0);
    did_if(OfHost::Counter0Expected, differs && expected == 0);
    did_if(OfHost::CounterBitAway, differs && (received ^ expected).is_power_of_two());
    did_if(OfHost::CounterOneBehind, differs && received + 1 == expected);
    did_if(OfHost::Counter63Before1, differs && (received, expected) == (MOST_COUNT, 1));
    did_if(OfHost::DamagedAtExpected, damaged && received == expected);
    did_if(OfHost::DamagedAtOther, damaged && received != expected);
}

/// What two ports are asked.
pub struct Ports<'a> {
    pub a: &'a [u8],
    pub b: &'a [u8],
    pub monitors: usize,
    pub position: usize,
    pub expected: u8,
}

pub fn two_ports(run: &mut Run, asked: &Ports) -> Answered {
    let &Ports { a, b, monitors, position, expected } = asked;
    let lent_a = Lent::new(&mut run.random, a);
    let lent_b = Lent::new(&mut run.random, b);
    run.begin();
    let library = surface::two_ports(lent_a.part(), lent_b.part(), monitors, position, expected);

    let mut faults = Faults::new();
    faults.answer(library, model::two_ports(a, b, monitors, position, expected));
    faults.kept("a", &lent_a, a);
    faults.kept("b", &lent_b, b);
    run.settle(Function::TwoPorts, library, faults, || {
        vec![
            ("a", listed(a)),
            ("b", listed(b)),
            ("monitors", monitors.to_string()),
            ("position", position.to_string()),
            ("expected", expected.to_string()),
        ]
    })?;
    if refused(library) && library != 10 {
        note_ports_refused(run, asked, library);
    } else {
        note_ports(run, asked);
    }
    Ok(library)
}

/// Which reasons there were, of those that a refusal may have.
fn note_ports_refused(run: &mut Run, asked: &Ports, number: u32) {
    let &Ports { a, b, monitors, position, expected } = asked;
    let whole = |reply: &[u8]| reply.len() % 8 == 0 && reply.len() / 8 == monitors;
    let counter = expected > MOST_COUNT;
    let wrong_n = !(1..=MOST).contains(&monitors);
    let wrong_position = !wrong_n && !(1..=monitors).contains(&position);
    let [long_a, long_b] = [!whole(a), !whole(b)];
    let length = long_a || long_b;
    // Where both replies have the place.
    let parts = || {
        Some([
            Part::of(a.get(8 * (position - 1)..)?.get(..8)?, expected),
            Part::of(b.get(8 * (monitors - position)..)?.get(..8)?, expected),
        ])
    };
    let both_damaged = !wrong_n && !wrong_position && parts() == Some([Part::Damaged; 2]);
    let mut did_if = |what, came_up| run.tally.of_host_if(what, came_up);
    if number == 5 {
        did_if(OfHost::PortsLengthA, long_a && !long_b);
        did_if(OfHost::PortsLengthB, long_b && !long_a);
        did_if(OfHost::PortsLengthBoth, long_a && long_b);
        did_if(OfHost::PortsLengthDamaged, both_damaged);
        return;
    }
    let beside = wrong_n || wrong_position;
    did_if(OfHost::PortsCounter, counter && !beside && !length && !both_damaged);
    did_if(OfHost::PortsCounterAndN, counter && wrong_n);
    did_if(OfHost::PortsCounterAndPosition, counter && wrong_position);
    did_if(OfHost::PortsCounterAndLength, counter && !beside && length);
    did_if(OfHost::PortsCounterDamaged, counter && !beside && !length && both_damaged);
    did_if(OfHost::PortsN, wrong_n && !counter);
    did_if(OfHost::PortsPosition, wrong_position && !counter && !length);
    did_if(OfHost::PortsPositionAndLength, wrong_position && !counter && length);
}

/// What lay at both ports; which of them was chosen is compared.
fn note_ports(run: &mut Run, asked: &Ports) {
    let &Ports { a, b, monitors, position, expected } = asked;
    let [eight_a, eight_b] = [&a[8 * (position - 1)..][..8], &b[8 * (monitors - position)..][..8]];
    let [counter_a, counter_b] = [eight_a, eight_b].map(carried);
    let parts = [eight_a, eight_b].map(|eight| Part::of(eight, expected));
    let mut did_if = |what, came_up| run.tally.of_host_if(what, came_up);
    did_if(
        match parts {
            [Part::Right, Part::Right] => OfHost::ABesideRight,
            [Part::Right, Part::Differs] => OfHost::ABesideDiffering,
            [Part::Right, Part::Damaged] => OfHost::ABesideDamaged,
            [Part::Differs, Part::Right] => OfHost::BForDiffering,
            [Part::Damaged, Part::Right] => OfHost::BForDamaged,
            [Part::Differs, Part::Differs] => OfHost::ADiffersBesideDiffering,
            [Part::Differs, Part::Damaged] => OfHost::ADiffersBesideDamaged,
            [Part::Damaged, Part::Differs] => OfHost::BDiffersForDamaged,
            [Part::Damaged, Part::Damaged] => OfHost::BothDamaged,
        },
        true,
    );
    let both_differ = parts == [Part::Differs; 2];
    did_if(OfHost::TwoOtherCounters, both_differ && counter_a != counter_b);
    did_if(OfHost::OneOtherCounter, both_differ && counter_a == counter_b);
    did_if(OfHost::BDiffersForExpected, parts == [Part::Damaged, Part::Differs] && counter_a == expected);
    did_if(OfHost::ADiffersBesideExpected, parts == [Part::Differs, Part::Damaged] && counter_b == expected);
    did_if(OfHost::BothDamagedAtExpected, parts == [Part::Damaged; 2] && counter_a == expected && counter_b == expected);
    did_if(OfHost::BothDamagedAtOther, parts == [Part::Damaged; 2] && counter_a != expected && counter_b != expected);
}

/// What came of a heartbeat; the time ran out where the value is not 0.
pub fn verdict(run: &mut Run, message: &[u8], time_ran_out: u8) -> Answered {
    let lent = Lent::new(&mut run.random, message);
    run.begin();
    let library = surface::verdict(lent.part(), time_ran_out);

    let mut faults = Faults::new();
    faults.answer(library, model::verdict(message, time_ran_out));
    faults.kept("message", &lent, message);
    run.settle(Function::Verdict, library, faults, || vec![("message", listed(message)), ("time_ran_out", time_ran_out.to_string())])?;
    note_verdict(run, message, time_ran_out, library);
    Ok(library)
}

fn note_verdict(run: &mut Run, message: &[u8], time_ran_out: u8, answer: u32) {
    let late = time_ran_out != 0;
    let first = answer >> 8 & 0xFF;
    let tally = &mut run.tally;
    tally.of_host_if(OfHost::NothingCame, first == 4 && message.is_empty());
    tally.of_host_if(OfHost::LateByEven, first == 4 && time_ran_out % 2 == 0);
    tally.of_host_if(OfHost::VerdictOfNothing, answer == 5 && message.is_empty());
    tally.of_host_if(OfHost::LengthInTime, answer == 5 && !late && !message.is_empty());
    tally.of_host_if(OfHost::LengthLate, answer == 5 && late);
    if let Some(came) = Message::of(message) {
        let (pass_count, no_flags) = (came.count == PASS_COUNT, came.flags == 0);
        tally.of_host_if(OfHost::LateRight, first == 4 && came.right());
        tally.of_host_if(OfHost::LateDamaged, first == 4 && !came.right());
        tally.of_host_if(OfHost::Passed, first == 1 && came.counter == 0);
        tally.of_host_if(OfHost::PassedWithCounter, first == 1 && came.counter != 0);
        tally.of_host_if(OfHost::FailedByCount, first == 2 && no_flags);
        tally.of_host_if(OfHost::FailedByFlags, first == 2 && pass_count);
        tally.of_host_if(OfHost::FailedByBoth, first == 2 && !no_flags && !pass_count);
        tally.of_host_if(OfHost::DamagedInCommand, first == 3 && came.data_right);
        tally.of_host_if(OfHost::DamagedInData, first == 3 && came.of_heartbeat);
        tally.of_host_if(OfHost::DamagedInBoth, first == 3 && !came.of_heartbeat && !came.data_right);
    }
}

pub fn microvolts(run: &mut Run, code: i16) -> Done {
    run.begin();
    let (library, model) = (surface::microvolts(code), model::microvolts(code));
    let mut faults = Faults::new();
    if library != model {
        faults.add(format!("result: library {library}, model {model}"));
    }
    run.settle(Function::Microvolts, 0, faults, || vec![("code", code.to_string())])?;
    Ok(())
}

/// Bit for bit, but that any NaN will do for a cleared cell.
pub fn volts(run: &mut Run, code: i16) -> Done {
    run.begin();
    let (library, model) = (surface::volts(code), model::volts(code));
    let mut faults = Faults::new();
    if library.to_bits() != model.to_bits() && !(library.is_nan() && model.is_nan()) {
        let bits = |volts: f64| format!("{:016X} ({volts:?})", volts.to_bits());
        faults.add(format!("result: library {}, model {}", bits(library), bits(model)));
    }
    run.settle(Function::Volts, 0, faults, || vec![("code", code.to_string())])?;
    Ok(())
}

/// The buffer for the summary has `room` places, with any bits in them.
pub fn summary(run: &mut Run, codes: &[i16], room: usize) -> Answered {
    let lent_codes = Lent::new(&mut run.random, codes);
    let filled: Vec<f64> = (0..room).map(|_| f64::from_bits(run.random.next())).collect();
    let mut out = Both::new(&mut run.random, &filled);
    run.begin();
    let library = surface::summary(lent_codes.part(), out.library.part_mut());
    let model = model::summary(codes, &mut out.model);

    let mut faults = Faults::new();
    faults.answer(library, model);
    // A summary of "none" leaves `out` as it was lent, like a refusal.
    faults.written("out", &out, refused(library) || library == 0);
    faults.kept("codes", &lent_codes, codes);
    run.settle(Function::Summary, library, faults, || vec![("codes", listed(codes)), ("out", listed(&out.before))])?;
    run.tally.of_host_if(OfHost::Summary, library > 0xFF);
    run.tally.of_host_if(OfHost::SummaryOfNone, library == 0);
    Ok(library)
}
