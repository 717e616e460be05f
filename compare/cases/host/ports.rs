//! The choice between two ports' replies, by the counter that the host expects (L5).

use crate::difference::refused;
use crate::host::{check, two_ports, Ports};
use crate::inputs::{self, first_of, no_counter, other_counter, with_check, Part, MOST, MOST_COUNT, REPLY};
use crate::random::Random;
use crate::run::{Done, Run};
use crate::surface::{COUNTER_DIFFERS, PORT_A, PORT_A_DIFFERS, PORT_B, PORT_B_DIFFERS, RIGHT};

const BOTH_DAMAGED: u32 = 10;

/// What lies at A, what at B, and the first value, where there is one.
const CHOICES: [(Part, Part, Option<u32>); 9] = [
    (Part::Right, Part::Right, Some(PORT_A)),
    (Part::Right, Part::Differs, Some(PORT_A)),
    (Part::Right, Part::Damaged, Some(PORT_A)),
    (Part::Differs, Part::Right, Some(PORT_B)),
    (Part::Damaged, Part::Right, Some(PORT_B)),
    (Part::Differs, Part::Differs, Some(PORT_A_DIFFERS)),
    (Part::Differs, Part::Damaged, Some(PORT_A_DIFFERS)),
    (Part::Damaged, Part::Differs, Some(PORT_B_DIFFERS)),
    (Part::Damaged, Part::Damaged, None),
];

/// A wrong N, some of which make 8N come out right in fewer bits.
const NOT_N: [usize; 10] = [0, 33, 34, 256, 257, 1 << 32, 1 << 61, (1 << 61) + 1, usize::MAX - 1, usize::MAX];

pub fn cases(run: &mut Run) -> Done {
    each_position(run)?;
    every_expected(run)?;
    each_two_counters(run)?;
    each_reason(run)?;
    mixed(run)
}

/// A reply of so many parts, each of any kind, but for this one at this place.
fn reply(random: &mut Random, monitors: usize, place: usize, part: Part, expected: u8) -> Vec<u8> {
    let kind = |random: &mut Random, at: usize| if at == place { part } else { random.pick(&Part::ALL) };
    (0..monitors)
        .flat_map(|at| {
            let kind = kind(random, at);
            kind.any(random, expected)
        })
        .collect()
}

/// Both replies, and the answer that L5 has for them.
fn asked(run: &mut Run, (a, b, first): (Part, Part, Option<u32>), monitors: usize, position: usize, expected: u8) -> Done {
    let [in_a, in_b] = [position - 1, monitors - position];
    let a = reply(&mut run.random, monitors, in_a, a, expected);
    let b = reply(&mut run.random, monitors, in_b, b, expected);
    let answer = two_ports(run, &Ports { a: &a, b: &b, monitors, position, expected })?;
    let wanted = match first {
        Some(first @ (PORT_A | PORT_A_DIFFERS)) => (8 * in_a as u32) << 16 | first << 8,
        Some(first) => (8 * in_b as u32) << 16 | first << 8,
        None => BOTH_DAMAGED,
    };
    assert_eq!(answer, wanted, "{a:02X?} and {b:02X?}, monitor {position} of {monitors} against {expected}");
    Ok(())
}

/// All nine at each position of each N.
fn each_position(run: &mut Run) -> Done {
    for (monitors, position) in (1..=MOST).flat_map(|monitors| (1..=monitors).map(move |position| (monitors, position))) {
        for choice in CHOICES {
            let expected = run.random.below(64) as u8;
            asked(run, choice, monitors, position, expected)?;
        }
    }
    Ok(())
}

/// All nine with each counter; and any with each number that is none, with its six low bits at both ports too.
fn every_expected(run: &mut Run) -> Done {
    for expected in 0..=u8::MAX {
        let monitors = run.random.within(1, MOST);
        let position = run.random.within(1, monitors);
        for choice @ (a, b, _) in CHOICES {
            if expected <= MOST_COUNT {
                asked(run, choice, monitors, position, expected)?;
            } else {
                let random = &mut run.random;
                let a = reply(random, monitors, position - 1, a, expected & MOST_COUNT);
                let b = reply(random, monitors, monitors - position, b, expected & MOST_COUNT);
                let answer = two_ports(run, &Ports { a: &a, b: &b, monitors, position, expected })?;
                assert_eq!(answer, 7, "{a:02X?} and {b:02X?} against {expected}");
            }
        }
    }
    Ok(())
}

/// Each counter at A with each at B, neither damaged: against A's, B's, and one that is neither.
fn each_two_counters(run: &mut Run) -> Done {
    for (at_a, at_b) in (0..=MOST_COUNT).flat_map(|at_a| (0..=MOST_COUNT).map(move |at_b| (at_a, at_b))) {
        let [a, b] = [at_a, at_b].map(|counter| with_check(&run.random.bytes(6), counter));
        for expected in [at_a, at_b, other_counter(&mut run.random, at_a)] {
            let answer = two_ports(run, &Ports { a: &a, b: &b, monitors: 1, position: 1, expected })?;
            let first = match expected {
                _ if expected == at_a => PORT_A,
                _ if expected == at_b => PORT_B,
                _ => PORT_A_DIFFERS,
            };
            assert_eq!(answer, first << 8, "{a:02X?} and {b:02X?} against {expected}");
        }
    }
    Ok(())
}

/// A length that is not so many parts: none, cut, with more behind it, or of another N.
fn other_length(random: &mut Random, reply: &mut Vec<u8>) {
    let length = reply.len();
    let other = random.pick(&[0, 1, 7, length - 1, length + 1, length - 8, length + 8, length + 8, 264]);
    let more = random.bytes(264);
    reply.extend(more);
    reply.truncate(if other == length { length + 1 } else { other });
}

/// Every set of reasons for a refusal, with any parts.
fn each_reason(run: &mut Run) -> Done {
    for (reasons, (a, b, _)) in (0..1 << 5).flat_map(|reasons| CHOICES.map(|choice| (reasons, choice))) {
        let holds = |reason: u32| reasons >> reason & 1 == 1;
        for _ in 0..12 {
            let random = &mut run.random;
            let (monitors, counter) = (random.within(1, MOST), random.below(64) as u8);
            let position = random.within(1, monitors);
            let mut a_reply = reply(random, monitors, position - 1, a, counter);
            let mut b_reply = reply(random, monitors, monitors - position, b, counter);
            if holds(0) {
                other_length(random, &mut a_reply);
            }
            if holds(1) {
                other_length(random, &mut b_reply);
            }
            let not_position = random.pick(&[0, monitors + 1, 256 + position, 1 << 61, usize::MAX]);
            let question = Ports {
                a: &a_reply,
                b: &b_reply,
                monitors: if holds(2) { random.pick(&NOT_N) } else { monitors },
                position: if holds(3) { not_position } else { position },
                expected: if holds(4) { no_counter(random, counter) } else { counter },
            };
            let answer = two_ports(run, &question)?;
            let both_damaged = (a, b) == (Part::Damaged, Part::Damaged);
            let number = first_of(&[(holds(4) || holds(3) || holds(2), 7), (holds(1) || holds(0), 5), (both_damaged, BOTH_DAMAGED)]);
            assert_eq!(answer & 0xFF, number, "reasons {reasons:05b}, {a:?} and {b:?}");
        }
    }
    Ok(())
}

/// Any payloads, with lengths, positions and counts of monitors that do not belong together. The part that is handed back, checked by itself,
/// is what two ports say of it.
fn mixed(run: &mut Run) -> Done {
    for _ in 0..8_000 {
        let monitors = run.random.within(1, MOST);
        let [mut a, mut b] = [0; 2].map(|_| inputs::payloads(&mut run.random, REPLY, monitors));
        for port in [&mut a, &mut b] {
            if run.random.once_in(6) {
                other_length(&mut run.random, port);
            }
        }
        let position = match run.random.below(5) {
            0 => run.random.pick(&[0, monitors + 1, usize::MAX, 1 << 61, 256 + monitors]),
            _ => run.random.within(1, monitors),
        };
        let asked = if run.random.once_in(6) { run.random.pick(&NOT_N) } else { monitors };
        // Half of the payloads carry 0.
        let any = run.random.byte();
        let expected = run.random.pick(&[0, 0, 1, MOST_COUNT, any & MOST_COUNT, any]);
        let answer = two_ports(run, &Ports { a: &a, b: &b, monitors: asked, position, expected })?;
        if !refused(answer) {
            let (reply, verdict) = match answer >> 8 & 0xFF {
                PORT_A => (&a, RIGHT),
                PORT_B => (&b, RIGHT),
                PORT_A_DIFFERS => (&a, COUNTER_DIFFERS),
                _ => (&b, COUNTER_DIFFERS),
            };
            let part = &reply[(answer >> 16) as usize..][..REPLY];
            assert_eq!(check(run, part, expected)? >> 8 & 0xFF, verdict, "{part:02X?} against {expected}");
        }
    }
    Ok(())
}
