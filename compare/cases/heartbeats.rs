//! Whole heartbeats (L8): each one beside a wake and relays in turn, what comes to the host of them, and what stops them.

use crate::asleep::{self, at_position, on_the_way, set_role, violate_any, Role, NDEV, PORTS, PORT_A, PORT_B};
use crate::beats::{heartbeat, relay, wake};
use crate::difference::{listed, Difference, Faults};
use crate::host::verdict;
use crate::inputs::{self, CMF1, MOST, RECORD};
use crate::lent::Both;
use crate::messages::{sealed, LENGTH, PASS_COUNT};
use crate::run::{expect, Done, Run};
use crate::spike::Spike;
use crate::surface::Function;
use crate::tally::Situation;

const PASSED: u32 = 1 << 8;
const DAMAGED: u32 = 3 << 8;
const IN_TIME: u8 = 0;

pub fn cases(run: &mut Run) -> Done {
    from_every_place(run)?;
    in_turn_on_any(run)?;
    from_end_to_end(run)?;
    struck(run)?;
    stopped(run)?;
    without_a_bridge(run)
}

fn failed(count: u8, flags: u8) -> u32 {
    u32::from(count) << 24 | u32::from(flags) << 16 | 2 << 8
}

/// Two tables with the same bytes: a heartbeat on the one, and on the other a wake and a relay for each monitor that is reached, which must
/// come to the same. Gives the answer and the message, and the table after it.
fn both_ways(run: &mut Run, bytes: &[u8], position: usize) -> Result<(u32, Vec<u8>, Vec<u8>), Box<Difference>> {
    let mut at_once = Both::new(&mut run.random, bytes);
    let beaten = heartbeat(run, &mut at_once, position, LENGTH)?;
    let mut one_by_one = Both::new(&mut run.random, bytes);
    let (in_turn, relays) = in_turn(run, &mut one_by_one, position)?;

    let mut faults = Faults::new();
    let sent = beaten.0 != 0;
    if beaten.0 != in_turn.0 || sent && beaten.1 != in_turn.1 {
        faults.add(format!("handed out: heartbeat {beaten:02X?}, wake and relays {in_turn:02X?}"));
    }
    let [whole, parts] = [&at_once, &one_by_one].map(Both::contents);
    if whole != parts {
        faults.add(format!("table: heartbeat {}, wake and relays {}", listed(whole), listed(parts)));
    }
    if !faults.none() {
        run.settle(Function::Heartbeat, beaten.0, faults, || vec![("table", listed(bytes)), ("position", position.to_string())])?;
    }
    run.tally.saw_if(Situation::InTurn, sent && relays > 1);
    run.tally.saw_if(Situation::InTurnStopped, !sent && relays > 1);
    Ok((beaten.0, beaten.1, whole.to_vec()))
}

/// The answer that a heartbeat has, the message that left, and how many relays it took.
fn in_turn(run: &mut Run, table: &mut Both<u8>, position: usize) -> Result<((u32, Vec<u8>), usize), Box<Difference>> {
    let (woken, mut message) = wake(run, table, position, LENGTH)?;
    if woken == 0 {
        return Ok(((0, message), 0));
    }
    let way = on_the_way(table.contents().len() / RECORD, position, woken >> 8 & 0xFF);
    for (relays, &next) in (1..).zip(&way) {
        let (answer, sent_on) = relay(run, table, next, &message, LENGTH)?;
        message = sent_on;
        if answer == 0 {
            return Ok(((0, message), relays));
        }
    }
    Ok(((woken, message), way.len()))
}

/// A manager at each place of each N, towards either port: all pass, or some do not. Those on the way are counted, and no other one changes.
fn from_every_place(run: &mut Run) -> Done {
    for (monitors, port) in (1..=MOST).flat_map(|monitors| PORTS.map(|port| (monitors, port))) {
        for position in 1..=monitors {
            let mut bytes = asleep::chain(&mut run.random, monitors, position, port);
            let way = [vec![position], on_the_way(monitors, position, port)].concat();
            let failing_of_eight = run.random.pick(&[0, 1, 1, 4, 8]);
            let (mut count, mut flags) = (PASS_COUNT, 0);
            for &next in &way {
                if run.random.below(8) < failing_of_eight {
                    flags |= violate_any(&mut run.random, at_position(&mut bytes, next));
                    count += 1;
                }
            }
            let (answer, message, after) = both_ways(run, &bytes, position)?;
            expect(run, Function::Heartbeat, ((answer, message), (8 << 16 | port << 8, sealed(count, flags))), &bytes, position)?;
            let mut records = after.chunks(RECORD).zip(bytes.chunks(RECORD)).zip(1..);
            let others_stay = records.all(|((after, before), place)| way.contains(&place) || after == before);
            expect(run, Function::Heartbeat, (others_stay, true), &bytes, position)?;
        }
    }
    Ok(())
}

/// Tables of any monitors, and of any bytes, at any position.
fn in_turn_on_any(run: &mut Run) -> Done {
    for turn in 0..4_000 {
        let monitors = if turn % 8 == 0 { run.random.within(1, MOST) } else { run.random.within(1, 6) };
        let mut bytes = match turn % 5 {
            0 => inputs::table(&mut run.random, monitors),
            1 => inputs::table_in_lpcm(&mut run.random, monitors, None),
            _ => asleep::table(&mut run.random, monitors),
        };
        let position = run.random.within(1, monitors);
        if !run.random.once_in(6) {
            set_role(&mut run.random, at_position(&mut bytes, position), Role::Manager);
        }
        both_ways(run, &bytes, position)?;
    }
    Ok(())
}

/// A manager at one end sends to the other: (a) of the request, and (b).
fn ends(monitors: usize) -> [(usize, u32); 2] {
    [(monitors, PORT_A), (1, PORT_B)]
}

/// The host's verdict is passed exactly where all passed, if CMC_NDEV is N + 42h. With any other it is not, but by those that failed.
fn from_end_to_end(run: &mut Run) -> Done {
    for (monitors, (position, port)) in (1..=MOST).flat_map(|monitors| ends(monitors).map(|end| (monitors, end))) {
        for turn in 0..8 {
            let mut bytes = asleep::chain(&mut run.random, monitors, position, port);
            let ndev = if turn < 6 { at_position(&mut bytes, position)[NDEV] } else { run.random.byte() };
            at_position(&mut bytes, position)[NDEV] = ndev;
            let failing = if turn % 2 == 0 { 0 } else { run.random.within(1, monitors.min(3)) };
            let mut places: Vec<usize> = (1..=monitors).collect();
            run.random.shuffle(&mut places);
            let flags =
                places[..failing].iter().fold(0, |flags, &place| flags | violate_any(&mut run.random, at_position(&mut bytes, place)));
            let (_, message, _) = both_ways(run, &bytes, position)?;
            let count = ndev.wrapping_sub((monitors - failing) as u8);
            let expected = if (count, flags) == (PASS_COUNT, 0) { PASSED } else { failed(count, flags) };
            let found = verdict(run, &message, IN_TIME)?;
            expect(run, Function::Verdict, (found, expected), &bytes, position)?;
            run.tally.saw_if(Situation::HostPassed, monitors > 1 && found == PASSED);
            run.tally.saw_if(Situation::HostFailed, monitors > 1 && failing > 0);
            run.tally.saw_if(Situation::HostOtherCount, failing == 0 && found != PASSED);
        }
    }
    Ok(())
}

/// One hop is struck: within ten places of the last four bytes, or fifteen of the first four. Nothing comes to the host, and no monitor from
/// there on changes; on the last hop the host finds it damaged.
fn struck(run: &mut Run) -> Done {
    for (monitors, (position, port)) in (1..=MOST).flat_map(|monitors| ends(monitors).map(|end| (monitors, end))) {
        for hop in 0..monitors {
            let bytes = asleep::chain(&mut run.random, monitors, position, port);
            let mut table = Both::new(&mut run.random, &bytes);
            let (_, mut message) = wake(run, &mut table, position, LENGTH)?;
            let way = on_the_way(monitors, position, port);
            for &next in &way[..hop] {
                message = relay(run, &mut table, next, &message, LENGTH)?.1;
            }
            let spike = match run.random.below(2) {
                0 => Spike::any(&mut run.random, 32..64, 10),
                _ => Spike::any(&mut run.random, 0..32, 15),
            };
            let came = spike.strike(&message);
            let stood = table.contents().to_vec();
            match way.get(hop) {
                Some(&next) => {
                    let (answer, _) = relay(run, &mut table, next, &came, LENGTH)?;
                    expect(run, Function::Relay, ((answer, table.contents()), (0, &stood)), &stood, next)?;
                    run.tally.saw(Situation::HopStruck);
                }
                None => {
                    let found = verdict(run, &came, IN_TIME)?;
                    expect(run, Function::Verdict, (found, DAMAGED), &stood, position)?;
                    run.tally.saw(Situation::HostDamaged);
                }
            }
        }
    }
    Ok(())
}

/// A monitor not in LPCM, a second manager or a timeout monitor at any place on the way: nothing leaves the chain, and those behind it stay.
fn stopped(run: &mut Run) -> Done {
    for (monitors, (position, port)) in (2..=MOST).flat_map(|monitors| ends(monitors).map(|end| (monitors, end))) {
        for stops in [Role::Awake, Role::Manager, Role::TimeoutMonitor] {
            let mut bytes = asleep::chain(&mut run.random, monitors, position, port);
            let way = on_the_way(monitors, position, port);
            let hop = run.random.below(way.len());
            set_role(&mut run.random, at_position(&mut bytes, way[hop]), stops);
            let (answer, _, after) = both_ways(run, &bytes, position)?;
            expect(run, Function::Heartbeat, (answer, 0), &bytes, position)?;
            for &behind in &way[hop + 1..] {
                let place = RECORD * (behind - 1)..RECORD * behind;
                expect(run, Function::Heartbeat, (&after[place.clone()], &bytes[place]), &bytes, behind)?;
            }
        }
    }
    Ok(())
}

/// (e) of the request: the flags of a timeout monitor nearest the host are clear after a heartbeat exactly where all passed, it too.
fn without_a_bridge(run: &mut Run) -> Done {
    for (monitors, turn) in (2..=MOST).flat_map(|monitors| (0..8).map(move |turn| (monitors, turn))) {
        let mut bytes = asleep::chain(&mut run.random, monitors, monitors, PORT_A);
        set_role(&mut run.random, at_position(&mut bytes, 1), Role::TimeoutMonitor);
        let fails = turn % 2 == 1;
        if fails {
            let place = if turn == 7 { 1 } else { run.random.within(1, monitors) };
            violate_any(&mut run.random, at_position(&mut bytes, place));
        }
        let (answer, _, after) = both_ways(run, &bytes, monitors)?;
        expect(run, Function::Heartbeat, ((answer, after[CMF1] & 0x03 == 0), (0, !fails)), &bytes, 1)?;
        expect(run, Function::Heartbeat, (after[CMF1] & 0x01 != 0, fails), &bytes, 1)?;
        run.tally.saw(if fails { Situation::BridgelessFailed } else { Situation::BridgelessPassed });
    }
    Ok(())
}
