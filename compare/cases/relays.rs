//! The elementary operations of the heartbeat (L8), each alone: a manager wakes, a message reaches a monitor, the time runs out.

use crate::asleep::{self, at_position, violate_any, Role, BTM, DIRECTION, MAN, NDEV, PORTS, PORT_A, PORT_B, ROLE};
use crate::beats::{heartbeat, relay, time_out, wake};
use crate::difference::Difference;
use crate::host::verdict;
use crate::inputs::{self, damage, first_of, CMF0, CMF1, CMHB, MOST, RECORD};
use crate::lent::Both;
use crate::messages::{count_and_flags, message, sealed, with_any_counter, LENGTH, PASS_COUNT};
use crate::random::Random;
use crate::run::{expect, Done, Run, Written};
use crate::spike::Spike;
use crate::surface::Function;

const SENT_ON: u32 = 8 << 16 | 1 << 8;
const EVERY: u32 = 1 << 16;
const LONGEST: usize = 20;

pub fn cases(run: &mut Run) -> Done {
    every_role(run)?;
    every_ndev(run)?;
    every_count_and_flags(run)?;
    every_command(run)?;
    every_ending(run)?;
    every_spike(run)?;
    every_judgement(run)?;
    each_position(run)?;
    every_room_and_length(run)?;
    every_refusal(run)
}

/// Reached by a message, on a table of its own with more room than is needed.
fn reached(run: &mut Run, bytes: &[u8], position: usize, came: &[u8]) -> Written {
    let mut table = Both::new(&mut run.random, bytes);
    relay(run, &mut table, position, came, LENGTH + 3)
}

/// Every value of the byte that says what a monitor is, with every one of CMF1: a wake, a right message and the end of the time.
fn every_role(run: &mut Run) -> Done {
    let mut record = asleep::record(&mut run.random, Role::Monitor);
    for (role_byte, cmf1) in (0..=255).flat_map(|role_byte| (0..=255).map(move |cmf1| (role_byte, cmf1))) {
        (record[ROLE], record[CMF1]) = (role_byte, cmf1);
        record[DIRECTION] = run.random.byte();
        let (lpcm, manager, timeout) = (cmf1 >= 0x80, role_byte & MAN != 0, role_byte & BTM != 0);
        let mut table = Both::new(&mut run.random, &record);
        let (answer, _) = wake(run, &mut table, 1, LENGTH)?;
        let port = if record[DIRECTION] & 0x20 != 0 { PORT_A } else { PORT_B };
        expect(run, Function::Wake, (answer, if lpcm && manager { 8 << 16 | port << 8 } else { 0 }), &record, 1)?;

        let count = run.random.pick(&[PASS_COUNT + 1, PASS_COUNT + 1, PASS_COUNT]);
        let (answer, _) = reached(run, &record, 1, &sealed(count, 0))?;
        expect(run, Function::Relay, (answer, if lpcm && !manager && !timeout { SENT_ON } else { 0 }), &record, 1)?;

        let mut table = Both::new(&mut run.random, &record);
        let answer = time_out(run, &mut table, 1)?;
        expect(run, Function::TimeOut, (answer, u32::from(lpcm && !manager && timeout) << 8), &record, 1)?;
    }
    Ok(())
}

/// Every CMC_NDEV, by a manager that passes and by one that fails, towards both ports.
fn every_ndev(run: &mut Run) -> Done {
    for (ndev, port) in (0..=255u8).flat_map(|ndev| PORTS.map(|port| (ndev, port))) {
        for fails in [false, true] {
            let mut record = asleep::record(&mut run.random, Role::Manager);
            asleep::set_port(&mut record, port);
            record[NDEV] = ndev;
            let flags = if fails { violate_any(&mut run.random, &mut record) } else { 0 };
            let mut table = Both::new(&mut run.random, &record);
            let sent = wake(run, &mut table, 1, LENGTH)?;
            let expected = (8 << 16 | port << 8, sealed(ndev.wrapping_sub(u8::from(!fails)), flags));
            expect(run, Function::Wake, (sent, expected), &record, 1)?;
        }
    }
    Ok(())
}

/// A monitor in LPCM that passes or fails, and the flags that it then has.
fn monitor(run: &mut Run, fails: bool) -> (Vec<u8>, u8) {
    let mut record = asleep::record(&mut run.random, Role::Monitor);
    let flags = if fails { violate_any(&mut run.random, &mut record) } else { 0 };
    (record, flags)
}

/// Every count with every flags: counted down where it passes, and joined. What was behind eight bytes stays.
fn every_count_and_flags(run: &mut Run) -> Done {
    for two in 0..=u16::MAX {
        let [count, flags] = two.to_be_bytes();
        let (record, own) = monitor(run, two % 3 == 0);
        let came = with_any_counter(&mut run.random, CMHB, [count, flags]);
        let (answer, out) = reached(run, &record, 1, &came)?;
        let expected = sealed(count.wrapping_sub(u8::from(own == 0)), flags | own);
        expect(run, Function::Relay, ((answer, &out[..LENGTH]), (SENT_ON, &expected)), &record, 1)?;
    }
    Ok(())
}

/// A monitor or a timeout monitor to which a message makes a difference: its cells are not those of the last measurement.
fn waiting(run: &mut Run) -> Vec<u8> {
    let role = run.random.pick(&[Role::Monitor, Role::Monitor, Role::TimeoutMonitor]);
    loop {
        let record = asleep::record(&mut run.random, role);
        if record[inputs::LAST] != record[inputs::CELLS] {
            return record;
        }
    }
}

/// Whether a message was taken in: it is right, and then the cells are those of the last measurement.
fn taken(run: &mut Run, record: &[u8], came: &[u8]) -> Result<u32, Box<Difference>> {
    let mut table = Both::new(&mut run.random, record);
    relay(run, &mut table, 1, came, LENGTH)?;
    Ok(u32::from(table.contents() != record))
}

/// Each with its own check, which is right.
fn every_command(run: &mut Run) -> Done {
    let record = waiting(run);
    let mut right = 0;
    for command in 0..=u16::MAX {
        let two = count_and_flags(&mut run.random);
        let came = with_any_counter(&mut run.random, command, two);
        right += taken(run, &record, &came)?;
    }
    assert_eq!(right, 1, "commands that are a heartbeat's");
    Ok(())
}

/// For each counter one check is right.
fn every_ending(run: &mut Run) -> Done {
    let record = waiting(run);
    let mut came = message(&mut run.random);
    let mut right = 0;
    for ending in 0..=u16::MAX {
        came[6..].copy_from_slice(&ending.to_be_bytes());
        right += taken(run, &record, &came)?;
    }
    assert_eq!(right, EVERY / 1024, "messages that begin with {:02X?} and are right", &came[..6]);
    Ok(())
}

/// None within ten places of the last four bytes is taken in, nor within fifteen of the first four (L8, by L7); any other damage is judged
/// as the host judges it.
fn every_spike(run: &mut Run) -> Done {
    for _ in 0..4 {
        let record = waiting(run);
        let sent = message(&mut run.random);
        let longer: Vec<Spike> = (0..2_000).map(|_| Spike::any(&mut run.random, 0..32, 15)).collect();
        for spike in Spike::every(0..32, 6).chain(Spike::every(32..64, 10)).chain(longer) {
            let came = spike.strike(&sent);
            assert_eq!(taken(run, &record, &came)?, 0, "{sent:02X?} came as {came:02X?}");
        }
    }
    for _ in 0..4_000 {
        let record = waiting(run);
        let mut came = message(&mut run.random);
        match run.random.below(3) {
            0 => damage(&mut run.random, &mut came),
            1 => came = Spike::any(&mut run.random, 0..64, 16).strike(&came),
            _ => came = run.random.bytes(LENGTH),
        }
        let right = verdict(run, &came, 0)? >> 8 & 0xFF != 3;
        let found = taken(run, &record, &came)?;
        expect(run, Function::Relay, (found, u32::from(right)), &record, 1)?;
    }
    Ok(())
}

/// A timeout monitor that passes or fails, with every CMF1, judges messages at and near the pass value.
fn every_judgement(run: &mut Run) -> Done {
    for (cmf1, fails) in (0..=255u8).flat_map(|cmf1| [false, true].map(|fails| (cmf1, fails))) {
        for _ in 0..6 {
            let mut record = asleep::record(&mut run.random, Role::TimeoutMonitor);
            let own = if fails { violate_any(&mut run.random, &mut record) } else { 0 };
            record[CMF1] = cmf1 | 0x80;
            let any = [run.random.byte(), run.random.byte()];
            let [count, flags] = run.random.pick(&[[0x43, 0], [0x43, 0], [0x42, 0], [0x44, 0], [0x43, any[1]], [any[0], 0], any]);
            let came = with_any_counter(&mut run.random, CMHB, [count, flags]);
            let mut table = Both::new(&mut run.random, &record);
            let (answer, _) = relay(run, &mut table, 1, &came, LENGTH)?;
            let passed = (count, flags, own) == (0x43, 0, 0);
            let after = if passed { record[CMF1] & !0x03 } else { record[CMF1] | 0x01 };
            expect(run, Function::Relay, ((answer, &table.contents()[CMF0..=CMF1]), (0, &[own, after])), &record, 1)?;
        }
    }
    Ok(())
}

/// At each position of each N, and at those that it does not have; only the monitor there may change.
fn each_position(run: &mut Run) -> Done {
    for (monitors, position) in (1..=MOST).flat_map(|monitors| (1..=monitors).map(move |position| (monitors, position))) {
        let wrong = inputs::wrong_position(&mut run.random, monitors);
        let bytes = asleep::table(&mut run.random, monitors);
        for position in [position, wrong] {
            operations(run, &bytes, position, |_| LENGTH)?;
        }
        for position in [0, monitors + 1, usize::MAX] {
            let room = run.random.below(2 * LENGTH);
            operations(run, &bytes, position, |_| room)?;
        }
        for role in [Role::Manager, Role::Monitor, Role::TimeoutMonitor, Role::TimeoutMonitor] {
            let mut bytes = bytes.clone();
            asleep::set_role(&mut run.random, at_position(&mut bytes, position), role);
            operations(run, &bytes, position, |random| random.within(LENGTH, 2 * LENGTH))?;
        }
    }
    Ok(())
}

/// Each of the four, on tables of their own, with a right message. The records beside the one that is asked stay, but in a heartbeat.
fn operations(run: &mut Run, bytes: &[u8], position: usize, room: impl Fn(&mut Random) -> usize) -> Done {
    let mut tables = [(); 4].map(|()| Both::new(&mut run.random, bytes));
    let rooms = [(); 3].map(|()| room(&mut run.random));
    wake(run, &mut tables[0], position, rooms[0])?;
    let came = message(&mut run.random);
    relay(run, &mut tables[1], position, &came, rooms[1])?;
    time_out(run, &mut tables[2], position)?;
    heartbeat(run, &mut tables[3], position, rooms[2])?;
    for table in &tables[..3] {
        let mut others = table.contents().chunks(RECORD).zip(bytes.chunks(RECORD)).zip(1..).filter(|(_, other)| *other != position);
        expect(run, Function::Relay, (others.all(|((after, before), _)| after == before), true), bytes, position)?;
    }
    Ok(())
}

/// No byte to more than twice the message, as a buffer and as what comes, to monitors that would send and that would not.
fn every_room_and_length(run: &mut Run) -> Done {
    for (length, _) in (0..=LONGEST).flat_map(|length| (0..60).map(move |turn| (length, turn))) {
        let monitors = run.random.within(1, 4);
        let bytes = asleep::table(&mut run.random, monitors);
        let position = run.random.within(1, monitors);
        operations(run, &bytes, position, |_| length)?;
        let mut came = message(&mut run.random);
        came.extend(run.random.bytes(length));
        came.truncate(length);
        reached(run, &bytes, position, &came)?;
    }
    for length in [64, 256, 264, 65_544] {
        let (record, _) = monitor(run, false);
        let came = run.random.bytes(length);
        let (answer, _) = reached(run, &record, 1, &came)?;
        expect(run, Function::Relay, (answer, 5), &record, 1)?;
        let mut table = Both::new(&mut run.random, &record);
        relay(run, &mut table, 1, &sealed(PASS_COUNT, 0), length)?;
    }
    Ok(())
}

/// Each set of reasons, so that each stands alone and beside every other: the first in the order of each operation is given.
fn every_refusal(run: &mut Run) -> Done {
    for reasons in 0..16 {
        let [unsound, position_wrong, length_wrong, no_room] = [0, 1, 2, 3].map(|reason| reasons >> reason & 1 == 1);
        let of_time_out = first_of(&[(unsound, 1), (position_wrong, 7)]);
        let of_wake = first_of(&[(unsound, 1), (position_wrong, 7), (no_room, 6)]);
        let of_relay = first_of(&[(unsound, 1), (position_wrong, 7), (length_wrong, 5), (no_room, 6)]);
        for _ in 0..100 {
            let monitors = run.random.within(1, 8);
            let bytes = if unsound { inputs::unsound(&mut run.random) } else { asleep::table(&mut run.random, monitors) };
            let right = run.random.within(1, monitors);
            let position = if position_wrong { inputs::wrong_position(&mut run.random, monitors) } else { right };
            let mut came = message(&mut run.random);
            if length_wrong {
                let length = run.random.pick(&[0, 1, 4, 7, 9, 12, 16]);
                came.resize(length, 0);
            }
            let room = if no_room { run.random.below(LENGTH) } else { run.random.within(LENGTH, 2 * LENGTH) };
            let mut tables = [(); 4].map(|()| Both::new(&mut run.random, &bytes));
            let woken = wake(run, &mut tables[0], position, room)?.0 & 0xFF;
            let beaten = heartbeat(run, &mut tables[1], position, room)?.0 & 0xFF;
            let reached = relay(run, &mut tables[2], position, &came, room)?.0 & 0xFF;
            let late = time_out(run, &mut tables[3], position)? & 0xFF;
            let (found, expected) = ([woken, beaten, reached, late], [of_wake, of_wake, of_relay, of_time_out]);
            expect(run, Function::Relay, (found, expected), &bytes, position)?;
        }
    }
    Ok(())
}
