//! Which situations an operation of the heartbeat was (L8): each monitor's turn in it read off the table before and after, and what a
//! refused one was lent.

use crate::asleep::{on_the_way, port, role, Role, BTM, MAN, NDEV, PORT_A, PORT_B, ROLE};
use crate::beats::Operation;
use crate::difference::refused;
use crate::inputs::{CELLS, CMF0, CMF1, LAST, MOST, RECORD};
use crate::lent::Both;
use crate::measured;
use crate::messages::{Message, LENGTH, PASS_COUNT};
use crate::run::Run;
use crate::surface::Function;
use crate::tally::{OfOperation, Situation};

const BTMCMP: u8 = 1 << 0;
const BTMWD: u8 = 1 << 1;

/// One monitor's record before and after.
struct Turn<'a> {
    before: &'a [u8],
    after: &'a [u8],
}

impl Turn<'_> {
    fn at(table: &Both<u8>, position: usize) -> Turn<'_> {
        let place = RECORD * (position - 1)..RECORD * position;
        Turn { before: &table.before[place.clone()], after: &table.contents()[place] }
    }

    fn role(&self) -> Role {
        role(self.before)
    }

    /// A measurement would change the record, and nothing did.
    fn left_alone(&self) -> bool {
        self.before[LAST] != self.before[CELLS] && self.before == self.after
    }

    fn passed(&self) -> bool {
        self.after[CMF0] == 0
    }
}

pub fn note(run: &mut Run, operation: &Operation, answer: u32) {
    note_lent(run, operation, answer);
    if refused(answer) {
        return;
    }
    let turn = Turn::at(operation.table, operation.position);
    match operation.function {
        Function::Wake => note_wake(run, &turn, answer),
        Function::Relay => note_relay(run, operation, &turn, answer),
        _ => note_heartbeat(run, operation, &turn, answer),
    }
}

/// What any operation that hands out a message was lent, and whether it was refused for it.
fn note_lent(run: &mut Run, operation: &Operation, answer: u32) {
    let Operation { function, position, message, table, out } = *operation;
    let monitors = table.before.len() / RECORD;
    note_position(run, function, answer, monitors, position);
    let position_wrong = !(1..=monitors).contains(&position);
    let length_wrong = function == Function::Relay && message.len() != LENGTH;
    let room = out.before.len();
    let sends = |role: Role| if function == Function::Relay { role == Role::Monitor } else { role == Role::Manager };
    let would_send = !position_wrong && sends(Turn::at(table, position).role());
    let whats = [
        (OfOperation::UnsoundBeforeRoom, answer == 1 && room < LENGTH),
        (OfOperation::PositionBeforeRoom, answer == 7 && room < LENGTH),
        (OfOperation::PositionBeforeLength, answer == 7 && length_wrong),
        (OfOperation::LengthBeforeRoom, answer == 5 && room < LENGTH),
        (OfOperation::NoMessage, answer == 5 && message.is_empty()),
        (OfOperation::MessageOfSeven, answer == 5 && message.len() == LENGTH - 1),
        (OfOperation::MessageOfNine, answer == 5 && message.len() == LENGTH + 1),
        (OfOperation::RoomToSend, answer == 6 && would_send),
        (OfOperation::RoomForNothing, answer == 6 && !would_send),
        (OfOperation::RoomOfSeven, answer == 6 && room == LENGTH - 1),
        (OfOperation::RoomOfEight, answer > 0xFF && room == LENGTH),
        (OfOperation::RoomOfMore, answer > 0xFF && room > LENGTH),
        (OfOperation::NothingSent, answer == 0),
    ];
    for (what, came_up) in whats {
        run.tally.of_operation_if(function, what, came_up);
    }
}

/// Of each of the four.
fn note_position(run: &mut Run, function: Function, answer: u32, monitors: usize, position: usize) {
    let whats = [
        (OfOperation::UnsoundBeforePosition, answer == 1 && !(1..=monitors).contains(&position)),
        (OfOperation::PositionNone, answer == 7 && position == 0),
        (OfOperation::PositionBehind, answer == 7 && position == monitors + 1),
        (OfOperation::PositionLargest, answer == 7 && position == usize::MAX),
        (OfOperation::Only, answer > 0xFF && monitors == 1),
        (OfOperation::Nearest, answer > 0xFF && monitors > 1 && position == 1),
        (OfOperation::Farthest, answer > 0xFF && monitors > 1 && position == monitors),
        (OfOperation::Between, answer > 0xFF && 1 < position && position < monitors),
        (OfOperation::OfMost, answer > 0xFF && monitors == MOST),
    ];
    for (what, came_up) in whats {
        run.tally.of_operation_if(function, what, came_up);
    }
}

fn note_wake(run: &mut Run, turn: &Turn, answer: u32) {
    let tally = &mut run.tally;
    if turn.role() == Role::Manager {
        let first = answer >> 8 & 0xFF;
        tally.saw_if(Situation::WokeToA, first == PORT_A);
        tally.saw_if(Situation::WokeToB, first == PORT_B);
        tally.saw_if(Situation::ManagerPasses, turn.passed());
        tally.saw_if(Situation::ManagerFails, !turn.passed());
        tally.saw_if(Situation::ManagerFromZero, turn.passed() && turn.before[NDEV] == 0);
        tally.saw_if(Situation::ManagerOfBoth, turn.before[ROLE] & BTM != 0);
        measured::note(run, turn.before, turn.after);
    } else {
        tally.saw_if(Situation::NoManager, turn.role() == Role::Monitor && turn.left_alone());
        tally.saw_if(Situation::NoManagerButTimeout, turn.role() == Role::TimeoutMonitor && turn.left_alone());
        tally.saw_if(Situation::ManagerAwake, turn.role() == Role::Awake && turn.before[ROLE] & MAN != 0 && turn.left_alone());
    }
}

fn note_relay(run: &mut Run, operation: &Operation, turn: &Turn, answer: u32) {
    let Some(came) = Message::of(operation.message) else { return };
    match (turn.role(), came.right()) {
        (Role::Monitor | Role::TimeoutMonitor, false) => note_damaged(run, &came, turn),
        (Role::Monitor, true) => {
            let (own, passed) = (turn.after[CMF0], turn.passed());
            let tally = &mut run.tally;
            tally.saw_if(Situation::RelayPasses, passed && came.flags == 0);
            tally.saw_if(Situation::RelayPassesFailed, passed && came.flags != 0);
            tally.saw_if(Situation::RelayFails, !passed && came.flags == 0);
            tally.saw_if(Situation::RelayJoins, own & !came.flags != 0 && came.flags & !own != 0);
            tally.saw_if(Situation::RelayFromZero, passed && came.count == 0);
            tally.saw_if(Situation::RelayCounter, came.counter != 0 && answer != 0);
            measured::note(run, turn.before, turn.after);
        }
        (Role::TimeoutMonitor, true) => {
            note_judged(run, &came, turn);
            measured::note(run, turn.before, turn.after);
        }
        (Role::Manager, right) => run.tally.saw_if(Situation::ManagerIgnores, right && turn.left_alone()),
        (Role::Awake, right) => run.tally.saw_if(Situation::AwakeIgnores, right && turn.left_alone()),
    }
}

fn note_damaged(run: &mut Run, came: &Message, turn: &Turn) {
    let tally = &mut run.tally;
    let alone = turn.left_alone();
    tally.saw_if(Situation::IgnoredForCommand, alone && came.data_right);
    tally.saw_if(Situation::IgnoredForData, alone && came.of_heartbeat);
    tally.saw_if(Situation::IgnoredForBoth, alone && !came.of_heartbeat && !came.data_right);
    tally.saw_if(Situation::IgnoredByTimeout, alone && turn.role() == Role::TimeoutMonitor);
}

/// What a timeout monitor made of a right message.
fn note_judged(run: &mut Run, came: &Message, turn: &Turn) {
    let flags = |record: &[u8]| record[CMF1] & (BTMCMP | BTMWD);
    let (stood, stands) = (flags(turn.before), flags(turn.after));
    let judged_passed = stands & BTMCMP == 0;
    let arrives_passing = came.count == PASS_COUNT + 1 && came.flags == 0;
    let tally = &mut run.tally;
    tally.saw_if(Situation::TimeoutClears, judged_passed && stood == BTMCMP | BTMWD);
    tally.saw_if(Situation::TimeoutClearsOne, judged_passed && (stood == BTMCMP || stood == BTMWD));
    tally.saw_if(Situation::TimeoutByCount, !judged_passed && turn.passed() && came.flags == 0);
    tally.saw_if(Situation::TimeoutByFlags, !judged_passed && turn.passed() && came.count == PASS_COUNT + 1);
    tally.saw_if(Situation::TimeoutByOwn, !judged_passed && !turn.passed() && arrives_passing);
    tally.saw_if(Situation::TimeoutBeforeItsStep, !judged_passed && turn.passed() && came.count == PASS_COUNT && came.flags == 0);
    tally.saw_if(Situation::TimeoutSets, stood == 0 && stands == BTMCMP);
    tally.saw_if(Situation::TimeoutKeepsLate, stood == BTMWD && stands == BTMCMP | BTMWD);
}

/// The monitors on the way took part up to the one that it stopped at; those behind them and on the other side did not.
fn note_heartbeat(run: &mut Run, operation: &Operation, turn: &Turn, answer: u32) {
    if turn.role() != Role::Manager {
        run.tally.saw_if(Situation::NoHeartbeat, turn.left_alone());
        return;
    }
    let monitors = operation.table.before.len() / RECORD;
    let way = on_the_way(monitors, operation.position, port(turn.before));
    let turns: Vec<Turn> = way.iter().map(|&position| Turn::at(operation.table, position)).collect();
    let hops = turns.iter().take_while(|turn| turn.role() == Role::Monitor).count();
    let stopped_at = turns.get(hops).map(Turn::role);
    let others = (1..=monitors).filter(|position| *position != operation.position && !way.contains(position));
    let other_side = others.map(|position| Turn::at(operation.table, position)).any(|turn| turn.left_alone());
    let failed: Vec<u8> = turns[..hops].iter().chain([turn]).map(|turn| turn.after[CMF0]).filter(|&flags| flags != 0).collect();
    let first = answer >> 8 & 0xFF;

    let tally = &mut run.tally;
    tally.saw_if(Situation::LeftAtA, first == PORT_A && hops > 0);
    tally.saw_if(Situation::LeftAtB, first == PORT_B && hops > 0);
    tally.saw_if(Situation::LeftAtOnce, answer != 0 && hops == 0);
    tally.saw_if(Situation::OtherSide, answer != 0 && other_side);
    tally.saw_if(Situation::AllPassed, answer != 0 && hops > 0 && failed.is_empty());
    tally.saw_if(Situation::OneFailed, answer != 0 && hops > 0 && failed.len() == 1);
    tally.saw_if(
        Situation::SomeFailed,
        answer != 0 && failed.len() > 1 && failed.len() <= hops && failed.iter().any(|&flags| flags != failed[0]),
    );
    for (situation, role) in [
        (Situation::StoppedByManager, Role::Manager),
        (Situation::StoppedByTimeout, Role::TimeoutMonitor),
        (Situation::StoppedByAwake, Role::Awake),
    ] {
        tally.saw_if(situation, stopped_at == Some(role) && hops > 0 && answer == 0);
    }
    let behind = turns.iter().skip(hops + 1).any(Turn::left_alone);
    tally.saw_if(Situation::NotReached, stopped_at.is_some() && behind);
}

pub fn note_time_out(run: &mut Run, table: &Both<u8>, position: usize, answer: u32) {
    let monitors = table.before.len() / RECORD;
    note_position(run, Function::TimeOut, answer, monitors, position);
    if refused(answer) {
        return;
    }
    let turn = Turn::at(table, position);
    let is_set = turn.before[ROLE] & BTM != 0;
    let stood = turn.before[CMF1] & BTMWD != 0;
    let tally = &mut run.tally;
    tally.saw_if(Situation::TimeRanOut, turn.role() == Role::TimeoutMonitor && !stood);
    tally.saw_if(Situation::TimeRanOutAgain, turn.role() == Role::TimeoutMonitor && stood);
    tally.saw_if(Situation::NoTimeoutMonitor, turn.role() == Role::Monitor && !stood);
    tally.saw_if(Situation::TimeOutAtManager, turn.role() == Role::Manager && is_set && !stood);
    tally.saw_if(Situation::TimeOutAwake, turn.role() == Role::Awake && is_set && !stood);
    tally.of_operation_if(Function::TimeOut, OfOperation::NothingSent, answer == 0);
}
