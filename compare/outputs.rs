//! Which situations a question of discharge was: an accepted one output by output, read off the record, the question and what was
//! written, and a refused one by its reasons.

use crate::inputs::{at, RECORD};
use crate::run::Run;
use crate::tally::Situation;
use model::{event, MUTE_ST, OUTPUT_ON};

#[derive(Clone, Copy, Debug)]
pub struct Question {
    pub position: usize,
    pub events: u8,
    pub phase: u8,
}

impl Question {
    fn meanwhile(&self, event: u8) -> bool {
        self.events & event != 0
    }
}

/// The outputs of one monitor, and so the room that a question needs.
pub const OUTPUTS: usize = 16;
pub const LAST_PHASE: u8 = 14;

/// One output as it was answered, and what the record has for its cell.
struct Output {
    row: u8,
    on: bool,
    dcc: bool,
    duty: u8,
    /// Duties that a wrong look at the groups would find: the other half of the byte, and for cells 13 to 16 the place in group A.
    other_half: u8,
    in_group_a: Option<u8>,
}

/// The half of a byte that an odd cell's duty lies in, or an even one's.
fn half(pair: u8, odd: bool) -> u8 {
    if odd {
        pair & 0x0F
    } else {
        pair >> 4
    }
}

fn output(record: &[u8], cell: usize, answered: u8) -> Output {
    let odd = cell % 2 == 1;
    let pair = record[if cell > 12 { at::PWM_B + (cell - 13) / 2 } else { at::PWM_A + (cell - 1) / 2 }];
    let dccs = u16::from_le_bytes([record[at::CONFIGURATION_B + 4], record[at::CONFIGURATION_B + 5]]);
    Output {
        row: answered & !OUTPUT_ON,
        on: answered & OUTPUT_ON != 0,
        dcc: dccs >> (cell - 1) & 1 == 1,
        duty: half(pair, odd),
        other_half: half(pair, !odd),
        in_group_a: (cell > 12).then(|| half(record[at::PWM_A + (cell - 13) / 2], odd)),
    }
}

pub fn note_outputs(run: &mut Run, table: &[u8], question: Question, answered: &[u8]) {
    let record = &table[RECORD * (question.position - 1)..][..RECORD];
    let outputs: [Output; OUTPUTS] = std::array::from_fn(|index| output(record, index + 1, answered[index]));
    let mut saw_any = |situation, came_up: &dyn Fn(&Output) -> bool| run.tally.saw_if(situation, outputs.iter().any(came_up));
    note_rows(&mut saw_any);
    note_priorities(&mut saw_any, question, record);
    note_duties(&mut saw_any, question.phase);
    run.tally.saw_if(Situation::EventBitsAbove, question.events > 0x0F);
}

/// Counts a situation where one of the outputs is such.
type SawAny<'a> = &'a mut dyn FnMut(Situation, &dyn Fn(&Output) -> bool);

fn note_rows(saw_any: SawAny) {
    for (situation, row, on) in [
        (Situation::Row7, 7, false),
        (Situation::Row6, 6, false),
        (Situation::Row5, 5, false),
        (Situation::Row4, 4, true),
        (Situation::Row3, 3, false),
        (Situation::Row2, 2, false),
        (Situation::Row1On, 1, true),
        (Situation::Row1Off, 1, false),
    ] {
        saw_any(situation, &|output| output.row == row && output.on == on);
    }
}

/// Where another row would have had it otherwise, had its turn come.
fn note_priorities(saw_any: SawAny, question: Question, record: &[u8]) {
    let muted = record[at::CONFIGURATION_A + 5] & MUTE_ST != 0;
    let any_dcc = record[at::CONFIGURATION_B + 4..][..2] != [0, 0];
    let by_pwm = |output: &Output| !output.dcc && question.phase < output.duty;
    let by_3_or_2 = |output: &Output| output.row == 3 || output.row == 2;
    saw_any(Situation::Row7WhileMuted, &|output| output.row == 7 && muted);
    saw_any(Situation::MuteHoldsDcc, &|output| output.row == 6 && output.dcc);
    saw_any(Situation::MuteHoldsPwm, &|output| output.row == 6 && by_pwm(output));
    saw_any(Situation::WrcfgbHoldsDcc, &|output| output.row == 5 && output.dcc);
    saw_any(Situation::DccInMeasurement, &|output| output.row == 4 && question.meanwhile(event::MEASUREMENT));
    saw_any(Situation::DccInWrpwm, &|output| output.row == 4 && question.meanwhile(event::WRPWM));
    saw_any(Situation::DccOfOthersOnly, &|output| output.row <= 3 && any_dcc && !output.dcc);
    saw_any(Situation::PwmHeldOff, &|output| by_3_or_2(output) && by_pwm(output));
    saw_any(Situation::NothingToHoldOff, &|output| by_3_or_2(output) && output.duty == 0);
}

fn note_duties(saw_any: SawAny, phase: u8) {
    let by_row_1 = |output: &Output| output.row == 1;
    let otherwise = |output: &Output, duty: u8| output.row == 1 && output.on != (phase < duty);
    saw_any(Situation::PhaseAtDuty, &|output| by_row_1(output) && phase == output.duty);
    saw_any(Situation::PhaseOneBelow, &|output| by_row_1(output) && phase + 1 == output.duty);
    saw_any(Situation::Duty0, &|output| by_row_1(output) && output.duty == 0);
    saw_any(Situation::Duty15InLastPhase, &|output| by_row_1(output) && output.duty == 15 && phase == LAST_PHASE);
    saw_any(Situation::HalfMatters, &|output| otherwise(output, output.other_half));
    saw_any(Situation::GroupMatters, &|output| output.in_group_a.is_some_and(|duty| otherwise(output, duty)));
}

pub fn note_refusal(run: &mut Run, answer: u32, table: &[u8], question: Question, room: usize) {
    let position_wrong = !(1..=table.len() / RECORD).contains(&question.position);
    let phase_wrong = question.phase > LAST_PHASE;
    let no_room = room < OUTPUTS;
    let reasons = [
        (Situation::QuestionPosition, 7, position_wrong && !phase_wrong && !no_room),
        (Situation::QuestionPhase, 7, phase_wrong && !position_wrong && !no_room),
        (Situation::QuestionPositionAndPhase, 7, position_wrong && phase_wrong),
        (Situation::QuestionBeforeRoom, 7, no_room),
        (Situation::QuestionUnsoundBeforeAll, 1, phase_wrong && no_room),
    ];
    for (situation, number, holds) in reasons {
        run.tally.saw_if(situation, answer == number && holds);
    }
}
