//! "Numbers that come back": the refusals, and how an answer is packed.

#[derive(Clone, Copy, Debug, PartialEq, Eq)]
pub enum Refusal {
    TableNotSound = 1,
    FrameShort = 2,
    CommandWrong = 3,
    CodeNotListed = 4,
    LengthWrong = 5,
    NoRoom = 6,
    PositionWrong = 7,
    CountWrong = 8,
    CodeCleared = 9,
    BothDamaged = 10,
}

/// What a call comes to: its first and second value, or the refusal that was the first to hold.
pub type Outcome = Result<(usize, usize), Refusal>;

/// Bits 0 to 7 the refusal number, bits 8 to 15 the first value, bits 16 to 31 the second. A refusal is its number only.
pub fn packed(outcome: Outcome) -> u32 {
    match outcome {
        Ok((first, second)) => {
            debug_assert!(first <= 0xFF && second <= 0xFFFF);
            (second as u32) << 16 | (first as u32) << 8
        }
        Err(refusal) => refusal as u32,
    }
}
