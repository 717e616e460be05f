//! Buffers as the library is lent them: canaries before and after, and a start that is not aligned beyond what C asks for.

use crate::random::Random;

/// More than the widest store of a machine on each side, so that one that runs over meets a canary.
const CANARIES: usize = 64;
/// The start of the lent part moves by so many elements at most.
const SHIFTS: usize = 16;

const CANARY_BYTES: [u8; CANARIES + SHIFTS] = canary_bytes();

const fn canary_bytes() -> [u8; CANARIES + SHIFTS] {
    let mut bytes = [0; CANARIES + SHIFTS];
    let mut place = 0;
    while place < bytes.len() {
        bytes[place] = (place as u8).wrapping_mul(0x5B) ^ 0xC5;
        place += 1;
    }
    bytes
}

pub trait Item: Copy + 'static {
    const CANARIES: &'static [Self; CANARIES + SHIFTS];
    /// By bits: two NaNs may be alike or not.
    fn same(one: &[Self], other: &[Self]) -> bool;
    fn text(self) -> String;
}

impl Item for u8 {
    const CANARIES: &'static [u8; CANARIES + SHIFTS] = &CANARY_BYTES;
    fn same(one: &[u8], other: &[u8]) -> bool {
        one == other
    }
    fn text(self) -> String {
        format!("{self:02X}")
    }
}

impl Item for i16 {
    const CANARIES: &'static [i16; CANARIES + SHIFTS] = &[0x5AC3; CANARIES + SHIFTS];
    fn same(one: &[i16], other: &[i16]) -> bool {
        one == other
    }
    fn text(self) -> String {
        self.to_string()
    }
}

impl Item for f64 {
    const CANARIES: &'static [f64; CANARIES + SHIFTS] = &[f64::from_bits(0x5AC3_3CA5_1234_FEDC); CANARIES + SHIFTS];
    fn same(one: &[f64], other: &[f64]) -> bool {
        one.len() == other.len() && one.iter().zip(other).all(|(one, other)| one.to_bits() == other.to_bits())
    }
    fn text(self) -> String {
        format!("{:016X} ({self:?})", self.to_bits())
    }
}

/// The part that is lent, with canaries on both sides of it.
pub struct Lent<T> {
    whole: Vec<T>,
    start: usize,
    end: usize,
}

impl<T: Item> Lent<T> {
    pub fn new(random: &mut Random, contents: &[T]) -> Lent<T> {
        let start = CANARIES + random.below(SHIFTS);
        let end = start + contents.len();
        let mut whole = Vec::with_capacity(end + CANARIES);
        whole.extend_from_slice(&T::CANARIES[..start]);
        whole.extend_from_slice(contents);
        whole.extend_from_slice(&T::CANARIES[..CANARIES]);
        Lent { whole, start, end }
    }

    pub fn part(&self) -> &[T] {
        &self.whole[self.start..self.end]
    }

    pub fn part_mut(&mut self) -> &mut [T] {
        &mut self.whole[self.start..self.end]
    }

    pub fn canaries_stand(&self) -> bool {
        T::same(&self.whole[..self.start], &T::CANARIES[..self.start]) && T::same(&self.whole[self.end..], &T::CANARIES[..CANARIES])
    }
}

/// A buffer that is written: the library's, the model's, and what both held before the call.
pub struct Both<T> {
    pub library: Lent<T>,
    pub model: Vec<T>,
    pub before: Vec<T>,
}

impl<T: Item> Both<T> {
    pub fn new(random: &mut Random, contents: &[T]) -> Both<T> {
        Both { library: Lent::new(random, contents), model: contents.to_vec(), before: contents.to_vec() }
    }

    /// Before each call: what stands now is what was lent.
    pub fn lend(&mut self) {
        self.before.copy_from_slice(self.library.part());
    }

    pub fn contents(&self) -> &[T] {
        self.library.part()
    }
}

impl Both<u8> {
    /// So many bytes to be written, with any bytes in them.
    pub fn any(random: &mut Random, length: usize) -> Both<u8> {
        let filled = random.bytes(length);
        Both::new(random, &filled)
    }
}
