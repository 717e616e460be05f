//! A spike on the wire (L7): flipped bits of a frame, and the consecutive places that they lie within. Along the wire a byte's most
//! significant bit comes first.

use crate::random::Random;
use std::ops::Range;

/// Within so many places the check of a payload, and that of a command, tells every spike.
pub const DATA_PLACES: usize = 10;
pub const COMMAND_PLACES: usize = 15;

/// The places of the longest spike that is tried.
const LONGEST: usize = 16;

#[derive(Clone, Copy)]
pub struct Spike {
    /// The first flipped place.
    first: usize,
    /// What is flipped from there on, highest bit first: that one is 1.
    flips: u16,
}

impl Spike {
    /// These flips, the first of them at this place.
    pub fn of(first: usize, flips: u16) -> Spike {
        Spike { first, flips: flips << flips.leading_zeros() }
    }

    /// Any of exactly so many places from this one on: the first and the last of them are flipped.
    pub fn at(random: &mut Random, first: usize, width: usize) -> Spike {
        let within = u16::MAX << (LONGEST - width);
        let ends = 0x8000 | 0x8000 >> (width - 1);
        Spike { first, flips: random.next() as u16 & within | ends }
    }

    /// Any of exactly so many places, all of them among these.
    pub fn of_width(random: &mut Random, places: Range<usize>, width: usize) -> Spike {
        let first = random.within(places.start, places.end - width);
        Spike::at(random, first, width)
    }

    /// Any of 1 to `most` places, all of them among these.
    pub fn any(random: &mut Random, places: Range<usize>, most: usize) -> Spike {
        let width = random.within(1, most.min(places.len()));
        Spike::of_width(random, places, width)
    }

    /// Any of exactly so many places, some of them on either side of a border.
    pub fn over(random: &mut Random, border: usize, width: usize) -> Spike {
        let before = random.within(1, width - 1);
        Spike::at(random, border - before, width)
    }

    /// Each one of up to `most` places that are all among these.
    pub fn every(places: Range<usize>, most: usize) -> impl Iterator<Item = Spike> {
        let end = places.end;
        places.flat_map(move |first| {
            let width = most.min(end - first);
            (1_u32 << (width - 1)..1 << width).map(move |flips| Spike { first, flips: (flips << (LONGEST - width)) as u16 })
        })
    }

    /// From the first flipped place to the last.
    pub fn width(self) -> usize {
        LONGEST - self.flips.trailing_zeros() as usize
    }

    /// Exactly these flips, and the first and the last of them among these places.
    pub fn is(self, flips: u16, places: Range<usize>) -> bool {
        let last = self.first + self.width() - 1;
        self.flips == flips << flips.leading_zeros() && places.contains(&self.first) && places.contains(&last)
    }

    /// The frame as it comes.
    pub fn strike(self, sent: &[u8]) -> Vec<u8> {
        let mut came = sent.to_vec();
        for place in (0..self.width()).filter(|place| self.flips << place & 0x8000 != 0).map(|place| self.first + place) {
            came[place / 8] ^= 0x80 >> (place % 8);
        }
        came
    }
}
