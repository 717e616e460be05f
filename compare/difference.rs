//! What may be wrong after a call, and a difference in full.

use crate::inputs::RECORD;
use crate::lent::{Both, Item, Lent};
use std::fmt::{self, Display, Formatter};

/// The faults of one call; none where it is right.
#[derive(Default)]
pub struct Faults {
    found: Vec<String>,
}

impl Faults {
    pub fn new() -> Faults {
        Faults::default()
    }

    pub fn none(&self) -> bool {
        self.found.is_empty()
    }

    pub fn add(&mut self, fault: String) {
        self.found.push(fault);
    }

    /// The packed answers. Where the library refuses, its number stands alone, whatever the model says.
    pub fn answer(&mut self, library: u32, model: u32) {
        if library != model {
            self.add(format!("answer: library {}, model {}", answer_text(library), answer_text(model)));
        }
        if refused(library) && library > 0xFF {
            self.add(format!("answer: a refusal with higher bits, {}", answer_text(library)));
        }
    }

    /// A buffer that the call may write; where it refuses, every byte stays as lent.
    pub fn written<T: Item>(&mut self, name: &str, buffer: &Both<T>, refused: bool) {
        self.canaries(name, &buffer.library);
        let library = buffer.contents();
        if !T::same(library, &buffer.model) {
            self.add(format!("{name}: {}", unlike(library, &buffer.model, "model")));
        }
        if refused && !T::same(library, &buffer.before) {
            self.add(format!("{name}: changed by a refused call: {}", unlike(library, &buffer.before, "lent")));
        }
    }

    /// A buffer that the call may only read.
    pub fn kept<T: Item>(&mut self, name: &str, buffer: &Lent<T>, lent: &[T]) {
        self.canaries(name, buffer);
        if !T::same(buffer.part(), lent) {
            self.add(format!("{name}: a buffer to be read was changed: {}", unlike(buffer.part(), lent, "lent")));
        }
    }

    pub fn canaries<T: Item>(&mut self, name: &str, buffer: &Lent<T>) {
        if !buffer.canaries_stand() {
            self.add(format!("{name}: a canary beside the buffer was changed"));
        }
    }
}

pub fn refused(answer: u32) -> bool {
    answer & 0xFF != 0
}

fn answer_text(answer: u32) -> String {
    format!("{answer:#010x} (number {}, first {}, second {})", answer & 0xFF, answer >> 8 & 0xFF, answer >> 16)
}

/// The first place where two buffers of one length differ, and both in full.
fn unlike<T: Item>(library: &[T], other: &[T], other_name: &str) -> String {
    let place = (0..library.len()).find(|&place| !T::same(&library[place..=place], &other[place..=place]));
    let place = place.expect("two buffers that are unlike differ somewhere");
    format!(
        "first at {place}: library {}, {other_name} {}\n      library {}\n      {other_name} {}",
        library[place].text(),
        other[place].text(),
        listed(library),
        listed(other)
    )
}

/// All elements, in lines; a record has a line of its own.
pub fn listed<T: Item>(elements: &[T]) -> String {
    let mut text = format!("{} elements", elements.len());
    for (line, part) in elements.chunks(RECORD).enumerate() {
        let words: Vec<String> = part.iter().map(|&element| element.text()).collect();
        text += &format!("\n        {:>5}: {}", RECORD * line, words.join(" "));
    }
    text
}

pub struct Difference {
    pub kind: &'static str,
    pub function: &'static str,
    pub seed: u64,
    pub case: u64,
    pub inputs: Vec<(&'static str, String)>,
    pub faults: Faults,
}

impl Display for Difference {
    fn fmt(&self, to: &mut Formatter) -> fmt::Result {
        writeln!(to, "a difference in {} (kind \"{}\", seed {:#x}, case {})", self.function, self.kind, self.seed, self.case)?;
        writeln!(to, "  lent:")?;
        for (name, text) in &self.inputs {
            writeln!(to, "    {name}: {text}")?;
        }
        writeln!(to, "  found:")?;
        for fault in &self.faults.found {
            writeln!(to, "    {fault}")?;
        }
        Ok(())
    }
}
