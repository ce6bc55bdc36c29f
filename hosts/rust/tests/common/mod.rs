//! What the differential tests of the calls share: lent memory, and the tally of what was met and what differed.

use additional_pension::raw;
use reference::samples::Random;
use std::fmt::{Debug, Display};

pub const SEED: u64 = 20_150_331;
pub const INPUTS: u32 = 2_000_000;

/// Bytes on either side of a lent piece of memory.
const MARGIN: usize = 64;

/// Memory of which a piece is lent: what stands around it must stay.
pub struct Lent {
    pub bytes: Vec<u8>,
    start: usize,
    length: usize,
}

impl Lent {
    pub fn new(random: &mut Random, length: usize) -> Lent {
        let start = MARGIN + random.from_to(0, 7) as usize;
        let mut bytes = Vec::with_capacity(start + length + MARGIN);
        while bytes.len() < start + length + MARGIN {
            bytes.extend(random.number().to_le_bytes());
        }
        Lent { bytes, start, length }
    }

    pub fn piece(&mut self) -> &mut [u8] {
        &mut self.bytes[self.start..self.start + self.length]
    }

    /// What a call should give that is lent this piece for its answer: its value, and all of the memory afterwards.
    pub fn expected(&self, refusal: u32, answer: &[u8]) -> (u32, Vec<u8>) {
        let mut bytes = self.bytes.clone();
        if self.length < answer.len() {
            return (raw::SHORT_BUFFER, bytes);
        }
        bytes[self.start..self.start + answer.len()].copy_from_slice(answer);
        (refusal, bytes)
    }
}

/// A length for a result's buffer: exact, with room to spare, or too short.
pub fn buffer_length(random: &mut Random, exact: usize) -> usize {
    match random.from_to(0, 9) {
        0 => random.from_to(0, exact as u32 - 1) as usize,
        1 => exact - 1,
        2 => exact + 1,
        3 | 4 => exact + random.from_to(1, 100) as usize,
        _ => exact,
    }
}

/// What was met, and what differed.
#[derive(Default)]
pub struct Tally<Met> {
    pub inputs: u64,
    pub refusals: [u64; 19],
    pub differences: u64,
    /// What is counted for some calls only.
    pub met: Met,
}

impl<Met: Display> Tally<Met> {
    /// Counts an input to which a call should give this value.
    pub fn count(&mut self, value: u32) {
        self.inputs += 1;
        self.refusals[value as usize] += 1;
    }

    pub fn compare<T: PartialEq + Debug>(&mut self, input: impl Debug, part: T, reference: T) {
        if part == reference {
            return;
        }
        self.differences += 1;
        if self.differences <= 5 {
            println!("difference at {input:?}\n  part      {part:?}\n  reference {reference:?}");
        }
    }

    pub fn print(&self, call: &str) {
        println!("{call}: {} inputs, {} differences", self.inputs, self.differences);
        println!("  refusals: {}", list(&self.refusals));
        print!("{}", self.met);
    }

    /// Every refusal of the call has been met, and no other. Number 6 has no input: the upper table has a rate wherever the
    /// lower has one. Number 13 belongs to contract records and 15 to the case file, which have no call.
    pub fn assert_met(&self, refusals: &[usize]) {
        for number in 0..self.refusals.len() {
            assert_eq!(self.refusals[number] > 0, refusals.contains(&number), "refusal {number}");
        }
    }
}

/// The counts above 0, each after its number.
pub fn list(counts: &[u64]) -> String {
    let met = counts.iter().enumerate().filter(|(_, count)| **count > 0);
    met.map(|(number, count)| format!("{number}: {count}")).collect::<Vec<_>>().join(", ")
}
