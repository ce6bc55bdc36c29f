//! Made-up inputs for tests and measurements, lawful and damaged. The same seed gives the same inputs.

use crate::marks::{ENDED, MISSED, PAID};
use crate::terms::Terms;

mod applications;

pub use applications::{application, half_penny_pay, lawful_application};

/// A small generator of pseudo-random numbers (splitmix64).
pub struct Random(u64);

impl Random {
    pub fn new(seed: u64) -> Random {
        Random(seed)
    }

    pub fn number(&mut self) -> u64 {
        self.0 = self.0.wrapping_add(0x9e37_79b9_7f4a_7c15);
        let mut mixed = self.0;
        mixed = (mixed ^ (mixed >> 30)).wrapping_mul(0xbf58_476d_1ce4_e5b9);
        mixed = (mixed ^ (mixed >> 27)).wrapping_mul(0x94d0_49bb_1331_11eb);
        mixed ^ (mixed >> 31)
    }

    /// A number from `least` to `most`.
    pub fn from_to(&mut self, least: u32, most: u32) -> u32 {
        let width = u64::from(most - least) + 1;
        least + (((self.number() >> 32) * width) >> 32) as u32
    }

    /// True once in `times`, on average.
    pub fn one_in(&mut self, times: u32) -> bool {
        self.from_to(1, times) == 1
    }

    pub fn pick<T: Copy>(&mut self, choices: &[T]) -> T {
        choices[self.from_to(0, choices.len() as u32 - 1) as usize]
    }

    /// A byte that is nothing in particular.
    pub fn byte(&mut self) -> u8 {
        self.number() as u8
    }
}

/// How many inputs a test makes up: the number that the environment has under this name, else the usual one.
pub fn how_many(name: &str, usual: u32) -> u32 {
    let given = std::env::var(name).ok();
    given.map_or(usual, |number| number.parse().unwrap_or_else(|_| panic!("{name} is not a number")))
}

/// Terms of a monthly contract that nothing refuses.
pub fn monthly_terms(random: &mut Random) -> Terms {
    let pension_age_years = random.from_to(65, 68);
    let odd = pension_age_years < 68 && random.one_in(2);
    let term = random.from_to(1, 20);
    Terms {
        age: random.from_to(16, pension_age_years - 1 - term),
        pension_age_years,
        pension_age_months: if odd { random.from_to(1, 11) } else { 0 },
        option: random.from_to(1, 2),
        payer: 1,
        term,
        amount: 250 * random.from_to(1, 26),
    }
}

/// Terms that nothing refuses, one in eight of them a lump sum.
pub fn lawful_terms(random: &mut Random) -> Terms {
    let terms = monthly_terms(random);
    if random.one_in(8) {
        return Terms { age: random.from_to(16, 64), payer: random.from_to(1, 2), term: 0, ..terms };
    }
    terms
}

/// A number that somebody might give by mistake, small, at an edge of 32 bits, or anything.
fn wild(random: &mut Random) -> u32 {
    match random.from_to(0, 3) {
        0 => random.from_to(0, 24),
        1 => random.from_to(60, 70),
        2 => random.pick(&[u32::MAX, u32::MAX - 1, 1 << 31, (1 << 31) - 1, 1 << 16, 65_535, 256, 255, 4_294_967_250]),
        _ => random.number() as u32,
    }
}

/// Damages one field, mostly to a value just outside what is lawful.
fn damage_terms(random: &mut Random, terms: &mut Terms) {
    let stray = wild(random);
    let is_wild = random.one_in(3);
    let mut choose = |near: &[u32]| if is_wild { stray } else { random.pick(near) };
    match stray % 7 {
        0 => {
            let first_without = terms.pension_age_years.saturating_sub(terms.term);
            terms.age = choose(&[0, 15, 64, 65, 66, 67, first_without, first_without.saturating_add(1)]);
        }
        1 => terms.pension_age_years = choose(&[0, 64, 68, 69]),
        2 => terms.pension_age_months = choose(&[1, 11, 12, 13]),
        3 => terms.option = choose(&[0, 3]),
        4 => terms.payer = choose(&[0, 2, 3]),
        5 => terms.term = choose(&[0, 20, 21]),
        _ => terms.amount = choose(&[0, 1, 249, 251, 1_100, 6_499, 6_750, 7_000]),
    }
}

/// Terms, one in three of them damaged in up to three fields.
pub fn terms(random: &mut Random) -> Terms {
    let mut terms = lawful_terms(random);
    if random.one_in(3) {
        for _ in 0..random.pick(&[1, 1, 1, 2, 3]) {
            damage_terms(random, &mut terms);
        }
    }
    terms
}

/// Pension that a member might have, in pence: nothing, at the edge of the cap with this amount, or anything.
pub fn existing(random: &mut Random, amount: u32) -> u64 {
    let left = 650_000_u64.saturating_sub(u64::from(amount) * 100);
    match random.from_to(0, 7) {
        0..=2 => 0,
        3 => u64::from(random.from_to(0, 650_000)),
        4 => random.pick(&[u64::MAX, u64::MAX - 25_000, u64::MAX - 24_999, 1 << 63, 1 << 32, 650_000, 650_001]),
        5 => random.number(),
        _ => (left + u64::from(random.from_to(0, 2))).saturating_sub(1),
    }
}

/// A register's last number: in use, at its end, or impossible.
pub fn last_number(random: &mut Random) -> u32 {
    match random.from_to(0, 5) {
        0 => random.pick(&[0, 999_997, 999_998, 999_999, 1_000_000, u32::MAX]),
        1 => random.number() as u32,
        _ => random.from_to(0, 999_998),
    }
}

/// Another number that has the low bits of this one.
fn with_high_bits(random: &mut Random, number: u32) -> u32 {
    number.wrapping_add(random.pick(&[1 << 8, 1 << 16, 3 << 16, 1 << 24, 1 << 31]))
}

/// An age at which the rest of a contract might be paid off: mostly one with a printed lump sum, about the first and last of
/// them, or anything.
pub fn age_now(random: &mut Random) -> u32 {
    let usual = random.from_to(16, 64);
    match random.from_to(0, 15) {
        0 => wild(random),
        1 => with_high_bits(random, usual),
        2 => random.pick(&[0, 14, 15, 65, 66, 67]),
        3 | 4 => random.pick(&[16, 17, 63, 64]),
        _ => usual,
    }
}

/// An increase in thousandths: mostly one that is taken, small or large, about the ends of what is taken, or anything.
pub fn increase(random: &mut Random) -> u32 {
    let usual = random.from_to(1_000, 9_999);
    match random.from_to(0, 15) {
        0 => wild(random),
        1 => with_high_bits(random, usual),
        2 => random.pick(&[0, 1, 100, 998, 999, 10_000, 10_001, 99_999]),
        3 | 4 => random.pick(&[1_000, 1_001, 9_998, 9_999]),
        5..=9 => random.from_to(1_000, 1_300),
        _ => usual,
    }
}

/// Marks from runs: `runs(&[(18, 1), (4, 0)])` is 18 paid and 4 missed.
pub fn runs(runs: &[(usize, u8)]) -> Vec<u8> {
    runs.iter().flat_map(|&(count, mark)| std::iter::repeat_n(mark, count)).collect()
}

/// Lawful marks of a monthly contract, just so many: paid runs, gaps, a lapse or a notice.
pub fn lawful_marks(random: &mut Random, count: usize) -> Vec<u8> {
    let longest_run = random.pick(&[3, 15, 40, 300]);
    let lapses = random.one_in(4);
    let mut marks = Vec::with_capacity(count);
    while marks.len() < count {
        let run = random.from_to(1, longest_run) as usize;
        marks.extend(std::iter::repeat_n(PAID, run));
        match random.from_to(0, 9) {
            0 if lapses => {
                let lapse = random.from_to(12, 40) as usize;
                marks.extend(std::iter::repeat_n(MISSED, lapse));
                let last = random.pick(&[MISSED, ENDED]);
                marks.resize(marks.len().max(count), last);
            }
            1 if lapses => marks.resize(marks.len().max(count), ENDED),
            _ => {
                let gap = random.from_to(0, 11) as usize;
                marks.extend(std::iter::repeat_n(MISSED, gap));
            }
        }
    }
    if random.one_in(64) {
        marks.fill(ENDED);
    }
    marks.truncate(count);
    marks
}

/// A number of elapsed months: none, few, the whole term or near it, or too many.
fn count(random: &mut Random, term: u32) -> usize {
    let months = 12 * term.min(21);
    match random.from_to(0, 15) {
        0 => 0,
        1 | 2 => random.from_to(1, 14),
        3 | 4 => months,
        5 => months.saturating_sub(1),
        6 => months + random.from_to(1, 3),
        7 => random.from_to(0, 300),
        _ => random.from_to(0, months),
    }
    .try_into()
    .expect("a count of months is small")
}

/// Spoils up to three marks.
fn damage_marks(random: &mut Random, marks: &mut [u8]) {
    for _ in 0..random.from_to(1, 3) {
        let index = random.from_to(0, marks.len() as u32 - 1) as usize;
        marks[index] = match random.from_to(0, 7) {
            0 => random.byte(),
            1 => random.from_to(3, 9) as u8,
            _ => random.from_to(0, 2) as u8,
        };
    }
}

/// Lawful marks of a lump sum, from none to twelve: months that have elapsed, in half of the lists the months since leaving too.
pub fn lawful_lump_sum_marks(random: &mut Random) -> Vec<u8> {
    let count = random.from_to(0, 12);
    let left = if random.one_in(2) { random.from_to(0, count) } else { 0 };
    runs(&[((count - left) as usize, PAID), (left as usize, ENDED)])
}

/// Marks for a lump sum: one in three lists damaged, one in eight with more marks than it may have.
fn lump_sum_marks(random: &mut Random) -> Vec<u8> {
    let mut marks = lawful_lump_sum_marks(random);
    if !marks.is_empty() && random.one_in(3) {
        damage_marks(random, &mut marks);
    }
    if random.one_in(8) {
        let count = random.pick(&[13, 13, 14, 24, 240, 300]);
        let last = random.pick(&[PAID, ENDED]);
        marks.resize(count, last);
    }
    marks
}

/// Marks for a monthly contract: some with a gap about as long as may be, one list in three damaged.
fn monthly_marks(random: &mut Random, term: u32) -> Vec<u8> {
    let count = count(random, term);
    let mut marks = lawful_marks(random, count);
    if count > 14 && random.one_in(16) {
        let gap = random.from_to(11, 13) as usize;
        let start = random.from_to(1, (count - gap) as u32 - 1) as usize;
        marks[start..start + gap].fill(MISSED);
        marks[start + gap] = PAID;
    }
    if count > 0 && random.one_in(3) {
        damage_marks(random, &mut marks);
    }
    marks
}

/// Marks for a contract of this term, lawful and damaged.
pub fn marks(random: &mut Random, term: u32) -> Vec<u8> {
    match term {
        0 => lump_sum_marks(random),
        years => monthly_marks(random, years),
    }
}

/// As many lawful marks as a contract of this term may have, or fewer.
pub fn some_lawful_marks(random: &mut Random, term: u32) -> Vec<u8> {
    if term == 0 {
        return lawful_lump_sum_marks(random);
    }
    let count = random.from_to(0, 12 * term) as usize;
    lawful_marks(random, count)
}

/// The terms and marks of a monthly contract that Settle takes.
pub fn monthly_contract(random: &mut Random) -> (Terms, Vec<u8>) {
    let terms = monthly_terms(random);
    let count = count(random, terms.term).min(12 * terms.term as usize);
    (terms, lawful_marks(random, count))
}

/// Puts a line of the case file, without its end, in the place of what `line` held. Numbers keep the digits that fit.
pub fn write_line(line: &mut Vec<u8>, election: u32, terms: &Terms, marks: &[u8]) {
    use std::io::Write;
    line.clear();
    write!(
        line,
        "{:>6}{:>3}{:>3}{:>3}{:>2}{:>2}{:>3}{:>7}",
        election % 1_000_000,
        terms.age % 1_000,
        terms.pension_age_years % 1_000,
        terms.pension_age_months % 1_000,
        terms.option % 100,
        terms.payer % 100,
        terms.term % 1_000,
        terms.amount % 10_000_000,
    )
    .expect("a vector takes every byte");
    line.extend(marks.iter().map(|mark| b'0' + mark % 10));
}

/// Spoils the shape of a line, or brings it to the edge of what is still a line.
fn damage_line(random: &mut Random, line: &mut Vec<u8>) {
    let length = line.len() as u32;
    let place = random.from_to(0, length - 1) as usize;
    let in_fields = random.from_to(0, 28) as usize;
    let odd_bytes = [b'0', b'1', b' ', b'-', b'+', b'.', b'a', b'\r', b'\t', 0, b'/', b':', 127, 128, 255];
    match random.from_to(0, 11) {
        0 => line[place] = random.pick(&odd_bytes),
        1 | 2 => line[in_fields] = random.pick(&odd_bytes),
        3 => line.insert(place, random.pick(&odd_bytes)),
        4 => drop(line.remove(place)),
        5 => line.truncate(place),
        6 => line.push(b'\r'),
        7 => line.resize(random.pick(&[28, 29, 30, 284, 285, 286, 287]), b'1'),
        8 => line.resize(random.from_to(287, 3_000) as usize, b'1'),
        9 => line.clear(),
        10 => {
            let (from, to) = random.pick(&[(0, 6), (6, 9), (9, 12), (12, 15), (15, 17), (17, 19), (19, 22), (22, 29)]);
            line[from..to].fill(random.pick(b" 0"));
        }
        _ => {
            let leading = line.iter().position(|&byte| byte != b' ').map_or(0, |first| first.max(1) - 1);
            line[leading] = b'0';
        }
    }
    line.retain(|&byte| byte != b'\n');
}

/// Puts a line of the case file of any shape, without its end, in the place of what `line` held.
pub fn line(random: &mut Random, line: &mut Vec<u8>, election: u32) {
    let terms = terms(random);
    let marks = marks(random, terms.term);
    write_line(line, election, &terms, &marks[..marks.len().min(270)]);
    if random.one_in(4) {
        damage_line(random, line);
    }
}

/// A file of `lines` lines of every shape, each with its end.
pub fn case_file(random: &mut Random, lines: u32) -> Vec<u8> {
    let mut file = Vec::new();
    let mut one = Vec::new();
    for election in 1..=lines {
        line(random, &mut one, election);
        file.extend_from_slice(&one);
        file.push(b'\n');
    }
    file
}
