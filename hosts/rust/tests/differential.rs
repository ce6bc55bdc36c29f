//! Quotes, settlements and pay-offs against the reference, over made-up inputs and over every lawful election.
//!
//! Each call gets its marks and its buffer within a larger piece of memory, at any alignment. All of that memory is compared
//! afterwards, so a byte changed before, after or in the marks counts as a difference just as a wrong result does.
//! `AP_INPUTS` sets how many quotes and settlements together, and how many pay-offs, are made up.

mod common;

use additional_pension::raw::{self, Numbers};
use common::{buffer_length, list, Lent, INPUTS, SEED};
use reference::halves::{HalvesUp, PLACES};
use reference::samples::{self, Random};
use reference::{Settlement, Terms};
use std::fmt;

/// £1,000 over 5 years from 50, with dependant's pension.
const FIVE_YEARS: Terms =
    Terms { age: 50, pension_age_years: 65, pension_age_months: 0, option: 2, payer: 1, term: 5, amount: 1_000 };

type Tally = common::Tally<Contracts>;

/// What was met among contracts.
#[derive(Default)]
struct Contracts {
    statuses: [u64; 7],
    longest: usize,
    /// For each of the places where halves go to the even penny: the answers that would be others, if they went up there.
    halves: [u64; PLACES.len()],
    rests: Rests,
    lump_sums: LumpSums,
}

/// What was met among pay-offs alone.
#[derive(Debug, Default)]
struct Rests {
    /// Refused 5 for the age now, and not for the election.
    no_rate_now: u64,
    /// Taken, with nothing to pay.
    cost_nothing: u64,
    /// Taken, with an increased pension that is half a penny more than an even number before its rounding: it goes up, and would
    /// go down to the even penny.
    halves: u64,
}

/// What was met among lump sums alone.
#[derive(Debug, Default)]
struct LumpSums {
    /// Refused 10, 11 and 12.
    refused: [u64; 3],
    /// Status 6, by the number of marks.
    credited: [u64; 13],
    /// Status 5, by the number of marks, and of these the employers'.
    refunded: [u64; 13],
    to_employer: u64,
}

impl LumpSums {
    /// Counts a contract, if it is a lump sum, by what Settle gives for it.
    fn count(&mut self, terms: &Terms, marks: &[u8], settled: &Settlement) {
        if terms.term > 0 {
            return;
        }
        match (settled.refusal, settled.status) {
            (0, 5) => {
                self.refunded[marks.len()] += 1;
                self.to_employer += u64::from(terms.payer == 2);
            }
            (0, 6) => self.credited[marks.len()] += 1,
            (0, status) => panic!("status {status} of a lump sum"),
            (refusal @ 10..=12, _) => self.refused[refusal as usize - 10] += 1,
            _ => (),
        }
    }

    /// Each refusal of marks, and each status with every number of marks that it can have.
    fn assert_met(&self) {
        let [none, marked @ ..] = self.refunded;
        assert_eq!(none, 0, "a mark 2 is a mark");
        let counts = [&self.refused[..], &self.credited, &marked, &[self.to_employer]];
        assert!(counts.concat().iter().all(|count| *count > 0), "{self:?}");
    }
}

impl Contracts {
    /// Counts, for each place, whether the answer would be another if halves went up there.
    fn count_halves(&mut self, is_another: impl Fn(HalvesUp) -> bool) {
        for (count, place) in self.halves.iter_mut().zip(PLACES) {
            *count += u64::from(is_another(HalvesUp(&[place])));
        }
    }
}

impl fmt::Display for Contracts {
    fn fmt(&self, formatter: &mut fmt::Formatter<'_>) -> fmt::Result {
        if self.halves.iter().any(|count| *count > 0) {
            let halves: Vec<_> = PLACES.iter().zip(self.halves).map(|(place, count)| format!("{place:?}: {count}")).collect();
            writeln!(formatter, "  another answer with halves up: {}", halves.join(", "))?;
        }
        if self.statuses.iter().any(|count| *count > 0) {
            writeln!(formatter, "  statuses: {}", list(&self.statuses))?;
            writeln!(formatter, "  most marks in one input: {}", self.longest)?;
        }
        let LumpSums { refused, credited, refunded, to_employer } = &self.lump_sums;
        if credited.iter().chain(refunded).any(|count| *count > 0) {
            writeln!(formatter, "  lump sums refused 10 to 12: {refused:?}, by the number of marks")?;
            writeln!(formatter, "    credited: {}", list(credited))?;
            writeln!(formatter, "    refunded: {}; to an employer: {to_employer}", list(refunded))?;
        }
        let Rests { no_rate_now, cost_nothing, halves } = self.rests;
        if no_rate_now + cost_nothing + halves > 0 {
            write!(formatter, "  refused 5 for the age now: {no_rate_now}, ")?;
            writeln!(formatter, "cost nothing: {cost_nothing}, halves up to odd: {halves}")?;
        }
        Ok(())
    }
}

/// Memory of which a piece that holds the marks is lent.
fn lent_marks(random: &mut Random, marks: &[u8]) -> Lent {
    let mut lent = Lent::new(random, marks.len());
    lent.piece().copy_from_slice(marks);
    lent
}

/// One quote: its value, and all the memory it was lent.
fn compare_quote(random: &mut Random, tally: &mut Tally, terms: &Terms, existing: u64, last_number: u32, length: usize) {
    let mut out = Lent::new(random, length);
    let answer = reference::quote(terms, existing, last_number);
    let (value, expected) = out.expected(answer.refusal, &answer.bytes());
    let given = raw::quote(&Numbers::from(terms.numbers()), existing, last_number, out.piece());
    tally.count(value);
    if value == 0 {
        tally.met.count_halves(|up| up.contribution(terms) != answer.contribution);
    }
    tally.compare((terms, existing, last_number, length), (given, out.bytes), (value, expected));
}

/// One settlement: its value, and all the memory it was lent, marks included.
fn compare_settle(random: &mut Random, tally: &mut Tally, terms: &Terms, marks: &[u8], length: usize) {
    let mut lent_marks = lent_marks(random, marks);
    let marks_before = lent_marks.bytes.clone();
    let mut out = Lent::new(random, length);
    let answer = reference::settle(terms, marks);
    let (value, expected) = out.expected(answer.refusal, &answer.bytes());
    let given = raw::settle(&Numbers::from(terms.numbers()), lent_marks.piece(), out.piece());
    tally.count(value);
    tally.met.longest = tally.met.longest.max(marks.len());
    if value != raw::SHORT_BUFFER {
        tally.met.lump_sums.count(terms, marks, &answer);
    }
    if value == 0 {
        tally.met.statuses[answer.status as usize] += 1;
        tally.met.count_halves(|up| up.contribution(terms) != answer.contribution || up.credit(terms, marks) != answer.credit);
    }
    tally.compare((terms, marks, length), (given, out.bytes, lent_marks.bytes), (value, expected, marks_before));
}

/// One pay-off: its value, and all the memory it was lent, marks included.
fn compare_pay_off(
    random: &mut Random,
    tally: &mut Tally,
    terms: &Terms,
    marks: &[u8],
    age_now: u32,
    increase: u32,
    length: usize,
) {
    let mut lent_marks = lent_marks(random, marks);
    let marks_before = lent_marks.bytes.clone();
    let mut out = Lent::new(random, length);
    let answer = reference::pay_off(terms, marks, age_now, increase);
    let (value, expected) = out.expected(answer.refusal, &answer.bytes());
    let given = raw::pay_off(&Numbers::from(terms.numbers()), lent_marks.piece(), age_now, increase, out.piece());
    tally.count(value);
    tally.met.longest = tally.met.longest.max(marks.len());
    let settled = reference::settle(terms, marks);
    if value != raw::SHORT_BUFFER {
        tally.met.lump_sums.count(terms, marks, &settled);
    }
    if value == 0 {
        tally.met.statuses[settled.status as usize] += 1;
        tally.met.rests.cost_nothing += u64::from(answer.cost == 0);
        tally.met.rests.halves += u64::from(answer.remaining * u64::from(increase) % 2_000 == 500);
        tally.met.count_halves(|up| up.credit(terms, marks) != settled.credit);
    }
    tally.met.rests.no_rate_now += u64::from(value == 5 && settled.refusal == 0);
    let input = (terms, marks, age_now, increase, length);
    tally.compare(input, (given, out.bytes, lent_marks.bytes), (value, expected, marks_before));
}

/// Marks of any length, far past every term too.
fn any_marks(random: &mut Random, term: u32) -> Vec<u8> {
    if random.one_in(500) {
        let length = random.from_to(1, 20_000) as usize;
        return (0..length).map(|_| random.byte()).collect();
    }
    samples::marks(random, term)
}

#[test]
fn made_up_inputs() {
    let mut random = Random::new(SEED);
    let mut quotes = Tally::default();
    let mut settlements = Tally::default();
    for _ in 0..samples::how_many("AP_INPUTS", INPUTS) / 2 {
        let terms = samples::terms(&mut random);
        let existing = samples::existing(&mut random, terms.amount);
        let last_number = samples::last_number(&mut random);
        let length = buffer_length(&mut random, raw::QUOTE_BYTES);
        compare_quote(&mut random, &mut quotes, &terms, existing, last_number, length);

        let terms = samples::terms(&mut random);
        let marks = any_marks(&mut random, terms.term);
        let length = buffer_length(&mut random, raw::SETTLE_BYTES);
        compare_settle(&mut random, &mut settlements, &terms, &marks, length);
    }
    quotes.print("made-up quotes");
    settlements.print("made-up settlements");
    quotes.assert_met(&[0, 1, 2, 3, 4, 5, 7, 8, 9, 14]);
    settlements.assert_met(&[0, 1, 2, 3, 4, 5, 7, 8, 10, 11, 12, 14]);
    assert!(settlements.met.statuses.iter().all(|count| *count > 0), "every status is met");
    settlements.met.lump_sums.assert_met();
    assert_eq!(quotes.met.halves.map(|count| count > 0), [true, false, false, false]);
    assert_eq!(settlements.met.halves.map(|count| count > 0), [true; 4]);
    assert_eq!(quotes.differences + settlements.differences, 0);
}

/// Every refusal that a pay-off can give, short buffers included.
const PAY_OFF_REFUSALS: [usize; 14] = [0, 1, 2, 3, 4, 5, 7, 8, 10, 11, 12, 14, 16, 17];

#[test]
fn made_up_pay_offs() {
    let mut random = Random::new(SEED);
    let mut pay_offs = Tally::default();
    for _ in 0..samples::how_many("AP_INPUTS", INPUTS) {
        let (mut terms, mut marks) = samples::monthly_contract(&mut random);
        if random.one_in(2) {
            terms = samples::terms(&mut random);
            marks = any_marks(&mut random, terms.term);
        }
        let age_now = samples::age_now(&mut random);
        let increase = samples::increase(&mut random);
        let length = buffer_length(&mut random, raw::PAY_OFF_BYTES);
        compare_pay_off(&mut random, &mut pay_offs, &terms, &marks, age_now, increase, length);
    }
    pay_offs.print("made-up pay-offs");
    pay_offs.assert_met(&PAY_OFF_REFUSALS);
    assert!(pay_offs.refusals[5] > pay_offs.met.rests.no_rate_now, "refused 5 for the election too");
    assert_eq!(pay_offs.met.statuses.map(|count| count > 0), [false, true, true, true, true, false, false]);
    let Rests { no_rate_now, cost_nothing, halves } = pay_offs.met.rests;
    assert!(no_rate_now > 0 && cost_nothing > 0 && halves > 0, "{:?}", pay_offs.met.rests);
    assert_eq!(pay_offs.met.halves.map(|count| count > 0), [false, true, true, true]);
    pay_offs.met.lump_sums.assert_met();
    assert_eq!(pay_offs.differences, 0);
}

/// Every age, pension age, option and term, in and about their ranges, with an amount that changes from one to the next. At a
/// whole pension age every number of whole years is settled too: so every printed rate prices an election and makes a
/// whole-year credit.
#[test]
fn every_election() {
    let mut random = Random::new(SEED);
    let mut quotes = Tally::default();
    let mut settlements = Tally::default();
    let pension_ages = (64..=69).flat_map(|years| (0..=12).map(move |months| (years, months)));
    for (pension_age_years, pension_age_months) in pension_ages {
        for (option, term) in (1..=2).flat_map(|option| (0..=20).map(move |term| (option, term))) {
            for age in 14..=70 {
                let amount = 250 * random.from_to(1, 26);
                let terms = Terms { age, pension_age_years, pension_age_months, option, payer: 1, term, amount };
                compare_quote(&mut random, &mut quotes, &terms, 0, 0, raw::QUOTE_BYTES);
                let marks = samples::some_lawful_marks(&mut random, term);
                compare_settle(&mut random, &mut settlements, &terms, &marks, raw::SETTLE_BYTES);
                let whole_years = if pension_age_months == 0 { term as usize } else { 0 };
                for year in 1..=whole_years {
                    compare_settle(&mut random, &mut settlements, &terms, &[1; 240][..12 * year], raw::SETTLE_BYTES);
                }
            }
        }
    }
    quotes.print("every election, quoted");
    settlements.print("every election, settled");
    assert_eq!(quotes.met.halves.map(|count| count > 0), [true, false, false, false]);
    assert_eq!(settlements.met.halves.map(|count| count > 0), [true; 4]);
    assert_eq!(quotes.differences + settlements.differences, 0);
}

/// Five years paying, in a gap, complete and ceased: the statuses that can be paid off.
fn histories() -> [Vec<u8>; 4] {
    [&[(18, 1)][..], &[(18, 1), (4, 0)], &[(60, 1)], &[(12, 1), (1, 2)]].map(samples::runs)
}

/// Every age up to past the last with a printed lump sum, each with increases about the ends of what is taken; then every
/// increase up to past the greatest.
#[test]
fn every_age_now_and_increase() {
    let mut random = Random::new(SEED);
    let mut ages = Tally::default();
    let mut increases = Tally::default();
    let edges = [0, 1, 999, 1_000, 1_001, 1_500, 9_998, 9_999, 10_000, 10_001, u32::MAX];
    for (pension_age_years, pension_age_months) in [(65, 0), (65, 1), (65, 11), (66, 0), (66, 5), (67, 6), (67, 11), (68, 0)] {
        for (option, marks) in (1..=2).flat_map(|option| histories().map(|marks| (option, marks))) {
            for (age_now, increase) in (0..=70).flat_map(|age_now| edges.map(|increase| (age_now, increase))) {
                let amount = 250 * random.from_to(1, 26);
                let terms = Terms { pension_age_years, pension_age_months, option, amount, ..FIVE_YEARS };
                compare_pay_off(&mut random, &mut ages, &terms, &marks, age_now, increase, raw::PAY_OFF_BYTES);
            }
        }
    }
    for terms in [FIVE_YEARS, Terms { pension_age_months: 7, option: 1, amount: 6_500, ..FIVE_YEARS }] {
        for (increase, marks) in (0..=10_100).flat_map(|increase| histories().map(|marks| (increase, marks))) {
            compare_pay_off(&mut random, &mut increases, &terms, &marks, 51, increase, raw::PAY_OFF_BYTES);
        }
    }
    ages.print("every age now");
    increases.print("every increase");
    ages.assert_met(&[0, 5, 17]);
    increases.assert_met(&[0, 17]);
    assert_eq!(ages.differences + increases.differences, 0);
}

/// Each of Settle's refusals and statuses, together with every choice of a wrong increase, a wrong age now and a short buffer.
#[test]
fn pay_offs_refused_for_several_reasons() {
    let mut random = Random::new(SEED);
    let mut pay_offs = Tally::default();
    let sound = FIVE_YEARS;
    let wrong_terms = [
        Terms { option: 3, ..sound },
        Terms { pension_age_years: 68, pension_age_months: 1, ..sound },
        Terms { term: 21, ..sound },
        Terms { payer: 2, ..sound },
        Terms { age: 60, ..sound },
        Terms { amount: 1_100, ..sound },
        Terms { amount: 6_750, ..sound },
    ];
    let wrong_marks =
        [&[(61, 1)][..], &[(3, 1), (1, 3)], &[(1, 1), (12, 0), (1, 1)], &[], &[(11, 1), (1, 2)]].map(samples::runs);
    let mut contracts = wrong_terms.map(|terms| (terms, vec![1; 18])).to_vec();
    contracts.extend(wrong_marks.into_iter().chain(histories()).map(|marks| (sound, marks)));
    let lump_sum = Terms { term: 0, ..sound };
    let first_years = [&[][..], &[(12, 1)], &[(11, 1), (1, 2)], &[(13, 1)], &[(1, 1), (1, 3)], &[(1, 0)], &[(1, 2), (1, 1)]];
    contracts.extend(first_years.map(|marks| (lump_sum, samples::runs(marks))));
    let ages = [0, 15, 16, 64, 65, u32::MAX];
    let increases = [0, 999, 1_000, 9_999, 10_000, u32::MAX];
    for (terms, marks) in contracts {
        for (age_now, increase) in ages.iter().flat_map(|&age_now| increases.map(|increase| (age_now, increase))) {
            for length in [0, 39, 40, 41] {
                compare_pay_off(&mut random, &mut pay_offs, &terms, &marks, age_now, increase, length);
            }
        }
    }
    pay_offs.print("pay-offs refused for several reasons");
    pay_offs.assert_met(&PAY_OFF_REFUSALS);
    assert_eq!(pay_offs.differences, 0);
}

/// Every list of up to seven marks from 0 to 3, and every place for a bad mark in a full contract.
#[test]
fn every_short_history() {
    let mut random = Random::new(SEED);
    let mut settlements = Tally::default();
    let mut pay_offs = Tally::default();
    let mut compare = |terms: &Terms, marks: &[u8]| {
        compare_settle(&mut random, &mut settlements, terms, marks, raw::SETTLE_BYTES);
        compare_pay_off(&mut random, &mut pay_offs, terms, marks, 51, 1_011, raw::PAY_OFF_BYTES);
    };
    let odd = Terms { pension_age_months: 7, term: 1, ..FIVE_YEARS };
    for count in 0..=7 {
        for history in 0..4_u32.pow(count) {
            let marks: Vec<u8> = (0..count).map(|month| (history >> (2 * month) & 3) as u8).collect();
            compare(&FIVE_YEARS, &marks);
            compare(&odd, &marks);
        }
    }
    for place in 0..60 {
        for mark in 0..=255 {
            let mut marks = [1; 60];
            marks[place] = mark;
            compare(&FIVE_YEARS, &marks);
        }
    }
    settlements.print("short histories, settled");
    pay_offs.print("short histories, paid off");
    assert_eq!(settlements.differences + pay_offs.differences, 0);
}

/// Every list of so many marks with these values.
fn every_list(count: u32, values: std::ops::RangeInclusive<u8>) -> impl Iterator<Item = Vec<u8>> {
    let kinds = u32::from(values.end() - values.start()) + 1;
    let least = *values.start();
    (0..kinds.pow(count)).map(move |list| (0..count).map(|month| least + (list / kinds.pow(month) % kinds) as u8).collect())
}

/// Lump sums of either payer: every list of up to five marks from 0 to 3, every list of 1s and 2s of up to thirteen, and every
/// lawful one, and one too long, with one mark in each place that is any other.
#[test]
fn every_first_year_of_a_lump_sum() {
    let mut random = Random::new(SEED);
    let mut settlements = Tally::default();
    let mut pay_offs = Tally::default();
    let mut compare = |marks: &[u8]| {
        for (payer, pension_age_months) in [(1, 0), (1, 7), (2, 0), (2, 7)] {
            let amount = 250 * random.from_to(1, 26);
            let terms = Terms { payer, pension_age_months, term: 0, amount, ..FIVE_YEARS };
            compare_settle(&mut random, &mut settlements, &terms, marks, raw::SETTLE_BYTES);
            compare_pay_off(&mut random, &mut pay_offs, &terms, marks, 51, 1_011, raw::PAY_OFF_BYTES);
        }
    };
    (0..=5).flat_map(|count| every_list(count, 0..=3)).for_each(|marks| compare(&marks));
    (6..=13).flat_map(|count| every_list(count, 1..=2)).for_each(|marks| compare(&marks));
    for (elapsed, left) in (0..=13).flat_map(|count| (0..=count).map(move |left| (count - left, left))) {
        let marks = samples::runs(&[(elapsed, 1), (left, 2)]);
        for place in 0..marks.len() {
            for mark in [0, 1, 2, 3, 4, 128, 255] {
                let mut spoilt = marks.clone();
                spoilt[place] = mark;
                compare(&spoilt);
            }
        }
    }
    for (place, mark) in (0..12).flat_map(|place| (0..=255).map(move |mark| (place, mark))) {
        let mut marks = [1; 12];
        marks[place] = mark;
        compare(&marks);
    }
    settlements.print("first years of lump sums, settled");
    pay_offs.print("first years of lump sums, paid off");
    settlements.assert_met(&[0, 10, 11, 12]);
    pay_offs.assert_met(&[10, 11, 12, 16]);
    settlements.met.lump_sums.assert_met();
    assert_eq!(settlements.differences + pay_offs.differences, 0);
}

/// Every length of a buffer that is too short, and some that are not.
#[test]
fn every_buffer_length() {
    let mut random = Random::new(SEED);
    let mut quotes = Tally::default();
    let mut settlements = Tally::default();
    let mut pay_offs = Tally::default();
    for length in 0..200 {
        for _ in 0..20 {
            let terms = samples::terms(&mut random);
            compare_quote(&mut random, &mut quotes, &terms, 0, 0, length);
            let marks = samples::marks(&mut random, terms.term);
            compare_settle(&mut random, &mut settlements, &terms, &marks, length);
            let age_now = samples::age_now(&mut random);
            let increase = samples::increase(&mut random);
            compare_pay_off(&mut random, &mut pay_offs, &terms, &marks, age_now, increase, length);
        }
    }
    assert_eq!(quotes.refusals[14], 20 * 24);
    assert_eq!(settlements.refusals[14], 20 * 48);
    assert_eq!(pay_offs.refusals[14], 20 * 40);
    assert_eq!(quotes.differences + settlements.differences + pay_offs.differences, 0);
}
