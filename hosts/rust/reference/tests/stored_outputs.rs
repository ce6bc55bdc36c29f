//! The stored outputs of the part's programs `posting` and `figures`, written again by the reference.
//!
//! The proved programs are held to these files, so where the reference gives the same bytes, it and the part agree.

use reference::marks::{ENDED, MISSED, PAID};
use reference::rates::monthly_rate;
use reference::rounding::{blend, nearest};
use reference::samples::runs;
use reference::*;
use std::fs;

fn stored(program: &str) -> String {
    let path = format!("{}/../../../crates/{program}/stdout", env!("CARGO_MANIFEST_DIR"));
    fs::read_to_string(&path).unwrap_or_else(|error| panic!("{path}: {error}"))
}

/// Where the two texts part, in a few words; nothing if they do not.
fn difference(stored: &str, rendered: &str) -> Option<String> {
    let mut stored = stored.split_inclusive('\n');
    let mut rendered = rendered.split_inclusive('\n');
    let mut number = 0;
    loop {
        number += 1;
        match (stored.next(), rendered.next()) {
            (None, None) => return None,
            (stored, rendered) if stored == rendered => (),
            (stored, rendered) => return Some(format!("line {number}: stored {stored:?}, reference {rendered:?}")),
        }
    }
}

/// From age 50, with dependant's pension, at pension age 65; a lump sum at term 0.
fn from_age_50(term: u32, amount: u32) -> Terms {
    Terms { age: 50, pension_age_years: 65, pension_age_months: 0, option: 2, payer: 1, term, amount }
}

/// What is posted: months paid, months missed, a mark, its times.
type History = (usize, usize, u8, usize);

/// Posts a history. The answer is that to the last posting.
fn post_all(record: &mut Record, (paid, missed, mark, times): History) -> Outcome {
    let marks = runs(&[(paid, PAID), (missed, MISSED), (times, mark)]);
    marks.iter().fold(Outcome { refusal: 0, place: 0 }, |_, &mark| post(record, mark))
}

/// An answer to posting and the record as it is left: its count, 1 for a bad one, its credit.
fn left(outcome: Outcome, record: &Record) -> String {
    let settled = record.settled();
    let bad = u32::from(settled.is_none());
    let credit = settled.unwrap_or_default().credit;
    format!("{:>10}{:>6}{:>6}{bad:>4}{credit:>8}\n", outcome.refusal, outcome.place, record.count)
}

fn history_line(mut record: Record, history: History) -> String {
    let (paid, missed, mark, times) = history;
    let outcome = post_all(&mut record, history);
    format!("{paid:>6}{missed:>7}{mark:>6}{times:>6}{}", left(outcome, &record))
}

/// A paid month posted into a record of which the count and one mark were set from outside.
fn outside_line(amount: u32, at: usize, mark: u8, count: u32) -> String {
    let mut record = Record { count, ..Record::new(from_age_50(5, amount)) };
    record.marks[at] = mark;
    let outcome = post(&mut record, PAID);
    format!("{at:>6}{mark:>6}{count:>7}      {}", left(outcome, &record))
}

/// A lump sum of which the count and the first marks were set from outside, all alike.
fn lump_sum_of(first: usize, mark: u8, count: u32) -> Record {
    let mut record = Record { count, ..Record::new(from_age_50(0, 250)) };
    record.marks[..first].fill(mark);
    record
}

/// A paid month posted into such a lump sum.
fn outside_lump_sum_line(first: usize, mark: u8, count: u32) -> String {
    let mut record = lump_sum_of(first, mark, count);
    let outcome = post(&mut record, PAID);
    format!("{first:>6}{mark:>6}{count:>7}      {}", left(outcome, &record))
}

fn total_line(records: &[Record]) -> String {
    let MemberTotal { refusal, index, total } = member_total(records);
    format!("{:>7}{refusal:>28}{index:>6}{total:>18}\n", records.len())
}

const HISTORIES: [History; 20] = [
    (0, 0, PAID, 0),
    (5, 0, PAID, 0),
    (5, 11, PAID, 0),
    (5, 11, PAID, 1),
    (18, 4, PAID, 6),
    // After twelve missed months.
    (5, 12, PAID, 0),
    (5, 12, PAID, 1),
    (5, 12, MISSED, 1),
    (5, 12, ENDED, 1),
    // The first month.
    (0, 1, PAID, 0),
    (0, 0, ENDED, 1),
    (0, 0, 3, 1),
    // No mark.
    (5, 0, 3, 1),
    (5, 0, 255, 1),
    // Ended about the first year's end.
    (11, 0, ENDED, 1),
    (12, 0, ENDED, 1),
    (12, 0, ENDED, 2),
    // The whole term.
    (60, 0, PAID, 0),
    (60, 0, PAID, 1),
    (60, 0, 3, 1),
];

const LUMP_SUM: [History; 14] = [
    (0, 0, PAID, 0),
    (1, 0, PAID, 0),
    // The whole first year, and a month more.
    (12, 0, PAID, 0),
    (12, 0, PAID, 1),
    (12, 0, 3, 1),
    // The member leaves.
    (11, 0, ENDED, 1),
    (0, 0, ENDED, 1),
    (0, 0, ENDED, 12),
    (0, 0, ENDED, 13),
    // No month is missed.
    (0, 1, PAID, 0),
    (1, 1, PAID, 0),
    (1, 1, PAID, 1),
    // No mark.
    (0, 0, 3, 1),
    (1, 0, 3, 1),
];

const AFTER_THE_END: [History; 4] = [(1, 0, PAID, 0), (0, 1, PAID, 0), (0, 0, ENDED, 1), (0, 0, 3, 1)];

/// Amount, the index and value of a mark, the count.
const OUTSIDE: [(u32, usize, u8, u32); 10] = [
    (1_000, 0, PAID, 1),
    (1_000, 0, PAID, 0),
    (1_000, 239, PAID, 0),
    (1_000, 0, MISSED, 1),
    (1_000, 0, 9, 1),
    (1_000, 0, PAID, 61),
    (1_000, 0, PAID, 240),
    (1_000, 0, PAID, 241),
    (1_000, 0, PAID, 99_999),
    (1_100, 0, MISSED, 0),
];

/// Of a lump sum: how many first marks, their value, the count.
const OUTSIDE_LUMP_SUMS: [(usize, u8, u32); 12] = [
    (1, PAID, 1),
    (1, ENDED, 1),
    (12, PAID, 12),
    (12, ENDED, 12),
    // Past the first year.
    (13, PAID, 13),
    (13, ENDED, 13),
    (240, PAID, 240),
    // Unlawful, or no mark.
    (1, MISSED, 1),
    (1, PAID, 2),
    (1, 9, 1),
    // Past the count.
    (1, PAID, 0),
    (2, PAID, 1),
];

#[test]
fn stored_postings_and_totals() {
    let monthly = Record::new(from_age_50(5, 1_000));
    let lump_sum = Record::new(from_age_50(0, 250));
    let mut rendered = String::from("  paid missed  mark times   refusal place count bad  credit\n");
    rendered.extend(HISTORIES.map(|history| history_line(monthly, history)));
    rendered.extend(LUMP_SUM.map(|history| history_line(lump_sum, history)));

    let mut ended = monthly;
    post_all(&mut ended, (12, 0, ENDED, 1));
    rendered += "posted after 12 paid and the end\n";
    rendered.extend(AFTER_THE_END.map(|history| history_line(ended, history)));

    let mut gone_back = lump_sum;
    post_all(&mut gone_back, (3, 0, ENDED, 1));
    rendered += "posted after 3 paid and the end of a lump sum\n";
    rendered.extend(AFTER_THE_END.map(|history| history_line(gone_back, history)));

    rendered += "    at  mark  count         refusal place count bad  credit\n";
    rendered.extend(OUTSIDE.map(|(amount, at, mark, count)| outside_line(amount, at, mark, count)));
    rendered += "lump sum\n   set  mark  count         refusal place count bad  credit\n";
    rendered.extend(OUTSIDE_LUMP_SUMS.map(|(first, mark, count)| outside_lump_sum_line(first, mark, count)));

    rendered += "records                     refusal index             total\n";
    let mut list = [lump_sum; 65];
    rendered.extend([0, 1, 64, 65].map(|records| total_line(&list[..records])));
    list[1] = monthly;
    post_all(&mut list[1], (18, 0, PAID, 0));
    // A bad one: its count is 0, and a mark is set.
    list[3] = monthly;
    list[3].marks[1] = PAID;
    rendered.extend([2, 3, 4, 64, 65].map(|records| total_line(&list[..records])));
    list[0] = list[3];
    rendered.extend([64, 0].map(|records| total_line(&list[..records])));

    rendered += "lump sums with marks\n";
    let mut list = [lump_sum; 64];
    for record in &mut list {
        post_all(record, (12, 0, PAID, 0));
    }
    rendered.extend([1, 64].map(|records| total_line(&list[..records])));
    // One went back.
    list[1] = lump_sum;
    post_all(&mut list[1], (0, 0, ENDED, 12));
    rendered.extend([2, 64].map(|records| total_line(&list[..records])));
    // A bad one: it has a mark too many.
    list[3] = lump_sum_of(13, PAID, 13);
    rendered.extend([3, 4, 64].map(|records| total_line(&list[..records])));

    assert_eq!(difference(&stored("posting"), &rendered), None);
}

/// A line of `figures`: its label, which ends in its kind, the first word in small letters, and the numbers asked.
fn read_figure(line: &str) -> (String, Vec<u64>) {
    let (asked, _) = line.split_once(" is ").unwrap_or_else(|| panic!("nothing is given in {line:?}"));
    let words: Vec<&str> = asked.split(' ').collect();
    let kind = words
        .iter()
        .position(|word| word.starts_with(|first: char| first.is_ascii_lowercase()))
        .unwrap_or_else(|| panic!("no kind in {line:?}"));
    let number = |word: &&str| word.parse().unwrap_or_else(|_| panic!("{word:?} is asked in {line:?}"));
    (words[..=kind].join(" "), words[kind + 1..].iter().map(number).collect())
}

fn kind_of(label: &str) -> &str {
    label.rsplit(' ').next().unwrap_or_default()
}

/// The numbers, each after a space.
fn spaced(numbers: impl IntoIterator<Item = impl Into<u64>>) -> String {
    numbers.into_iter().map(|number| format!(" {}", number.into())).collect()
}

/// Writes the stored lines of one kind again, of which there are at least so many, and compares.
fn compare<const ASKED: usize>(kind: &str, at_least: usize, answer: impl Fn([u64; ASKED]) -> String) {
    let stored = stored("figures");
    let mut met = 0;
    let mut rendered = String::new();
    for line in stored.split_inclusive('\n') {
        let (label, asked) = read_figure(line);
        if kind_of(&label) != kind {
            rendered += line;
            continue;
        }
        met += 1;
        let numbers = asked.try_into().unwrap_or_else(|_| panic!("{ASKED} numbers are asked, not so in {line:?}"));
        rendered += &format!("{label}{} is {}\n", spaced(numbers), answer(numbers));
    }
    assert_eq!(difference(&stored, &rendered), None);
    assert!(met >= at_least, "{met} lines of {kind}");
}

fn narrow(number: u64) -> u32 {
    number.try_into().expect("a number of 32 bits is asked")
}

/// The first seven numbers asked.
fn terms(asked: &[u64]) -> Terms {
    let numbers = asked.first_chunk().expect("terms are asked").map(narrow);
    let [age, pension_age_years, pension_age_months, option, payer, term, amount] = numbers;
    Terms { age, pension_age_years, pension_age_months, option, payer, term, amount }
}

/// The eight numbers after the terms: four runs, each a mark and its months.
fn marks(asked: &[u64]) -> Vec<u8> {
    let run = |run: &[u64]| (narrow(run[1]) as usize, u8::try_from(run[0]).expect("a mark is a byte"));
    runs(&asked[7..15].chunks_exact(2).map(run).collect::<Vec<_>>())
}

#[test]
fn stored_schedules() {
    compare("schedule", 29, |asked: [u64; 16]| {
        let mut list = vec![7; narrow(asked[15]) as usize];
        let outcome = schedule(&terms(&asked), &marks(&asked), &mut list);
        format!("refusal {} place {} entries{}", outcome.refusal, outcome.place, spaced(list))
    });
}

#[test]
fn stored_cap_decisions() {
    compare("cap", 9, |[existing_pence]| format!("pounds {}", cap_decision(existing_pence)));
}

#[test]
fn stored_settlements() {
    compare("settle", 92, |asked: [u64; 15]| {
        let Settlement { refusal, place, contribution, status, credit, refund } = settle(&terms(&asked), &marks(&asked));
        format!("refusal {refusal} place {place} contribution {contribution} status {status} credit {credit} refund {refund}")
    });
}

#[test]
fn stored_pay_offs() {
    compare("pay-off", 42, |asked: [u64; 17]| {
        let [age_now, increase] = [asked[15], asked[16]].map(narrow);
        let PayOff { refusal, place, remaining, increased, cost } = pay_off(&terms(&asked), &marks(&asked), age_now, increase);
        format!("refusal {refusal} place {place} remaining {remaining} increased {increased} cost {cost}")
    });
}

#[test]
fn stored_reduction_limits() {
    compare("reduction-limit", 49, |asked: [u64; 8]| {
        let [npa, age, pay, first, second, third] = asked.first_chunk().expect("eight numbers are asked").map(narrow);
        let factors = [first, second, third];
        let application = Application { npa, age, pay, factors, existing: asked[6], limit: asked[7] };
        let ReductionLimit { refusal, age, potentials: [first, second, third] } = reduction_limit(&application);
        format!("refusal {refusal} age {age} first {first} second {second} third {third}")
    });
}

#[test]
fn stored_quotes() {
    compare("quote", 43, |asked: [u64; 9]| {
        let Quote { refusal, contribution, next_number, register } = quote(&terms(&asked), asked[7], narrow(asked[8]));
        format!("refusal {refusal} contribution {contribution} number {next_number} register {register}")
    });
}

#[test]
fn stored_rates_and_roundings() {
    compare("rate", 10, |asked: [u64; 4]| {
        let [option, pension_age, age, term] = asked.map(narrow);
        monthly_rate(option, pension_age, age, term).unwrap_or(0).to_string()
    });
    compare("nearest", 2, |[numerator, denominator]| nearest(numerator, denominator).to_string());
    compare("blend", 4, |[twelfths, lower, upper]| blend(narrow(twelfths), lower, upper).to_string());
}

/// No stored figure is left out above.
#[test]
fn every_stored_figure_is_of_a_kind() {
    let kinds = ["schedule", "cap", "settle", "pay-off", "reduction-limit", "quote", "rate", "nearest", "blend"];
    for line in stored("figures").lines() {
        let (label, _) = read_figure(line);
        assert!(kinds.contains(&kind_of(&label)), "{line:?}");
    }
}
