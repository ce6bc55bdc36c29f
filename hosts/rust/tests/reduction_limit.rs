//! The reduction limit against the reference, over made-up applications and over every pension age and age.
//!
//! Each call gets its buffer within a larger piece of memory, at any alignment, and all of that memory is compared afterwards.
//! `AP_INPUTS` sets how many applications are made up.

mod common;

use additional_pension::raw::{self, ApplicationNumbers};
use common::{buffer_length, Lent, INPUTS, SEED};
use reference::reduction::{first_candidate, power, room, MOST_PENCE};
use reference::samples::{self, Random};
use reference::{reduction_limit, Application, ReductionLimit};
use std::fmt;

type Tally = common::Tally<Scopes>;

/// What was met among applications that are not refused.
#[derive(Debug, Default)]
struct Scopes {
    /// Taken, by the place of the candidate.
    taken: [u64; 3],
    /// No scope, since the next candidate is at the pension age.
    ends_at_pension_age: u64,
    /// No scope, since all three have failed.
    three_fail: u64,
    /// Without existing pension.
    nothing_existing: u64,
    /// Without existing pension, and with a B that is not below the limit.
    above_limit: u64,
    /// With existing pension, and a B that is equal to its C.
    equal: u64,
    /// With existing pension, and a limit below it.
    limit_below: u64,
    /// With existing pension, and a C below zero.
    below_zero: u64,
    /// With a B that is half a penny more than an even number before its rounding: it goes up, and would go down to the even
    /// penny.
    halves: u64,
}

impl Scopes {
    fn counts(&self) -> [(&'static str, u64); 11] {
        let [first, second, third] = self.taken;
        [
            ("first taken", first),
            ("second taken", second),
            ("third taken", third),
            ("no scope at the pension age", self.ends_at_pension_age),
            ("no scope after three", self.three_fail),
            ("nothing existing", self.nothing_existing),
            ("nothing existing, B not below L", self.above_limit),
            ("B equal to C", self.equal),
            ("L below A", self.limit_below),
            ("C below zero", self.below_zero),
            ("halves up to odd", self.halves),
        ]
    }

    fn count(&mut self, application: &Application, answer: &ReductionLimit) {
        let Application { npa, existing, limit, .. } = *application;
        let is_tried = |candidate: u32| answer.age == 0 || candidate <= answer.age;
        let tried: Vec<_> = application.candidates().take_while(|&(candidate, _)| is_tried(candidate)).collect();
        match answer.age.checked_sub(first_candidate(npa)) {
            Some(place) => self.taken[place as usize] += 1,
            None if tried.len() == 3 => self.three_fail += 1,
            None => self.ends_at_pension_age += 1,
        }
        let any_b = |property: &dyn Fn(u64) -> bool| u64::from(tried.iter().any(|&(_, potential)| property(potential)));
        if existing == 0 {
            self.nothing_existing += 1;
            self.above_limit += any_b(&|b| b >= limit);
        } else {
            self.equal += any_b(&|b| i128::from(b) == room(b, existing, limit));
            self.limit_below += u64::from(limit < existing);
            self.below_zero += any_b(&|b| room(b, existing, limit) < 0);
        }
        self.halves += u64::from(tried.iter().any(|&(candidate, _)| goes_up_to_odd(application, candidate)));
    }

    fn assert_all_met(&self) {
        assert!(self.counts().iter().all(|(_, count)| *count > 0), "{self:?}");
    }
}

impl fmt::Display for Scopes {
    fn fmt(&self, formatter: &mut fmt::Formatter<'_>) -> fmt::Result {
        let met = self.counts().into_iter().filter(|(_, count)| *count > 0);
        let counts: Vec<_> = met.map(|(what, count)| format!("{what}: {count}")).collect();
        writeln!(formatter, "  {}", counts.join(", "))
    }
}

/// Whether B of a candidate is half a penny more than an even number before its rounding.
fn goes_up_to_odd(application: &Application, candidate: u32) -> bool {
    let Application { npa, age, pay, factors, .. } = *application;
    let (years, reduction) = (candidate - age, 1_000 - factors[(candidate - first_candidate(npa)) as usize]);
    let parts = [years, pay, reduction].map(u128::from).iter().product::<u128>() * u128::from(power(years));
    let penny = 54 * 10_000_000_000;
    parts % (2 * penny) == penny / 2
}

/// One reduction limit: its value, and all the memory it was lent.
fn compare(random: &mut Random, tally: &mut Tally, application: &Application, length: usize) {
    let Application { npa, age, pay, factors, existing, limit } = *application;
    let mut out = Lent::new(random, length);
    let answer = reduction_limit(application);
    let (value, expected) = out.expected(answer.refusal, &answer.bytes());
    let numbers = ApplicationNumbers { npa, age, pay, factors, existing_pence: existing, limit_pence: limit };
    let given = raw::reduction_limit(&numbers, out.piece());
    tally.count(value);
    if value == 0 {
        tally.met.count(application, &answer);
    }
    tally.compare((application, length), (given, out.bytes), (value, expected));
}

#[test]
fn made_up_reduction_limits() {
    let mut random = Random::new(SEED);
    let mut limits = Tally::default();
    for _ in 0..samples::how_many("AP_INPUTS", INPUTS) {
        let application = samples::application(&mut random);
        let length = buffer_length(&mut random, raw::REDUCTION_LIMIT_BYTES);
        compare(&mut random, &mut limits, &application, length);
    }
    limits.print("made-up reduction limits");
    limits.assert_met(&[0, 14, 18]);
    limits.met.assert_all_met();
    assert_eq!(limits.differences, 0);
}

/// Existing pensions with limits: every choice of some that matter anywhere, and for each candidate the limits about the one at
/// which its B is equal to C.
fn limits_about(application: &Application) -> Vec<(u64, u64)> {
    let some = [0, 1, 2_000_00, 6_924_00, MOST_PENCE, MOST_PENCE + 1];
    let mut pairs: Vec<(u64, u64)> = some.iter().flat_map(|&existing| some.map(|limit| (existing, limit))).collect();
    if reduction_limit(application).refusal == 0 {
        for (_, potential) in application.candidates() {
            for existing in [1, potential.max(1), 2_000_00] {
                let equal = potential + existing;
                pairs.extend([equal - 1, equal, equal + 1].map(|limit| (existing, limit)));
            }
        }
    }
    pairs
}

/// Every pension age and age, in and about their ranges, with pays and factors at the ends of theirs and within.
#[test]
fn every_pension_age_and_age() {
    let mut random = Random::new(SEED);
    let mut limits = Tally::default();
    let pays = [0, 1, 162, 30_000, 200_000, 200_001];
    let factors = [[850, 896, 946], [0, 0, 0], [1_000, 999, 0], [896, 1_000, 1_001], [1_001, 0, 0], [0, 1_001, 0]];
    for (npa, age) in (60..=76).flat_map(|npa| (0..=75).map(move |age| (npa, age))) {
        for (pay, factors) in pays.iter().flat_map(|&pay| factors.map(|factors| (pay, factors))) {
            let application = Application { npa, age, pay, factors, existing: 0, limit: 0 };
            for (existing, limit) in limits_about(&application) {
                let application = Application { existing, limit, ..application };
                compare(&mut random, &mut limits, &application, raw::REDUCTION_LIMIT_BYTES);
            }
        }
    }
    limits.print("every pension age and age");
    limits.assert_met(&[0, 18]);
    limits.met.assert_all_met();
    assert_eq!(limits.differences, 0);
}

/// Every factor and every number of years, so that each power makes each reduction's B, with a pay that changes from one to the
/// next.
#[test]
fn every_factor() {
    let mut random = Random::new(SEED);
    let mut limits = Tally::default();
    for (age, factor) in (24..=64).flat_map(|age| (0..=1_001).map(move |factor| (age, factor))) {
        for npa in [68, 70] {
            let pay = random.from_to(1, 200_000);
            let application = Application { npa, age, pay, factors: [factor; 3], existing: 1, limit: 0 };
            compare(&mut random, &mut limits, &application, raw::REDUCTION_LIMIT_BYTES);
        }
    }
    limits.print("every factor");
    limits.assert_met(&[0, 18]);
    assert_eq!(limits.refusals[18], 41 * 2);
    assert_eq!(limits.differences, 0);
}

/// Every length of a buffer that is too short, and some that are not.
#[test]
fn every_buffer_length() {
    let mut random = Random::new(SEED);
    let mut limits = Tally::default();
    for length in 0..=80 {
        for _ in 0..40 {
            let application = samples::application(&mut random);
            compare(&mut random, &mut limits, &application, length);
        }
    }
    limits.assert_met(&[0, 14, 18]);
    assert_eq!(limits.refusals[14], 40 * 40);
    assert_eq!(limits.differences, 0);
}
