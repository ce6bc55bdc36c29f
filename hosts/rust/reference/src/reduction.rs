//! The reduction buy-out limit: the earliest reduced retirement age that a member may choose.

use crate::bytes_of;
use crate::rounding::{half_up, half_up_wide};
use std::ops::RangeInclusive;

/// The pension ages, ages and whole pounds of pay that are taken.
pub const PENSION_AGES: RangeInclusive<u32> = 66..=70;
pub const AGES: RangeInclusive<u32> = 24..=64;
pub const PAYS: RangeInclusive<u32> = 1..=200_000;

/// The greatest factor that is taken, in thousandths.
pub const MOST_FACTOR: u32 = 1_000;

/// The most existing pension that is taken, and the highest limit, in pence.
pub const MOST_PENCE: u64 = 1_000_000_00;

/// 1 in billionths.
const BILLION: u64 = 1_000_000_000;

/// What a member asks with, every number as it was given.
#[derive(Clone, Copy, Debug, Default, PartialEq, Eq)]
pub struct Application {
    pub npa: u32,
    pub age: u32,
    /// Whole pounds a year.
    pub pay: u32,
    /// The early-retirement factor of each candidate, in thousandths.
    pub factors: [u32; 3],
    /// A: the Additional Pension that the member has, in pence a year.
    pub existing: u64,
    /// L: the overall limit, in pence a year.
    pub limit: u64,
}

/// The first candidate for a pension age that is taken.
pub fn first_candidate(npa: u32) -> u32 {
    (npa - 3).max(65)
}

/// 1.015 to the years 0, 1, 2 and so on, in billionths, each rounded from the one before.
fn powers() -> impl Iterator<Item = u64> {
    std::iter::successors(Some(BILLION), |power| Some(half_up(power * 1_015, 1_000)))
}

/// 1.015 to so many years, in billionths.
pub fn power(years: u32) -> u64 {
    powers().nth(years as usize).expect("there is a power for every year")
}

/// B where the power is known.
fn potential_by(power: u64, years: u32, pay: u32, factor: u32) -> u64 {
    let [years, pay, reduction] = [years, pay, MOST_FACTOR - factor].map(u128::from);
    let pence = 100 * years * pay * u128::from(power) * reduction;
    half_up_wide(pence, u128::from(BILLION) * u128::from(MOST_FACTOR) * 54) as u64
}

/// B: the greatest value, in pence of pension a year, that a buy-out can come to with so many years to the candidate.
pub fn potential(years: u32, pay: u32, factor: u32) -> u64 {
    potential_by(power(years), years, pay, factor)
}

/// C: the greater of B − A and L − A. It may be below zero.
pub fn room(potential: u64, existing: u64, limit: u64) -> i128 {
    let [b, a, l] = [potential, existing, limit].map(i128::from);
    (b - a).max(l - a)
}

impl Application {
    fn is_in_range(&self) -> bool {
        PENSION_AGES.contains(&self.npa)
            && AGES.contains(&self.age)
            && PAYS.contains(&self.pay)
            && self.factors.iter().all(|factor| *factor <= MOST_FACTOR)
            && self.existing <= MOST_PENCE
            && self.limit <= MOST_PENCE
    }

    /// The candidates below the pension age, each with its B. Only for an application that is not refused.
    pub fn candidates(&self) -> impl Iterator<Item = (u32, u64)> {
        let Application { npa, age, pay, factors, .. } = *self;
        let first = first_candidate(npa);
        let powers = powers().skip((first - age) as usize);
        (first..npa).zip(powers).zip(factors).map(move |((candidate, power), factor)| {
            let potential = potential_by(power, candidate - age, pay, factor);
            (candidate, potential)
        })
    }

    /// Whether a candidate with this B is taken. Without existing pension nothing is compared.
    pub fn takes(&self, potential: u64) -> bool {
        self.existing == 0 || i128::from(potential) < room(potential, self.existing, self.limit)
    }
}

/// What an application gives.
#[derive(Clone, Copy, Debug, Default, PartialEq, Eq)]
pub struct ReductionLimit {
    pub refusal: u32,
    /// The candidate that is taken, 0 for no scope.
    pub age: u32,
    /// B of the candidates below the pension age as far as the one taken, in pence a year; 0 for the others.
    pub potentials: [u64; 3],
}

impl ReductionLimit {
    /// The 40 bytes that a host receives.
    pub fn bytes(&self) -> [u8; 40] {
        let [first, second, third] = self.potentials;
        bytes_of([u64::from(self.refusal), u64::from(self.age), first, second, third])
    }
}

/// Tries the candidates below the pension age, the earliest first.
pub fn reduction_limit(application: &Application) -> ReductionLimit {
    if !application.is_in_range() {
        return ReductionLimit { refusal: 18, ..ReductionLimit::default() };
    }
    let mut answer = ReductionLimit::default();
    for ((candidate, potential), shown) in application.candidates().zip(&mut answer.potentials) {
        *shown = potential;
        if application.takes(potential) {
            answer.age = candidate;
            break;
        }
    }
    answer
}
