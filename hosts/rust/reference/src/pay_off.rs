//! Paying off the rest of a contract by a lump sum.

use crate::bytes_of;
use crate::rates::lump_sum_rate;
use crate::rounding::half_up;
use crate::settle::settle;
use crate::terms::{Terms, STEP};

/// The increases that are taken, in thousandths.
pub const INCREASES: std::ops::RangeInclusive<u32> = 1_000..=9_999;

/// What paying off a contract gives.
#[derive(Clone, Copy, Debug, Default, PartialEq, Eq)]
pub struct PayOff {
    pub refusal: u32,
    pub place: u32,
    pub remaining: u64,
    pub increased: u64,
    pub cost: u64,
}

impl PayOff {
    fn refused(refusal: u32, place: u32) -> PayOff {
        PayOff { refusal, place, ..PayOff::default() }
    }

    /// The 40 bytes that a host receives.
    pub fn bytes(&self) -> [u8; 40] {
        let [refusal, place] = [self.refusal, self.place].map(u64::from);
        bytes_of([refusal, place, self.remaining, self.increased, self.cost])
    }
}

/// A remaining pension after an increase in thousandths, in pence a year.
pub fn increased(remaining: u64, increase: u32) -> u64 {
    half_up(remaining * u64::from(increase), 1_000)
}

/// What so much pension a year costs, in pence, at a rate that lies `months` twelfths of the way from `lower` to `upper`. That
/// rate is not rounded.
pub fn cost(increased: u64, lower: u32, upper: u32, months: u32) -> u64 {
    let [lower, upper, months] = [lower, upper, months].map(u64::from);
    let twelfths_of_rate = (12 - months) * lower + months * upper;
    half_up(increased * twelfths_of_rate, 12 * 100 * u64::from(STEP))
}

/// Prices what is missing from a contract, at the member's age now and with an increase in thousandths.
pub fn pay_off(terms: &Terms, marks: &[u8], age_now: u32, increase: u32) -> PayOff {
    let settled = settle(terms, marks);
    if settled.refusal != 0 {
        return PayOff::refused(settled.refusal, settled.place);
    }
    if matches!(settled.status, 0 | 5 | 6) {
        return PayOff::refused(16, 0);
    }
    if !INCREASES.contains(&increase) {
        return PayOff::refused(17, 0);
    }
    // Table S is the same for every pension age, so the lower and the upper rate are one.
    let Some(rate) = lump_sum_rate(terms.option, age_now) else {
        return PayOff::refused(5, 0);
    };
    let remaining = terms.amount_pence() - settled.credit;
    let increased = increased(remaining, increase);
    let cost = cost(increased, rate, rate, terms.pension_age_months);
    PayOff { remaining, increased, cost, ..PayOff::default() }
}
