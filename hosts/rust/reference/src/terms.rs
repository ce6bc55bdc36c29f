//! The terms of an election: what refuses them, and what they cost.

use crate::rates;
use crate::rounding::blend;

/// The step of an amount, in pounds.
pub const STEP: u32 = 250;

/// The most pension a year that may be held, in pence.
pub const CAP_PENCE: u64 = 6_500_00;

/// An election, every number as it was given.
#[derive(Clone, Copy, Debug, Default, PartialEq, Eq)]
pub struct Terms {
    pub age: u32,
    pub pension_age_years: u32,
    pub pension_age_months: u32,
    /// 1 personal, 2 with dependant's pension.
    pub option: u32,
    /// 1 member, 2 employer.
    pub payer: u32,
    /// 0 for a lump sum, else the years of monthly payments.
    pub term: u32,
    /// Whole pounds a year.
    pub amount: u32,
}

impl Terms {
    /// The numbers in the order of the fields.
    pub fn numbers(&self) -> [u32; 7] {
        let Terms { age, pension_age_years, pension_age_months, option, payer, term, amount } = *self;
        [age, pension_age_years, pension_age_months, option, payer, term, amount]
    }

    /// The amount of pension a year in pence.
    pub fn amount_pence(&self) -> u64 {
        u64::from(self.amount) * 100
    }

    fn rate(&self, pension_age: u32) -> Option<u32> {
        match self.term {
            0 => rates::lump_sum_rate(self.option, self.age),
            term => rates::monthly_rate(self.option, pension_age, self.age, term),
        }
    }

    /// The first of the refusals 1 to 8 that applies, 0 if none does.
    pub fn refusal(&self, existing_pence: u64) -> u32 {
        if !matches!(self.option, 1 | 2) {
            return 1;
        }
        let in_range = match self.pension_age_years {
            65..=67 => self.pension_age_months <= 11,
            68 => self.pension_age_months == 0,
            _ => false,
        };
        if !in_range {
            return 2;
        }
        if self.term > 20 {
            return 3;
        }
        if !matches!(self.payer, 1 | 2) || (self.payer == 2 && self.term > 0) {
            return 4;
        }
        if self.rate(self.pension_age_years).is_none() {
            return 5;
        }
        if self.pension_age_months > 0 && self.rate(self.pension_age_years + 1).is_none() {
            return if self.term == 0 { 5 } else { 6 };
        }
        if self.amount == 0 || !self.amount.is_multiple_of(STEP) {
            return 7;
        }
        match existing_pence.checked_add(self.amount_pence()) {
            Some(held) if held <= CAP_PENCE => 0,
            _ => 8,
        }
    }

    /// One table's own contribution, in pence. Only for terms that are not refused.
    pub fn contribution_in(&self, pension_age: u32) -> u64 {
        let rate = self.rate(pension_age).expect("terms that are not refused have a rate");
        u64::from(self.amount / STEP) * u64::from(rate)
    }

    /// The contribution, in pence. Only for terms that are not refused.
    pub fn contribution(&self) -> u64 {
        self.between_tables(|pension_age| self.contribution_in(pension_age))
    }

    /// A figure of each table that the pension age needs, combined by its odd months.
    pub fn between_tables(&self, figure: impl Fn(u32) -> u64) -> u64 {
        let lower = figure(self.pension_age_years);
        if self.pension_age_months == 0 {
            return lower;
        }
        blend(self.pension_age_months, lower, figure(self.pension_age_years + 1))
    }
}
