//! The answers of other rules, in which an exact half goes up: for tests, to find where the even penny matters.

use crate::credit::Row;
use crate::marks::{status, PAID};
use crate::rates::monthly_rate;
use crate::rounding::{half_up, nearest};
use crate::terms::{Terms, STEP};

/// A rounding that takes an exact half to the even penny.
#[derive(Clone, Copy, Debug, PartialEq, Eq)]
pub enum Place {
    Contribution,
    YearCredit,
    MonthValue,
    CombinedCredit,
}

pub const PLACES: [Place; 4] = [Place::Contribution, Place::YearCredit, Place::MonthValue, Place::CombinedCredit];

/// The rule in which an exact half goes up at these places, and to the even penny at the others. It is for terms and marks that
/// are not refused.
#[derive(Clone, Copy, Debug)]
pub struct HalvesUp<'a>(pub &'a [Place]);

impl HalvesUp<'_> {
    fn round(&self, place: Place, numerator: u64, denominator: u64) -> u64 {
        let rounding = if self.0.contains(&place) { half_up } else { nearest };
        rounding(numerator, denominator)
    }

    fn blend(&self, place: Place, twelfths: u32, from: u64, to: u64) -> u64 {
        let twelfths = u64::from(twelfths);
        self.round(place, (12 - twelfths) * from + twelfths * to, 12)
    }

    fn between_tables(&self, place: Place, terms: &Terms, figure: impl Fn(u32) -> u64) -> u64 {
        let lower = figure(terms.pension_age_years);
        if terms.pension_age_months == 0 {
            return lower;
        }
        self.blend(place, terms.pension_age_months, lower, figure(terms.pension_age_years + 1))
    }

    /// The contribution, in pence.
    pub fn contribution(&self, terms: &Terms) -> u64 {
        self.between_tables(Place::Contribution, terms, |pension_age| terms.contribution_in(pension_age))
    }

    fn row(&self, terms: &Terms, pension_age: u32) -> Row {
        let bought = terms.contribution_in(pension_age) * u64::from(STEP) * 100;
        let mut row = [0; 21];
        for year in 1..=terms.term {
            let rate = monthly_rate(terms.option, pension_age, terms.age, year).expect("each year of the term has a rate");
            row[year as usize] = self.round(Place::YearCredit, bought, u64::from(rate)) as u32;
        }
        row
    }

    fn month_value(&self, row: &Row, month: usize) -> u64 {
        let year_credit = |year: usize| row.get(year).map_or(0, |&credit| u64::from(credit));
        self.blend(Place::MonthValue, month as u32 % 12, year_credit(month / 12), year_credit(month / 12 + 1))
    }

    /// The credit, in pence a year.
    pub fn credit(&self, terms: &Terms, marks: &[u8]) -> u64 {
        match status(terms.term, marks) {
            5 => return 0,
            6 => return terms.amount_pence(),
            _ => (),
        }
        let paid = |month: usize| marks.get(month) == Some(&PAID);
        self.between_tables(Place::CombinedCredit, terms, |pension_age| {
            let row = self.row(terms, pension_age);
            let (mut ends, mut starts) = (0, 0);
            for month in 0..=marks.len() {
                match (month > 0 && paid(month - 1), paid(month)) {
                    (true, false) => ends += self.month_value(&row, month),
                    (false, true) => starts += self.month_value(&row, month),
                    _ => (),
                }
            }
            ends - starts
        })
    }
}
