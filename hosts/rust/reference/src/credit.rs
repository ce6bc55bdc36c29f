//! The pension a year that paid months earn.

use crate::marks::PAID;
use crate::rates;
use crate::rounding::{blend, nearest};
use crate::terms::{Terms, STEP};

/// The credits at the end of the whole years 0 to 20, in pence a year; 0 past the term.
pub type Row = [u32; 21];

/// One table's whole-year credits. Only for terms that are not refused, of a monthly contract.
pub fn row(terms: &Terms, pension_age: u32) -> Row {
    let rates = rates::monthly_row(terms.option, pension_age, terms.age).expect("terms that are not refused have a row");
    let bought = terms.contribution_in(pension_age) * u64::from(STEP) * 100;
    let mut row = [0; 21];
    for (year, &rate) in (1..=terms.term as usize).zip(rates) {
        row[year] = nearest(bought, u64::from(rate)) as u32;
    }
    row
}

/// The value at a contract month, in pence a year.
pub fn month_value(row: &Row, month: usize) -> u64 {
    let (year, months) = (month / 12, month % 12);
    let start = u64::from(row[year]);
    if months == 0 {
        return start;
    }
    blend(months as u32, start, u64::from(row[year + 1]))
}

/// The credit of the unbroken paid runs among the marks.
pub fn credit_in(row: &Row, marks: &[u8]) -> u64 {
    let mut credit = 0;
    let mut month = 0;
    while month < marks.len() {
        if marks[month] != PAID {
            month += 1;
            continue;
        }
        let start = month;
        while month < marks.len() && marks[month] == PAID {
            month += 1;
        }
        credit += month_value(row, month) - month_value(row, start);
    }
    credit
}

/// The credit of a monthly contract that has not been refunded, in pence a year.
pub fn credit(terms: &Terms, marks: &[u8]) -> u64 {
    terms.between_tables(|pension_age| credit_in(&row(terms, pension_age), marks))
}
