//! Rounding to whole numbers, of pence as a rule.

use std::cmp::Ordering;

/// `numerator ÷ denominator` to the nearest whole number, a half going up: both roundings of a pay-off, and each year of the power
/// in a reduction limit.
pub fn half_up(numerator: u64, denominator: u64) -> u64 {
    (2 * numerator + denominator) / (2 * denominator)
}

/// The same of greater numbers: the potential value of a reduction buy-out.
pub fn half_up_wide(numerator: u128, denominator: u128) -> u128 {
    (2 * numerator + denominator) / (2 * denominator)
}

/// `numerator ÷ denominator` to the nearest whole number, or to the even one of two that are equally near: the rounding of
/// contributions, whole-year credits, month values and figures between two tables. 0 where the denominator is 0.
pub fn nearest(numerator: u64, denominator: u64) -> u64 {
    if denominator == 0 {
        return 0;
    }
    let (below, past) = (numerator / denominator, numerator % denominator);
    let short_of_next = denominator - past;
    match past.cmp(&short_of_next) {
        Ordering::Less => below,
        Ordering::Equal if below.is_multiple_of(2) => below,
        Ordering::Equal | Ordering::Greater => below + 1,
    }
}

/// The figure that lies `twelfths` twelfths of the way from `from` to `to`.
pub fn blend(twelfths: u32, from: u64, to: u64) -> u64 {
    let twelfths = u64::from(twelfths);
    nearest((12 - twelfths) * from + twelfths * to, 12)
}
