//! The figures that the rules name, at their edges.

use reference::credit::{month_value, row};
use reference::pay_off::{cost, increased};
use reference::rates::{monthly_rate, D65};
use reference::rounding::{blend, half_up, nearest};
use reference::samples::runs;
use reference::*;

/// £1,250 over 9 years by table D67, age 50.
const NINE_YEARS: Terms =
    Terms { age: 50, pension_age_years: 67, pension_age_months: 0, option: 2, payer: 1, term: 9, amount: 1_250 };

/// £1,000 over 5 years by table D65, age 50.
const FIVE_YEARS: Terms = Terms { pension_age_years: 65, term: 5, amount: 1_000, ..NINE_YEARS };

fn five_years(marks: &[(usize, u8)]) -> Settlement {
    settle(&FIVE_YEARS, &runs(marks))
}

fn refused(refusal: u32, place: u32) -> Settlement {
    Settlement { refusal, place, ..Settlement::default() }
}

#[test]
fn printed_rates() {
    assert_eq!(monthly_rate(2, 67, 50, 1), Some(249_30));
    assert_eq!(monthly_rate(2, 67, 50, 9), Some(34_30));
    assert_eq!(D65[50 - 16][..5], [271_80, 139_60, 95_60, 73_60, 60_50]);
    assert_eq!(monthly_rate(2, 65, 63, 1), Some(381_60));
    assert_eq!(monthly_rate(2, 65, 63, 2), None);
    assert_eq!(monthly_rate(2, 65, 64, 1), None);
}

#[test]
fn nine_years_by_d67() {
    assert_eq!(quote(&NINE_YEARS, 0, 0).contribution, 171_50);
    assert_eq!(row(&NINE_YEARS, 67)[1], 171_98);
    let settled = settle(&NINE_YEARS, &[1; 5]);
    assert_eq!(settled, Settlement { contribution: 171_50, status: 1, credit: 71_66, ..Settlement::default() });
}

#[test]
fn five_years_by_d65() {
    assert_eq!(quote(&FIVE_YEARS, 0, 0).contribution, 242_00);
    let credits = row(&FIVE_YEARS, 65);
    assert_eq!(credits[..6], [0, 222_59, 433_38, 632_85, 822_01, 1_000_00]);
    assert_eq!(credits[6..], [0; 15]);
}

#[test]
fn eighteen_paid() {
    assert_eq!(five_years(&[(18, 1)]).credit, 327_98);
}

#[test]
fn a_gap_of_four() {
    let credits = row(&FIVE_YEARS, 65);
    assert_eq!([18, 22, 28].map(|month| month_value(&credits, month)), [327_98, 398_25, 499_87]);
    assert_eq!(five_years(&[(18, 1), (4, 0), (6, 1)]).credit, 429_60);
}

#[test]
fn five_odd_months_between_two_credits() {
    assert_eq!(blend(5, 303_62, 303_58), 303_60);
}

#[test]
fn notice_about_the_first_year() {
    let eleven = five_years(&[(11, 1), (1, 2)]);
    assert_eq!((eleven.status, eleven.credit, eleven.refund), (5, 0, 11 * 242_00));
    let twelve = five_years(&[(12, 1), (1, 2)]);
    assert_eq!((twelve.status, twelve.credit, twelve.refund), (4, 222_59, 0));
}

#[test]
fn payment_after_a_long_gap() {
    let resumed = five_years(&[(1, 1), (11, 0), (1, 1)]);
    assert_eq!((resumed.refusal, resumed.status), (0, 1));
    assert_eq!(five_years(&[(1, 1), (12, 0), (1, 1)]), refused(12, 13));
}

#[test]
fn the_first_mark() {
    assert_eq!(five_years(&[(1, 0)]), refused(12, 0));
    let ended = five_years(&[(1, 2)]);
    assert_eq!(ended, Settlement { contribution: 242_00, status: 5, ..Settlement::default() });
}

#[test]
fn the_rest_of_a_pension_and_its_cost() {
    assert_eq!(increased(1_196_40, 1_011), 1_209_56);
    assert_eq!(cost(1_209_56, 3_852_50, 3_852_50, 0), 18_639_32);
    assert_eq!(cost(1_209_56, 3_940_00, 3_730_00, 5), 18_639_32);
    // Rounding the cost alone, and not the increased pension before it, would give 18,639.33.
    assert_eq!(half_up(1_196_40 * 1_011 * 3_852_50, 1_000 * 250_00), 18_639_33);
}

/// The rest of the five years' contract, with an increase of 1.1 per cent.
fn rest_of_five_years(marks: &[(usize, u8)], age_now: u32) -> PayOff {
    pay_off(&FIVE_YEARS, &runs(marks), age_now, 1_011)
}

fn not_paid_off(refusal: u32) -> PayOff {
    PayOff { refusal, ..PayOff::default() }
}

#[test]
fn five_years_paid_off() {
    let given = |remaining, increased, cost| PayOff { remaining, increased, cost, ..PayOff::default() };
    assert_eq!(rest_of_five_years(&[(18, 1)], 51), given(672_02, 679_41, 8_125_74));
    assert_eq!(rest_of_five_years(&[(18, 1), (4, 0), (6, 1)], 52), given(570_40, 576_67, 7_058_44));
    assert_eq!(rest_of_five_years(&[(12, 1), (1, 2)], 51), given(777_41, 785_96, 9_400_08));
    assert_eq!(rest_of_five_years(&[(60, 1)], 55), given(0, 0, 0));
    let at = |increase| pay_off(&FIVE_YEARS, &[1; 18], 51, increase);
    assert_eq!(at(1_000), given(672_02, 672_02, 8_037_36));
    assert_eq!(at(9_999), given(672_02, 6_719_53, 80_365_58));
    // 84,002.5 pence go up, though the credit's half went to the even penny.
    assert_eq!(at(1_250), given(672_02, 840_03, 10_046_76));
}

#[test]
fn five_years_not_paid_off() {
    assert_eq!(rest_of_five_years(&[], 51), not_paid_off(16));
    assert_eq!(rest_of_five_years(&[(11, 1), (1, 2)], 51), not_paid_off(16));
    for marks in [&[][..], &[1], &[1, 2], &[2; 12]] {
        assert_eq!(pay_off(&Terms { term: 0, ..FIVE_YEARS }, marks, 51, 1_011), not_paid_off(16));
    }
    for increase in [0, 999, 10_000, u32::MAX] {
        assert_eq!(pay_off(&FIVE_YEARS, &[1; 18], 51, increase), not_paid_off(17));
    }
    for age_now in [0, 15, 65, u32::MAX] {
        assert_eq!(rest_of_five_years(&[(18, 1)], age_now), not_paid_off(5));
        assert_eq!(rest_of_five_years(&[(60, 1)], age_now), not_paid_off(5));
    }
    assert_eq!(rest_of_five_years(&[(1, 1), (12, 0), (1, 1)], 52), PayOff { refusal: 12, place: 13, ..PayOff::default() });
}

#[test]
fn the_cap() {
    let amount = |amount| Terms { amount, ..FIVE_YEARS };
    assert_eq!(quote(&amount(250), 6_250_00, 0).refusal, 0);
    assert_eq!(quote(&amount(500), 6_250_00, 0).refusal, 8);
    assert_eq!(quote(&amount(250), 6_250_01, 0).refusal, 8);
    assert_eq!(quote(&amount(250), u64::MAX, 0).refusal, 8);
    assert_eq!(quote(&amount(250), u64::MAX - 249_99, 0).refusal, 8);
    assert_eq!([0, 1, 6_250_00, 6_250_01, 6_500_00, u64::MAX].map(cap_decision), [6_500, 6_250, 250, 0, 0, 0]);
}

#[test]
fn refused_terms_and_counts() {
    for amount in [0, 1_100] {
        assert_eq!(settle(&Terms { amount, ..FIVE_YEARS }, &[]), refused(7, 0));
    }
    assert_eq!(five_years(&[(61, 1)]), refused(10, 0));
    let pension_age = |pension_age_years, pension_age_months| Terms { pension_age_years, pension_age_months, ..FIVE_YEARS };
    assert_eq!(settle(&pension_age(68, 1), &[]), refused(2, 0));
    assert_eq!(settle(&pension_age(66, 12), &[]), refused(2, 0));
    assert_eq!(settle(&pension_age(68, 0), &[]).refusal, 0);
}

#[test]
fn the_sample_of_the_case_file() {
    let input = "     1 50 67  0 2 1  9   125011111\n\
                 \x20    2 50 65  0 2 1  5   10001111111111111111110000111111\n\
                 \x20    3 50 67  0 2 1  9   1250111112\n\
                 \x20    4 50 65  0 2 1  5   1100\n";
    let printed = "     1  0   0 1     17150      7166         0\n\
                   \x20    2  0   0 1     24200     42960         0\n\
                   \x20    3  0   0 5     17150         0     85750\n\
                   \x20    4  7   0 0         0         0         0\n";
    let mut listed = Vec::new();
    listing(input.as_bytes(), &mut listed).unwrap();
    assert_eq!(String::from_utf8(listed).unwrap(), printed);
}

#[test]
fn misreadings_are_avoided() {
    // Closing the gap up would give the value at month 24, 433.38.
    assert_ne!(five_years(&[(18, 1), (4, 0), (6, 1)]).credit, 433_38);
    // One interpolated contribution divided by each table's rate would give another credit than the two tables' own.
    let odd = Terms { pension_age_months: 6, term: 14, age: 50, amount: 6_500, ..FIVE_YEARS };
    let blended = odd.contribution() * 25_000;
    let by_one_contribution = [65, 66].map(|table| nearest(blended, u64::from(monthly_rate(2, table, 50, 1).unwrap())));
    assert_ne!(settle(&odd, &[1; 12]).credit, blend(6, by_one_contribution[0], by_one_contribution[1]));
    // Rounding only the total would give 111.30 here, from whole-year credits in pence and from exact ones alike.
    assert_eq!(five_years(&[(1, 1), (1, 0), (5, 1)]).credit, 111_29);
    // Five paid months have a worth, and are nevertheless refunded after a notice.
    assert_eq!(settle(&NINE_YEARS, &[1, 1, 1, 1, 1, 2]).status, 5);
    // Twelve missed months are a stop, not a gap.
    assert_eq!(five_years(&[(13, 1), (12, 0)]).status, 4);
    assert_eq!(five_years(&[(13, 1), (11, 0)]).status, 2);
}
