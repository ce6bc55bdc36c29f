//! The rules themselves, one by one, and what follows from them over many made-up inputs.

use reference::credit::{month_value, row};
use reference::marks::{first_bad, status};
use reference::pay_off::{cost, increased};
use reference::rates::{lump_sum_rate, monthly_rate, table, S};
use reference::samples::{self, Random};
use reference::*;

const SEED: u64 = 2015;

const TERMS: Terms =
    Terms { age: 50, pension_age_years: 65, pension_age_months: 0, option: 2, payer: 1, term: 5, amount: 1_000 };

/// Marks as runs: how many, and which.
type Runs = &'static [(usize, u8)];

#[test]
fn tables_keep_the_print_rule_and_never_rise_along_a_row_or_fall_down_a_column() {
    let mut printed = 0;
    for (option, pension_age) in [(1, 65), (1, 66), (1, 67), (1, 68), (2, 65), (2, 66), (2, 67), (2, 68)] {
        assert_eq!(table(option, pension_age).len(), 51);
        for age in 0..=80 {
            for term in 1..=20 {
                let rate = monthly_rate(option, pension_age, age, term);
                assert_eq!(rate.is_some(), age >= 16 && age + term < pension_age, "{option} {pension_age} {age} {term}");
                let Some(rate) = rate else { continue };
                printed += 1;
                assert_eq!(rate % 10, 0);
                if term > 1 {
                    assert!(rate <= monthly_rate(option, pension_age, age, term - 1).unwrap());
                }
                if age > 16 {
                    assert!(rate >= monthly_rate(option, pension_age, age - 1, term).unwrap());
                }
                if option == 2 {
                    assert!(rate > monthly_rate(1, pension_age, age, term).unwrap());
                }
                if pension_age > 65 {
                    assert!(monthly_rate(option, pension_age - 1, age, term).is_none_or(|younger| younger > rate));
                }
            }
        }
    }
    assert_eq!(printed, 6_400);
    assert!(S.iter().flatten().all(|rate| *rate > 0 && rate % 1_000 == 0));
    assert!(S.windows(2).all(|ages| ages[0][0] < ages[1][0] && ages[0][1] < ages[1][1]));
    assert_eq!([15, 16, 64, 65].map(|age| lump_sum_rate(2, age)), [None, Some(1_170_00), Some(4_560_00), None]);
}

#[test]
fn refusals_come_in_their_order() {
    // Every field is wrong at first; each step mends the one that the refusal before it named.
    let mut terms = Terms { age: 90, pension_age_years: 64, pension_age_months: 12, option: 3, payer: 3, term: 21, amount: 1 };
    let held = 6_500_00;
    let steps: [(u32, fn(&mut Terms)); 9] = [
        (1, |terms| terms.option = 1),
        (2, |terms| terms.pension_age_years = 66),
        (2, |terms| terms.pension_age_months = 11),
        (3, |terms| terms.term = 20),
        (4, |terms| terms.payer = 2),
        (4, |terms| terms.payer = 1),
        (5, |terms| terms.age = 45),
        (7, |terms| terms.amount = 250),
        (8, |_| ()),
    ];
    for (refusal, mend) in steps {
        assert_eq!(quote(&terms, held, 999_999).refusal, refusal);
        mend(&mut terms);
    }
    assert_eq!(quote(&terms, 0, 999_999), Quote { refusal: 9, register: 999_999, ..Quote::default() });
    let quoted = quote(&terms, 0, 999_998);
    assert_eq!((quoted.refusal, quoted.next_number, quoted.register), (0, 999_999, 999_999));
}

#[test]
fn the_upper_table_never_lacks_what_the_lower_has() {
    for option in 1..=2 {
        for pension_age in 65..=67 {
            for age in 0..=80 {
                for term in 1..=20 {
                    let lower = monthly_rate(option, pension_age, age, term);
                    assert!(lower.is_none() || monthly_rate(option, pension_age + 1, age, term).is_some());
                }
            }
        }
    }
}

#[test]
fn a_refused_quote_keeps_the_register() {
    let refused = quote(&Terms { amount: 0, ..TERMS }, 0, 41);
    assert_eq!(refused, Quote { refusal: 7, contribution: 0, next_number: 0, register: 41 });
    assert_eq!(quote(&TERMS, 0, 41).register, 42);
    assert_eq!(quote(&TERMS, 0, u32::MAX).refusal, 9);
}

#[test]
fn lump_sums() {
    let lump_sum = Terms { term: 0, payer: 2, age: 64, ..TERMS };
    let settled = settle(&lump_sum, &[]);
    assert_eq!(settled, Settlement { contribution: 4 * 4_560_00, status: 6, credit: 1_000_00, ..Settlement::default() });
    assert_eq!(settle(&Terms { pension_age_months: 7, ..lump_sum }, &[]), settled);
    assert_eq!(settle(&Terms { age: 65, ..lump_sum }, &[]).refusal, 5);
    assert_eq!(settle(&Terms { age: 15, ..lump_sum }, &[]).refusal, 5);
}

/// £1,000 by lump sum from 64, with dependant's pension, and what that costs.
const LUMP_SUM: Terms = Terms { term: 0, age: 64, ..TERMS };
const LUMP_SUM_COST: u64 = 4 * 4_560_00;

/// What is lawful of a lump sum's first year: so many months elapsed, then so many from leaving on.
fn first_years() -> impl Iterator<Item = (usize, usize)> {
    (0..=12).flat_map(|elapsed| (0..=12 - elapsed).map(move |left| (elapsed, left)))
}

#[test]
fn a_lump_sum_goes_back_whole_where_the_member_left() {
    for (payer, pension_age_months) in [(1, 0), (1, 7), (2, 0), (2, 7)] {
        let terms = Terms { payer, pension_age_months, ..LUMP_SUM };
        let settled = Settlement { contribution: LUMP_SUM_COST, ..Settlement::default() };
        let credited = Settlement { status: 6, credit: 1_000_00, ..settled };
        let refunded = Settlement { status: 5, refund: LUMP_SUM_COST, ..settled };
        for (elapsed, left) in first_years() {
            let expected = if left > 0 { refunded } else { credited };
            assert_eq!(settle(&terms, &samples::runs(&[(elapsed, 1), (left, 2)])), expected, "{terms:?} {elapsed} {left}");
        }
    }
    let dearest = Terms { amount: 6_500, payer: 2, ..LUMP_SUM };
    assert_eq!(settle(&dearest, &[1; 12]).credit, 6_500_00);
    assert_eq!(settle(&dearest, &[2; 12]).refund, 118_560_00);
    let cheapest = Terms { amount: 250, age: 16, option: 1, ..LUMP_SUM };
    assert_eq!(settle(&cheapest, &[2]).refund, settle(&cheapest, &[1]).contribution);
}

#[test]
fn bad_marks_of_a_lump_sum() {
    let bad: [(Runs, u32, u32); 15] = [
        (&[(1, 0)], 12, 0),
        (&[(1, 0), (11, 1)], 12, 0),
        (&[(1, 0), (1, 3)], 12, 0),
        (&[(5, 1), (1, 0), (6, 1)], 12, 5),
        (&[(11, 1), (1, 0)], 12, 11),
        (&[(1, 2), (1, 0)], 12, 1),
        (&[(1, 2), (1, 1)], 12, 1),
        (&[(5, 1), (1, 2), (1, 1), (1, 3)], 12, 6),
        (&[(5, 1), (6, 2), (1, 1)], 12, 11),
        (&[(5, 1), (6, 2), (1, 0)], 12, 11),
        (&[(1, 3)], 11, 0),
        (&[(1, 3), (1, 0)], 11, 0),
        (&[(4, 1), (1, 2), (1, 9), (1, 1)], 11, 5),
        (&[(11, 1), (1, 255)], 11, 11),
        (&[(11, 2), (1, 3)], 11, 11),
    ];
    for (runs, refusal, place) in bad {
        let refused = Settlement { refusal, place, ..Settlement::default() };
        for payer in 1..=2 {
            assert_eq!(settle(&Terms { payer, ..LUMP_SUM }, &samples::runs(runs)), refused, "{runs:?}");
        }
    }
    // Too many are refused before any of them is looked at, and after the terms.
    let too_many: [Runs; 7] =
        [&[(13, 1)], &[(12, 1), (1, 2)], &[(13, 2)], &[(13, 0)], &[(13, 3)], &[(12, 3), (1, 1)], &[(240, 1)]];
    for marks in too_many.map(samples::runs) {
        assert_eq!(settle(&LUMP_SUM, &marks), Settlement { refusal: 10, ..Settlement::default() });
        assert_eq!(settle(&Terms { amount: 6_750, ..LUMP_SUM }, &marks), Settlement { refusal: 8, ..Settlement::default() });
    }
    // As many are lawful of a contract of a year or more.
    assert_eq!(settle(&Terms { term: 2, age: 50, ..TERMS }, &[1; 13]).refusal, 0);
}

#[test]
fn the_first_year_of_a_lump_sum_is_posted() {
    for (elapsed, left) in first_years() {
        let mut record = Record::new(LUMP_SUM);
        let history = samples::runs(&[(elapsed, 1), (left, 2)]);
        for (count, &mark) in history.iter().enumerate() {
            let at_count = |refusal| Outcome { refusal, place: count as u32 };
            let before = record;
            assert_eq!([0, 3, 255].map(|bad| post(&mut record, bad)), [12, 11, 11].map(at_count));
            if count > elapsed {
                assert_eq!(post(&mut record, 1), at_count(12));
            }
            assert_eq!(record, before);
            assert_eq!(post(&mut record, mark), Outcome { refusal: 0, place: 0 });
        }
        assert_eq!((record.count as usize, &record.marks[..history.len()]), (elapsed + left, &history[..]));
        assert_eq!(record.settled(), Some(settle(&LUMP_SUM, &history)));
        if elapsed + left == 12 {
            let full = record;
            assert_eq!([0, 1, 2, 3].map(|mark| post(&mut record, mark)), [Outcome { refusal: 10, place: 0 }; 4]);
            assert_eq!(record, full);
        }
    }
}

#[test]
fn the_schedule_of_a_lump_sum() {
    for (elapsed, left) in first_years() {
        let mut list = [7; 14];
        let marks = samples::runs(&[(elapsed, 1), (left, 2)]);
        assert_eq!(schedule(&LUMP_SUM, &marks, &mut list), Outcome { refusal: 0, place: 0 });
        assert_eq!(list[..elapsed], vec![1_000_00; elapsed]);
        assert_eq!(list[elapsed..elapsed + left], vec![0; left]);
        assert_eq!(list[elapsed + left..], vec![7; 14 - elapsed - left]);
    }
    let refused = |marks: &[u8]| {
        let mut list = [7; 12];
        let outcome = schedule(&LUMP_SUM, marks, &mut list);
        assert_eq!(list, [7; 12]);
        (outcome.refusal, outcome.place)
    };
    assert_eq!([&[1, 1, 0][..], &[2, 1], &[1, 3], &[1; 13]].map(refused), [(12, 2), (12, 1), (11, 1), (10, 0)]);
    assert_eq!(schedule(&LUMP_SUM, &[1, 2], &mut [7]), Outcome { refusal: 14, place: 0 });
}

#[test]
fn a_lump_sum_is_never_paid_off() {
    for (elapsed, left) in first_years() {
        let marks = samples::runs(&[(elapsed, 1), (left, 2)]);
        for (age_now, increase) in [(64, 1_011), (65, 1_000), (65, 999), (15, u32::MAX)] {
            let refused = pay_off(&LUMP_SUM, &marks, age_now, increase);
            assert_eq!(refused, PayOff { refusal: 16, ..PayOff::default() });
        }
    }
    let refused = |marks: &[u8]| pay_off(&LUMP_SUM, marks, 65, 999);
    assert_eq!(refused(&[1, 0]), PayOff { refusal: 12, place: 1, ..PayOff::default() });
    assert_eq!(refused(&[1, 2, 3]), PayOff { refusal: 11, place: 2, ..PayOff::default() });
    assert_eq!(refused(&[1; 13]), PayOff { refusal: 10, ..PayOff::default() });
}

#[test]
fn the_first_bad_mark_of_a_lump_sum_ends_a_lawful_beginning() {
    // In every list of up to five marks: the shortest beginning that is not elapsed months and then months since leaving.
    for count in 0..=5 {
        for list in 0..4_u32.pow(count) {
            let marks: Vec<u8> = (0..count).map(|month| (list >> (2 * month) & 3) as u8).collect();
            let is_lawful = |beginning: &[u8]| {
                let elapsed = beginning.iter().take_while(|&&mark| mark == 1).count();
                beginning[elapsed..].iter().all(|&mark| mark == 2)
            };
            let bad = (0..marks.len()).find(|&index| !is_lawful(&marks[..=index]));
            let expected = bad.map(|index| (if marks[index] > 2 { 11 } else { 12 }, index as u32));
            assert_eq!(first_bad(0, &marks), expected, "{marks:?}");
        }
    }
}

#[test]
fn the_first_bad_mark_decides() {
    let first_bad = |marks: &[u8]| first_bad(5, marks);
    assert_eq!(first_bad(&[]), None);
    assert_eq!(first_bad(&[1, 2, 2]), None);
    assert_eq!(first_bad(&[3]), Some((11, 0)));
    assert_eq!(first_bad(&[1, 2, 1]), Some((12, 2)));
    assert_eq!(first_bad(&[1, 2, 0]), Some((12, 2)));
    assert_eq!(first_bad(&[1, 2, 7]), Some((11, 2)));
    assert_eq!(first_bad(&[0, 7]), Some((12, 0)));
    assert_eq!(first_bad(&[1, 7, 0]), Some((11, 1)));
    let mut lapsed = vec![1];
    lapsed.extend([0; 12]);
    for (next, bad) in [(0, None), (1, Some((12, 13))), (2, None), (255, Some((11, 13)))] {
        lapsed.push(next);
        assert_eq!(first_bad(&lapsed), bad);
        lapsed.pop();
    }
    // A payment ends the count of missed months.
    let mut twice = vec![1];
    twice.extend([0; 11]);
    twice.push(1);
    twice.extend([0; 11]);
    twice.push(1);
    assert_eq!(first_bad(&twice), None);
}

#[test]
fn statuses() {
    let cases: [(u32, Runs, u32); 16] = [
        (5, &[], 0),
        (5, &[(1, 1)], 1),
        (5, &[(59, 1)], 1),
        (5, &[(1, 1), (1, 0)], 2),
        (5, &[(48, 1), (11, 0)], 2),
        (5, &[(60, 1)], 3),
        (5, &[(59, 1), (1, 0)], 4),
        (5, &[(30, 1), (1, 0), (29, 1)], 4),
        (5, &[(12, 1), (12, 0)], 4),
        (5, &[(11, 1), (12, 0)], 5),
        (5, &[(1, 1), (10, 0), (1, 1), (1, 2)], 4),
        (5, &[(1, 1), (9, 0), (1, 1), (1, 2)], 5),
        (5, &[(60, 2)], 5),
        (1, &[(1, 1), (11, 0)], 5),
        (1, &[(1, 1), (10, 0), (1, 1)], 4),
        (1, &[(12, 1)], 3),
    ];
    for (term, runs, expected) in cases {
        assert_eq!(status(term, &samples::runs(runs)), expected, "{term} {runs:?}");
    }
    // The refund goes by paid months, the status by months up to the last paid one.
    let refunded = settle(&TERMS, &samples::runs(&[(1, 1), (9, 0), (1, 1), (1, 2)]));
    assert_eq!((refunded.credit, refunded.refund), (0, 2 * 242_00));
}

#[test]
fn odd_months_combine_whole_credits() {
    let odd = Terms { pension_age_years: 66, pension_age_months: 5, term: 4, age: 60, option: 1, amount: 1_500, ..TERMS };
    // Two halves, of which one goes up and one down, and then 371,008 twelfths of a penny.
    assert_eq!([66, 67].map(|pension_age| month_value(&row(&odd, pension_age), 9)), [309_14, 309_22]);
    assert_eq!(settle(&odd, &[1; 9]).credit, 309_17);
}

#[test]
fn a_complete_contract_has_the_amount_and_no_credit_passes_it() {
    let mut random = Random::new(SEED);
    for _ in 0..20_000 {
        let terms = samples::monthly_terms(&mut random);
        let all = settle(&terms, &vec![1; 12 * terms.term as usize]);
        assert_eq!((all.status, all.credit), (3, terms.amount_pence()));
        let marks = samples::lawful_marks(&mut random, 12 * terms.term as usize);
        assert!(settle(&terms, &marks).credit <= terms.amount_pence());
    }
}

/// The credit that nothing was rounded in, in pence, as near as a floating number holds it.
fn exact_credit(terms: &Terms, marks: &[u8]) -> f64 {
    let in_table = |pension_age: u32| -> f64 {
        let contribution = terms.contribution_in(pension_age) as f64;
        let year = |year: usize| match year {
            0 => 0.0,
            _ => {
                let rate = monthly_rate(terms.option, pension_age, terms.age, year as u32).unwrap();
                contribution / f64::from(rate) * 25_000.0
            }
        };
        let paid = (0..marks.len()).filter(|&month| marks[month] == 1);
        paid.map(|month| (year(month / 12 + 1) - year(month / 12)) / 12.0).sum()
    };
    let lower = in_table(terms.pension_age_years);
    if terms.pension_age_months == 0 {
        return lower;
    }
    let months = f64::from(terms.pension_age_months);
    ((12.0 - months) * lower + months * in_table(terms.pension_age_years + 1)) / 12.0
}

#[test]
fn the_credit_stays_near_the_exact_credit() {
    let mut random = Random::new(SEED);
    let mut held = 0;
    let mut furthest: f64 = 0.0;
    for _ in 0..100_000 {
        let terms = samples::monthly_terms(&mut random);
        let count = random.from_to(1, 12 * terms.term) as usize;
        let marks = samples::lawful_marks(&mut random, count);
        let settled = settle(&terms, &marks);
        let runs = (0..count).filter(|&month| marks[month] == 1 && (month == 0 || marks[month - 1] != 1)).count();
        if settled.refusal != 0 || settled.status == 5 || runs == 0 {
            continue;
        }
        held += 1;
        let odd = if terms.pension_age_months > 0 { 0.5 } else { 0.0 };
        let bound = (2 * runs - 1) as f64 + odd;
        let distance = (settled.credit as f64 - exact_credit(&terms, &marks)).abs();
        furthest = furthest.max(distance);
        assert!(distance <= bound + 1e-6, "{terms:?} {marks:?}");
    }
    println!("{held} contracts, the furthest {furthest:.3} pence from exact");
    assert!(held > 50_000);
}

#[test]
fn pay_off_refusals_come_in_their_order() {
    // Everything is wrong at first; each step mends what the refusal before it named. Refusal 5 comes at two places.
    struct Asked {
        terms: Terms,
        marks: Vec<u8>,
        age_now: u32,
        increase: u32,
    }
    let mut asked = Asked {
        terms: Terms { age: 90, pension_age_years: 64, pension_age_months: 12, option: 3, payer: 3, term: 21, amount: 1 },
        marks: samples::runs(&[(5, 1), (1, 3), (1, 0), (1, 2), (1, 1), (10, 2)]),
        age_now: 65,
        increase: 999,
    };
    let steps: [(u32, u32, fn(&mut Asked)); 16] = [
        (1, 0, |asked| asked.terms.option = 1),
        (2, 0, |asked| asked.terms.pension_age_years = 66),
        (2, 0, |asked| asked.terms.pension_age_months = 11),
        (3, 0, |asked| asked.terms.term = 1),
        (4, 0, |asked| asked.terms.payer = 2),
        (4, 0, |asked| asked.terms.payer = 1),
        (5, 0, |asked| asked.terms.age = 45),
        (7, 0, |asked| asked.terms.amount = 6_750),
        (8, 0, |asked| asked.terms.amount = 6_500),
        (10, 0, |asked| asked.marks.truncate(12)),
        (11, 5, |asked| asked.marks[5] = 1),
        (12, 8, |asked| asked.marks[8] = 2),
        (16, 0, |asked| asked.marks = vec![1; 12]),
        (17, 0, |asked| asked.increase = 10_000),
        (17, 0, |asked| asked.increase = 1_000),
        (5, 0, |asked| asked.age_now = 64),
    ];
    for (refusal, place, mend) in steps {
        let refused = pay_off(&asked.terms, &asked.marks, asked.age_now, asked.increase);
        assert_eq!(refused, PayOff { refusal, place, ..PayOff::default() });
        mend(&mut asked);
    }
    assert_eq!(pay_off(&asked.terms, &asked.marks, asked.age_now, asked.increase), PayOff::default());
}

#[test]
fn the_age_now_may_be_any_with_a_printed_lump_sum() {
    let at = |age_now| pay_off(&TERMS, &[1; 18], age_now, 1_000);
    for age_now in 0..=80 {
        let refusal = if (16..=64).contains(&age_now) { 0 } else { 5 };
        assert_eq!(at(age_now).refusal, refusal, "{age_now}");
    }
    // Below the age at election too: the cost goes by the age now alone.
    assert_eq!([16, 64].map(|age_now| at(age_now).cost), [3_145_05, 12_257_64]);
    assert_eq!(pay_off(&Terms { age: 16, ..TERMS }, &[1; 60], 16, 1_000), PayOff::default());
}

#[test]
fn halves_go_up_in_both_roundings_of_a_pay_off() {
    // 500.5, 4.5 and 1.5, then just under a half.
    assert_eq!([increased(5_00, 1_001), increased(3, 1_500), increased(1, 1_500), increased(1, 1_499)], [5_01, 5, 2, 1]);
    // At half a penny for a penny: 0.5, 1.5 and 2.5.
    assert_eq!([1, 3, 5].map(|pence| cost(pence, 125_00, 125_00, 0)), [1, 2, 3]);
    assert_eq!([1, 3, 5].map(|pence| cost(pence, 120_00, 130_00, 6)), [1, 2, 3]);
    assert_eq!([1, 3, 5].map(|pence| cost(pence, 124_99, 124_99, 0)), [0, 1, 2]);
}

#[test]
fn the_rate_between_two_rates_is_not_rounded() {
    // A rate of 10,000 and 5 twelfths.
    assert_eq!(cost(600_00, 100_00, 100_01, 5), 240_01);
    assert_eq!(cost(600_00, 100_01, 100_00, 7), 240_01);
    assert_eq!(
        [0, 3, 6, 9].map(|months| cost(1_000_00, 3_940_00, 3_730_00, months)),
        [15_760_00, 15_550_00, 15_340_00, 15_130_00]
    );
}

/// Whether `rounded` is within half of `numerator ÷ denominator`, and not half below it.
fn is_half_up(rounded: u64, numerator: u64, denominator: u64) -> bool {
    2 * rounded * denominator <= 2 * numerator + denominator && 2 * numerator < (2 * rounded + 1) * denominator
}

#[test]
fn pay_offs_round_twice_at_any_rates() {
    let mut random = Random::new(SEED);
    for _ in 0..100_000 {
        let remaining = u64::from(random.from_to(0, 650_000));
        let increase = random.from_to(1_000, 9_999);
        let (lower, upper) = (random.from_to(1, 1_000_000), random.from_to(1, 1_000_000));
        let months = random.from_to(0, 11);
        let increased = increased(remaining, increase);
        assert!(is_half_up(increased, remaining * u64::from(increase), 1_000));
        let rate = u64::from((12 - months) * lower + months * upper);
        assert!(is_half_up(cost(increased, lower, upper, months), increased * rate, 12 * 250_00));
    }
}

#[test]
fn what_remains_and_what_it_costs() {
    let mut random = Random::new(SEED);
    let mut statuses = [0; 7];
    for _ in 0..100_000 {
        let terms = samples::lawful_terms(&mut random);
        let mut marks = samples::some_lawful_marks(&mut random, terms.term);
        if terms.term > 0 && random.one_in(2) {
            marks = samples::lawful_marks(&mut random, 12 * terms.term as usize);
        }
        let settled = settle(&terms, &marks);
        let paid_off = pay_off(&terms, &marks, random.from_to(16, 64), random.from_to(1_000, 9_999));
        assert_eq!(settled.refusal, 0);
        statuses[settled.status as usize] += 1;
        if matches!(settled.status, 0 | 5 | 6) {
            assert_eq!(paid_off, PayOff { refusal: 16, ..PayOff::default() });
            continue;
        }
        assert_eq!((paid_off.refusal, paid_off.place), (0, 0));
        assert_eq!(paid_off.remaining + settled.credit, terms.amount_pence());
        assert!(paid_off.increased >= paid_off.remaining);
        assert_eq!(paid_off.cost == 0, paid_off.remaining == 0);
        if settled.status == 3 {
            assert_eq!(paid_off, PayOff::default());
        }
    }
    assert!(statuses.iter().all(|count| *count > 0), "{statuses:?}");
}

#[test]
fn schedule_lists_the_credit_of_each_prefix() {
    let mut random = Random::new(SEED);
    for _ in 0..2_000 {
        let terms = samples::terms(&mut random);
        let marks = samples::marks(&mut random, terms.term);
        let room = random.from_to(0, 260) as usize;
        let before: Vec<u32> = (0..room).map(|_| random.number() as u32).collect();
        let mut list = before.clone();
        let outcome = schedule(&terms, &marks, &mut list);
        let settled = settle(&terms, &marks);
        if settled.refusal != 0 {
            assert_eq!(outcome, Outcome { refusal: settled.refusal, place: settled.place });
            assert_eq!(list, before);
        } else if room < marks.len() {
            assert_eq!(outcome, Outcome { refusal: 14, place: 0 });
            assert_eq!(list, before);
        } else {
            assert_eq!(outcome, Outcome { refusal: 0, place: 0 });
            assert_eq!(list[marks.len()..], before[marks.len()..]);
            for index in 0..marks.len() {
                assert_eq!(u64::from(list[index]), settle(&terms, &marks[..=index]).credit);
            }
        }
    }
}

#[test]
fn schedule_can_fall_to_nothing_at_an_early_notice() {
    let mut list = [9; 4];
    assert_eq!(schedule(&TERMS, &[1, 1, 2], &mut list).refusal, 0);
    assert_eq!(list, [18_55, 37_10, 0, 9]);
    assert_eq!(schedule(&TERMS, &[], &mut []), Outcome { refusal: 0, place: 0 });
}

#[test]
fn posting_builds_what_settle_accepts() {
    let mut random = Random::new(SEED);
    let mut seen = [0; 15];
    let mut of_lump_sums = [0; 15];
    for _ in 0..2_000 {
        let terms = samples::terms(&mut random);
        let marks = samples::marks(&mut random, terms.term);
        let mut record = Record::new(terms);
        for (count, &mark) in marks.iter().enumerate().take(260) {
            let before = record;
            let outcome = post(&mut record, mark);
            seen[outcome.refusal as usize] += 1;
            of_lump_sums[outcome.refusal as usize] += u32::from(terms.term == 0);
            let settled = settle(&terms, &marks[..=count]);
            if outcome.refusal == 0 {
                assert_eq!(settled.refusal, 0);
                assert_eq!(record.count as usize, count + 1);
                assert_eq!(record.marks[..=count], marks[..=count]);
                assert_eq!(record.marks[count + 1..], before.marks[count + 1..]);
                continue;
            }
            assert_eq!(record, before);
            let refusal = if terms.refusal(0) != 0 { 13 } else { settled.refusal };
            let place = if matches!(refusal, 11 | 12) { count as u32 } else { 0 };
            assert_eq!(outcome, Outcome { refusal, place });
            break;
        }
    }
    for refusal in [0, 10, 11, 12, 13] {
        assert!(seen[refusal] > of_lump_sums[refusal] && of_lump_sums[refusal] > 0, "{seen:?} {of_lump_sums:?}");
    }
}

#[test]
fn a_bad_record_is_refused_13() {
    let sound = Record::new(TERMS);
    let spoilt = |spoil: &dyn Fn(&mut Record)| {
        let mut record = sound;
        spoil(&mut record);
        let before = record;
        let outcomes = [1, 7].map(|mark| post(&mut record, mark));
        assert_eq!(record, before);
        assert_eq!(member_total(&[sound, record]), MemberTotal { refusal: 13, index: 1, total: 0 });
        assert_eq!(outcomes, [Outcome { refusal: 13, place: 0 }; 2]);
    };
    spoilt(&|record| record.terms.amount = 1_100);
    spoilt(&|record| record.count = 241);
    spoilt(&|record| record.count = u32::MAX);
    spoilt(&|record| record.count = 61);
    spoilt(&|record| record.marks[0] = 1);
    spoilt(&|record| record.marks[239] = 2);
    spoilt(&|record| record.count = 1);
    spoilt(&|record| (record.count, record.marks[0]) = (1, 9));
}

#[test]
fn a_full_record_is_refused_10() {
    let mut record = Record { marks: [1; 240], count: 240, ..Record::new(Terms { age: 40, term: 20, ..TERMS }) };
    for mark in [1, 7] {
        assert_eq!(post(&mut record, mark), Outcome { refusal: 10, place: 0 });
    }
    let mut lump_sum = Record::new(LUMP_SUM);
    assert_eq!(post(&mut lump_sum, 7), Outcome { refusal: 11, place: 0 });
    lump_sum.marks[..12].fill(1);
    lump_sum.count = 12;
    for mark in [0, 1, 2, 7] {
        assert_eq!(post(&mut lump_sum, mark), Outcome { refusal: 10, place: 0 });
    }
}

/// A contract with these marks, whatever they are.
fn record(terms: Terms, used: &[u8]) -> Record {
    let mut record = Record { count: used.len() as u32, ..Record::new(terms) };
    record.marks[..used.len()].copy_from_slice(used);
    record
}

#[test]
fn records_of_lump_sums() {
    let paid = record(TERMS, &[1; 18]);
    for (elapsed, left) in first_years() {
        let sound = record(LUMP_SUM, &samples::runs(&[(elapsed, 1), (left, 2)]));
        let credit = if left > 0 { 0 } else { 1_000_00 };
        assert_eq!(member_total(&[sound, paid, sound]), MemberTotal { total: 2 * credit + 327_98, ..MemberTotal::default() });
        // The same marks, of which the last is not in use.
        let unused = Record { count: sound.count.saturating_sub(1), ..sound };
        let is_bad = sound.count > 0;
        assert_eq!(member_total(&[paid, unused]).refusal, if is_bad { 13 } else { 0 });
    }
    let bad: [&[u8]; 8] = [&[0], &[1, 0], &[2, 1], &[2, 0], &[1, 3], &[1; 13], &[2; 13], &[1; 240]];
    for bad in bad.map(|marks| record(LUMP_SUM, marks)) {
        assert_eq!(member_total(&[paid, bad]), MemberTotal { refusal: 13, index: 1, total: 0 });
        let mut posted = bad;
        assert_eq!([0, 1, 2, 3].map(|mark| post(&mut posted, mark)), [Outcome { refusal: 13, place: 0 }; 4]);
        assert_eq!(posted, bad);
    }
}

#[test]
fn member_totals() {
    let mut paid = Record::new(TERMS);
    for _ in 0..18 {
        assert_eq!(post(&mut paid, 1).refusal, 0);
    }
    assert_eq!(member_total(&[]), MemberTotal::default());
    assert_eq!(member_total(&[paid; 64]).total, 64 * 327_98);
    let bad = Record { count: 9_999, ..paid };
    assert_eq!(member_total(&[bad; 65]), MemberTotal { refusal: 14, index: 0, total: 0 });
    assert_eq!(member_total(&[paid, bad, bad]), MemberTotal { refusal: 13, index: 1, total: 0 });
}
