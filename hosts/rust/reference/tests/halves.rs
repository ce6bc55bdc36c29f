//! Halves to the even penny: the rule itself, the places that keep it, and the pay-off, which does not.

use reference::halves::{HalvesUp, Place, PLACES};
use reference::pay_off::{cost, increased};
use reference::rounding::{blend, half_up, nearest};
use reference::samples::{self, runs, Random};
use reference::*;

const SEED: u64 = 2015;

#[test]
fn the_nearest_and_of_two_equally_near_the_even_one() {
    for denominator in 1..=100 {
        for numerator in 0..=1_000 {
            let rounded = nearest(numerator, denominator);
            let apart = 2 * (rounded * denominator).abs_diff(numerator);
            assert!(apart < denominator || (apart == denominator && rounded.is_multiple_of(2)), "{numerator} {denominator}");
        }
    }
}

#[test]
fn halves_go_down_and_up() {
    let halves = [1, 3, 5, 7, 9, 11];
    assert_eq!(halves.map(|half| nearest(half, 2)), [0, 2, 2, 4, 4, 6]);
    assert_eq!(halves.map(|half| nearest(5 * half, 10)), [0, 2, 2, 4, 4, 6]);
    assert_eq!(halves.map(|half| half_up(half, 2)), [1, 2, 3, 4, 5, 6]);
    // Just under them, and just over.
    assert_eq!(halves.map(|half| nearest(500 * half - 1, 1_000)), [0, 1, 2, 3, 4, 5]);
    assert_eq!(halves.map(|half| nearest(500 * half + 1, 1_000)), [1, 2, 3, 4, 5, 6]);
    // Midway between two figures, whichever is the greater.
    assert_eq!([(0, 1), (1, 0), (1, 2), (2, 1), (2, 3), (3, 2)].map(|(from, to)| blend(6, from, to)), [0, 0, 2, 2, 2, 2]);
}

#[test]
fn numbers_of_any_size_are_rounded() {
    let most = u64::MAX;
    let middle = 1 << 63;
    assert_eq!([0, 1, most].map(|numerator| nearest(numerator, 0)), [0; 3]);
    assert_eq!([0, 1, most].map(|numerator| nearest(numerator, 1)), [0, 1, most]);
    // Halves below an even number, and above one.
    assert_eq!([most, most - 2].map(|numerator| nearest(numerator, 2)), [middle, middle - 2]);
    // Just under a half of the greatest number, and just over; then an exact half, 1 more and 1 less.
    assert_eq!([middle - 1, middle, most].map(|numerator| nearest(numerator, most)), [0, 1, 1]);
    assert_eq!([middle - 1, middle, middle - 2].map(|numerator| nearest(numerator, most - 1)), [0, 1, 0]);
    let mut random = Random::new(SEED);
    for _ in 0..100_000 {
        let [numerator, denominator] = [(); 2].map(|()| random.number() >> random.from_to(0, 63));
        let denominator = denominator.max(1);
        let rounded = u128::from(nearest(numerator, denominator));
        let apart = 2 * (rounded * u128::from(denominator)).abs_diff(u128::from(numerator));
        assert!(apart <= u128::from(denominator), "{numerator} {denominator}");
        assert!(apart < u128::from(denominator) || rounded.is_multiple_of(2), "{numerator} {denominator}");
    }
}

/// From age 50, with dependant's pension, at pension age 65.
const TERMS: Terms =
    Terms { age: 50, pension_age_years: 65, pension_age_months: 0, option: 2, payer: 1, term: 2, amount: 1_000 };

/// The contribution where halves go to the even penny, and where they go up.
fn contributions(terms: Terms) -> [u64; 2] {
    let up = HalvesUp(&[Place::Contribution]).contribution(&terms);
    assert_eq!(HalvesUp(&PLACES).contribution(&terms), up);
    [quote(&terms, 0, 0).contribution, up]
}

#[test]
fn contributions_at_odd_months() {
    let terms =
        |years, months, term, amount| Terms { pension_age_years: years, pension_age_months: months, term, amount, ..TERMS };
    // £220.80 and £211.50: 260,310 twelfths, 21,692.5 pence.
    assert_eq!(contributions(terms(65, 5, 4, 750)), [216_92, 216_93]);
    // 258,450 twelfths, 21,537.5 pence.
    assert_eq!(contributions(terms(65, 7, 4, 750)), [215_38, 215_38]);
    // £248.00 and £237.50: 292,350 twelfths, 24,362.5 pence; then 290,250, 24,187.5 pence.
    assert_eq!(contributions(terms(66, 5, 6, 1_250)), [243_62, 243_63]);
    assert_eq!(contributions(terms(66, 7, 6, 1_250)), [241_88, 241_88]);
    // A refund gives back what was paid.
    assert_eq!(settle(&terms(65, 5, 4, 750), &[1, 1, 1, 2]).refund, 3 * 216_92);
}

/// What a lump sum costs is the same at either pension age, so it has nothing to round. Nor would two different lump sums meet a
/// half: they are whole tens of pounds, and so many twelfths of those are thirds of a penny.
#[test]
fn lump_sums_meet_no_half() {
    for (years, months) in (65..=67).flat_map(|years| (1..=11).map(move |months| (years, months))) {
        for (option, age) in (1..=2).flat_map(|option| (16..=64).map(move |age| (option, age))) {
            for amount in (250..=6_500).step_by(250) {
                let pension_age = Terms { pension_age_years: years, pension_age_months: months, ..TERMS };
                let terms = Terms { age, option, term: 0, amount, ..pension_age };
                let whole = settle(&Terms { pension_age_months: 0, ..terms }, &[]);
                assert_eq!(whole.refusal, 0);
                assert_eq!(settle(&terms, &[]), whole);
            }
        }
    }
    for (months, tens_of_pounds) in (0..12).flat_map(|months| (0..12).map(move |pounds| (months, pounds))) {
        assert_ne!(months * tens_of_pounds * 10_00 % 12, 6);
    }
}

/// The credit where halves go to the even penny, and where they go up at this place.
fn credits(place: Place, terms: Terms, marks: &[(usize, u8)]) -> [u64; 2] {
    let marks = runs(marks);
    let settled = settle(&terms, &marks);
    assert_eq!(settled.refusal, 0);
    // Nothing else in these contracts is a half that goes down.
    let up = HalvesUp(&[place]).credit(&terms, &marks);
    assert_eq!(HalvesUp(&PLACES).credit(&terms, &marks), up);
    assert_eq!(HalvesUp(&PLACES).contribution(&terms), settled.contribution);
    [settled.credit, up]
}

#[test]
fn whole_year_credits() {
    let credits = |terms, paid| credits(Place::YearCredit, terms, &[(paid, 1)]);
    let at_67 = |term, amount| Terms { pension_age_years: 67, term, amount, ..TERMS };
    // 564,000,000 ÷ 12,800: 44,062.5 pence.
    assert_eq!(credits(at_67(8, 1_500), 24), [440_62, 440_63]);
    // 876,000,000 ÷ 12,800: 68,437.5 pence.
    assert_eq!(credits(at_67(3, 1_000), 24), [684_38, 684_38]);
    // 1,281,250,000 and 768,750,000 ÷ 20,000: 64,062.5 and 38,437.5 pence.
    assert_eq!(credits(Terms { age: 38, amount: 1_250, ..TERMS }, 12), [640_62, 640_63]);
    assert_eq!(credits(Terms { age: 38, amount: 750, ..TERMS }, 12), [384_38, 384_38]);
}

#[test]
fn month_values() {
    let credits = |terms, marks: &[(usize, u8)]| credits(Place::MonthValue, terms, marks);
    let five_years = Terms { term: 5, ..TERMS };
    // 393,582 twelfths, 32,798.5 pence, at the end of the only run and of the first; then 133,554, 11,129.5 pence.
    assert_eq!(credits(five_years, &[(18, 1)]), [327_98, 327_99]);
    assert_eq!(credits(five_years, &[(18, 1), (4, 0), (6, 1)]), [429_60, 429_61]);
    assert_eq!(credits(five_years, &[(6, 1)]), [111_30, 111_30]);
    // 308,166 twelfths, 25,680.5 pence; at age 45, 307,770 twelfths, 25,647.5 pence.
    assert_eq!(credits(TERMS, &[(6, 1)]), [256_80, 256_81]);
    assert_eq!(credits(Terms { age: 45, ..TERMS }, &[(6, 1)]), [256_48, 256_48]);
    // The same two values where a second run starts: the credit is a penny more, or as before.
    assert_eq!(credits(TERMS, &[(1, 1), (5, 0), (1, 1)]), [85_61, 85_60]);
    assert_eq!(credits(Terms { age: 45, ..TERMS }, &[(1, 1), (5, 0), (1, 1)]), [85_49, 85_49]);
}

#[test]
fn credits_of_two_tables() {
    let credits = |months, term, paid| {
        let terms = Terms { pension_age_months: months, term, ..TERMS };
        credits(Place::CombinedCredit, terms, &[(paid, 1)])
    };
    // £42.80 and £42.77: 51,342 twelfths, 4,278.5 pence; then 51,330, 4,277.5 pence.
    assert_eq!(credits(6, 2, 1), [42_78, 42_79]);
    assert_eq!(credits(10, 2, 1), [42_78, 42_78]);
    // £351.73 and £351.52: 421,950 twelfths, 35,162.5 pence; then 421,866, 35,155.5 pence.
    assert_eq!(credits(6, 3, 12), [351_62, 351_63]);
    assert_eq!(credits(10, 3, 12), [351_56, 351_56]);
}

#[test]
fn pay_offs_keep_halves_up() {
    // 672.5 pence of increased pension, then 0.5, 1.5 and 2.5 pence of cost.
    assert_eq!((increased(5_38, 1_250), nearest(5_38 * 1_250, 1_000)), (6_73, 6_72));
    assert_eq!([1, 3, 5].map(|pence| cost(pence, 125_00, 125_00, 0)), [1, 2, 3]);
    assert_eq!([1, 3, 5].map(|pence| nearest(pence * 125_00, 250_00)), [0, 2, 2]);
    // The credit inside goes to the even penny: £1,000 − £327.98, and 84,002.5 pence of it goes up.
    let paid_off = pay_off(&Terms { term: 5, ..TERMS }, &[1; 18], 51, 1_250);
    assert_eq!(paid_off, PayOff { remaining: 672_02, increased: 840_03, cost: 10_046_76, ..PayOff::default() });
}

/// With halves up at no place, `HalvesUp` gives what the rules give; so where it differs with one place, that place's halves are why.
#[test]
fn halves_alone_make_the_difference() {
    let mut random = Random::new(SEED);
    let mut differing = [0; 4];
    for _ in 0..100_000 {
        let terms = samples::lawful_terms(&mut random);
        let count = random.from_to(0, 12 * terms.term) as usize;
        let marks = samples::lawful_marks(&mut random, count);
        let settled = settle(&terms, &marks);
        let given = (settled.contribution, settled.credit);
        let by = |up: HalvesUp| (up.contribution(&terms), up.credit(&terms, &marks));
        assert_eq!(by(HalvesUp(&[])), given);
        for (count, place) in differing.iter_mut().zip(PLACES) {
            *count += u32::from(by(HalvesUp(&[place])) != given);
        }
    }
    println!("100000 contracts, another answer with halves up at {PLACES:?}: {differing:?}");
    assert!(differing.iter().all(|count| *count > 0));
}
