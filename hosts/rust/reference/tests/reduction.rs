//! The rules of the reduction limit, one by one, its powers and B against exact arithmetic, and what follows over many
//! made-up applications.

use reference::reduction::{first_candidate, potential, power, room, MOST_PENCE};
use reference::samples::{self, half_penny_pay, Random};
use reference::*;

const SEED: u64 = 2015;

/// Three candidates with falling B, of which the last has room.
const MEMBER: Application =
    Application { npa: 68, age: 35, pay: 70_000, factors: [850, 896, 946], existing: 2_000_00, limit: 6_924_00 };

/// B of the member's candidates.
const POTENTIALS: [u64; 3] = [9_117_97, 6_630_51, 3_607_13];

const REFUSED: ReductionLimit = ReductionLimit { refusal: 18, age: 0, potentials: [0; 3] };

fn given(age: u32, potentials: [u64; 3]) -> ReductionLimit {
    ReductionLimit { refusal: 0, age, potentials }
}

/// What the member is given with this existing pension and limit.
fn with(existing: u64, limit: u64) -> ReductionLimit {
    reduction_limit(&Application { existing, limit, ..MEMBER })
}

/// Puts numbers into a field: these are taken and those refused, with existing pension and without.
fn assert_bounds<Number: Copy>(change: fn(&mut Application, Number), taken: &[Number], refused: &[Number]) {
    for existing in [0, 2_000_00] {
        let answer = |number| {
            let mut application = Application { existing, ..MEMBER };
            change(&mut application, number);
            reduction_limit(&application)
        };
        assert!(taken.iter().all(|&number| answer(number).refusal == 0));
        assert!(refused.iter().all(|&number| answer(number) == REFUSED));
    }
}

#[test]
fn every_bound_from_both_sides() {
    // The low bits of some are lawful.
    let outside = |nearest: [u32; 2]| [&nearest[..], &[0, 1 << 8 | 68, 1 << 16 | 35, 1 << 31 | 68, u32::MAX]].concat();
    assert_bounds(|member, npa| member.npa = npa, &[66, 67, 68, 69, 70], &outside([65, 71]));
    assert_bounds(|member, age| member.age = age, &[24, 25, 63, 64], &outside([23, 65]));
    assert_bounds(|member, pay| member.pay = pay, &[1, 2, 199_999, 200_000], &[0, 200_001, 1 << 18 | 1, 1 << 31 | 1, u32::MAX]);
    let (factors, no_factors) = ([0, 1, 999, 1_000], [1_001, 1 << 10, 1 << 16, 1 << 31, u32::MAX]);
    assert_bounds(|member, factor| member.factors[0] = factor, &factors, &no_factors);
    assert_bounds(|member, factor| member.factors[1] = factor, &factors, &no_factors);
    assert_bounds(|member, factor| member.factors[2] = factor, &factors, &no_factors);
    let (money, no_money) = ([0, 1, 999_999_99, 1_000_000_00], [1_000_000_01, 1 << 32, 1 << 63, u64::MAX]);
    assert_bounds(|member, pence| member.existing = pence, &money, &no_money);
    assert_bounds(|member, pence| member.limit = pence, &money, &no_money);
}

/// A factor is looked at where its candidate is at the pension age or past it, and where an earlier one is taken.
#[test]
fn every_factor_is_looked_at() {
    for npa in 66..=70 {
        for existing in [0, 1] {
            let first_taken = Application { npa, existing, limit: MOST_PENCE, ..MEMBER };
            assert_eq!(reduction_limit(&first_taken).age, first_candidate(npa));
            for place in 0..3 {
                let mut application = first_taken;
                application.factors[place] = 1_001;
                assert_eq!(reduction_limit(&application), REFUSED);
            }
        }
    }
}

#[test]
fn candidates_of_each_pension_age() {
    let expected: [&[u32]; 5] = [&[65], &[65, 66], &[65, 66, 67], &[66, 67, 68], &[67, 68, 69]];
    for (npa, expected) in (66..=70).zip(expected) {
        let candidates: Vec<_> = Application { npa, ..MEMBER }.candidates().map(|(candidate, _)| candidate).collect();
        assert_eq!(candidates, expected);
        assert_eq!(first_candidate(npa), expected[0]);
    }
}

#[test]
fn a_candidate_at_the_pension_age_ends_the_search() {
    let [first, second, third] = POTENTIALS;
    // Just room for the third, and for none before it.
    let at = |npa, age| {
        let limit = potential(32, 70_000, 946) + MEMBER.existing + 1;
        reduction_limit(&Application { npa, age, limit, ..MEMBER })
    };
    assert_eq!(at(66, 35), given(0, [first, 0, 0]));
    assert_eq!(at(67, 35), given(0, [first, second, 0]));
    assert_eq!(at(68, 35), given(67, [first, second, third]));
    assert_eq!(at(69, 36), given(68, [first, second, third]));
    assert_eq!(at(70, 37), given(69, [first, second, third]));
}

#[test]
fn equality_goes_on_to_the_next() {
    let [first, second, third] = POTENTIALS;
    let existing = MEMBER.existing;
    let over = |potential: u64, pence: u64| with(existing, potential + existing + pence);
    assert_eq!(over(first, 1), given(65, [first, 0, 0]));
    assert_eq!(over(first, 0), given(66, [first, second, 0]));
    assert_eq!(over(second, 1), given(66, [first, second, 0]));
    assert_eq!(over(second, 0), given(67, POTENTIALS));
    assert_eq!(over(third, 1), given(67, POTENTIALS));
    assert_eq!(over(third, 0), given(0, POTENTIALS));
    // Nothing to buy out, and a limit that is just used up or has a penny left.
    let nothing = Application { factors: [1_000; 3], limit: existing, ..MEMBER };
    assert_eq!(reduction_limit(&nothing), given(0, [0; 3]));
    assert_eq!(reduction_limit(&Application { limit: existing + 1, ..nothing }), given(65, [0; 3]));
}

#[test]
fn without_existing_pension_the_first_is_taken() {
    for limit in [0, 1, POTENTIALS[0] - 1, POTENTIALS[0], POTENTIALS[0] + 1, 6_924_00, MOST_PENCE] {
        assert_eq!(with(0, limit), given(65, [POTENTIALS[0], 0, 0]));
    }
    for npa in 66..=70 {
        let answer = reduction_limit(&Application { npa, existing: 0, limit: 0, ..MEMBER });
        assert_eq!(answer, given(first_candidate(npa), [potential(first_candidate(npa) - 35, 70_000, 850), 0, 0]));
    }
    // With a penny, the comparison is made.
    assert_eq!(with(1, 0), given(0, POTENTIALS));
}

#[test]
fn the_greater_of_two_differences() {
    // Above zero, zero and below; the first two by B, the others by L.
    assert_eq!(room(9_117_97, 2_000_00, 6_924_00), 7_117_97);
    assert_eq!(room(9_117_97, 9_117_97, 6_924_00), 0);
    assert_eq!(room(1_083_53, 4_000_00, 6_924_00), 2_924_00);
    assert_eq!(room(1_083_53, 4_000_00, 3_000_00), -1_000_00);
    assert_eq!(room(0, MOST_PENCE, 0), -(MOST_PENCE as i128));
    // A limit below existing pension leaves no scope, whether B is above existing pension or below.
    assert_eq!(with(2_000_00, 1_999_99), given(0, POTENTIALS));
    assert_eq!(with(10_000_00, 9_999_99), given(0, POTENTIALS));
    assert_eq!(with(MOST_PENCE, 0), given(0, POTENTIALS));
    assert_eq!(with(MOST_PENCE, MOST_PENCE), given(0, POTENTIALS));
}

/// A whole number of up to 640 bits, the highest 32 first: the derived order is that of the numbers.
#[derive(Clone, Copy, Debug, PartialEq, Eq, PartialOrd, Ord)]
struct Whole([u32; 20]);

impl Whole {
    fn one() -> Whole {
        let mut digits = [0; 20];
        digits[19] = 1;
        Whole(digits)
    }

    fn times(mut self, factor: u64) -> Whole {
        let mut carried = 0;
        for digit in self.0.iter_mut().rev() {
            carried += u128::from(*digit) * u128::from(factor);
            *digit = carried as u32;
            carried >>= 32;
        }
        assert_eq!(carried, 0, "the number fits");
        self
    }

    fn times_power(self, factor: u64, exponent: u32) -> Whole {
        (0..exponent).fold(self, |product, _| product.times(factor))
    }

    fn plus(mut self, other: Whole) -> Whole {
        let mut carried = 0;
        for (digit, added) in self.0.iter_mut().zip(other.0).rev() {
            carried += u64::from(*digit) + u64::from(added);
            *digit = carried as u32;
            carried >>= 32;
        }
        assert_eq!(carried, 0, "the sum fits");
        self
    }
}

/// Whether a whole number is within `distance` of `numerator ÷ denominator`.
fn is_within(distance: u64, number: u64, numerator: Whole, denominator: Whole) -> bool {
    let [number, distance] = [number, distance].map(|number| denominator.times(number));
    number <= numerator.plus(distance) && numerator <= number.plus(distance)
}

/// Whether a power is within so many billionths of the exact one.
fn is_power_within(billionths: u64, power: u64, years: u32) -> bool {
    let exact = Whole::one().times(1_000_000_000).times_power(1_015, years);
    is_within(billionths, power, exact, Whole::one().times_power(1_000, years))
}

#[test]
fn powers_are_near_the_exact_powers() {
    for years in 0..=45 {
        assert!(is_power_within(32, power(years), years), "{years} years");
        // The measure itself is not too wide.
        assert!(!is_power_within(32, power(years) + 35, years) && !is_power_within(32, power(years) - 35, years));
    }
    assert!((0..=3).all(|years| is_power_within(0, power(years), years)));
    assert!((4..=45).all(|years| !is_power_within(0, power(years), years)));
}

#[test]
fn powers_year_by_year() {
    assert_eq!([0, 1, 2, 3].map(power), [1_000_000_000, 1_015_000_000, 1_030_225_000, 1_045_678_375]);
    // 1,061,363,550.625 goes up, and 1,077,284,004.265 down.
    assert_eq!([4, 5].map(power), [1_061_363_551, 1_077_284_004]);
    // The only half: 1,408,377,155.5.
    assert_eq!([22, 23].map(power), [1_387_563_700, 1_408_377_156]);
    assert_eq!((0..45).filter(|&years| power(years) * 1_015 % 1_000 == 500).collect::<Vec<_>>(), [22]);
    assert_eq!(power(45), 1_954_213_015);
}

/// Whether a B is within so many pence of its exact value.
fn is_potential_within(pence: u64, potential: u64, [years, pay, factor]: [u32; 3]) -> bool {
    let exact = [years, pay, 1_000 - factor, 100].iter().fold(Whole::one(), |product, &number| product.times(number.into()));
    let denominator = Whole::one().times(54 * 1_000).times_power(1_000, years);
    is_within(pence, potential, exact.times_power(1_015, years), denominator)
}

/// Years, pay and a factor within their ranges.
fn any_numbers(random: &mut Random) -> [u32; 3] {
    [random.from_to(1, 45), random.from_to(1, 200_000), random.from_to(0, 1_000)]
}

#[test]
fn potentials_are_near_the_exact_values() {
    let mut random = Random::new(SEED);
    let mut all: Vec<[u32; 3]> = (0..20_000).map(|_| any_numbers(&mut random)).collect();
    for (pay, factor) in [1, 162, 30_000, 200_000].iter().flat_map(|&pay| [0, 1, 896, 1_000].map(|factor| (pay, factor))) {
        all.extend((1..=45).map(|years| [years, pay, factor]));
    }
    for numbers in all {
        let [years, pay, factor] = numbers;
        let potential = potential(years, pay, factor);
        assert!(is_potential_within(2, potential, numbers), "{numbers:?}");
        // The measure itself is not too wide.
        assert!(!is_potential_within(2, potential + 4, numbers), "{numbers:?}");
        assert!(potential < 4 || !is_potential_within(2, potential - 4, numbers), "{numbers:?}");
    }
}

/// B before its rounding, in parts of which [`PENNY`] are a penny.
fn parts(years: u32, pay: u32, factor: u32) -> u128 {
    [years, pay, 1_000 - factor].map(u128::from).iter().product::<u128>() * u128::from(power(years))
}

const PENNY: u128 = 54 * 10_000_000_000;

/// B is rounded once from the power, to the nearest penny, and a half goes up.
#[test]
fn potentials_are_rounded_once() {
    let mut random = Random::new(SEED);
    for _ in 0..100_000 {
        let [years, pay, factor] = any_numbers(&mut random);
        let (doubled, parts) = (2 * u128::from(potential(years, pay, factor)), parts(years, pay, factor));
        assert!(doubled * PENNY <= 2 * parts + PENNY && 2 * parts < (doubled + 1) * PENNY, "{years} {pay} {factor}");
    }
    assert_eq!(potential(45, 200_000, 0), 325_702_17);
}

#[test]
fn halves_of_b_go_up() {
    // 304.5, 101.5 and 507.5 pence; then 304.5 by other factors.
    assert_eq!([162, 54, 270].map(|pay| potential(1, pay, 0)), [305, 102, 508]);
    assert_eq!([(324, 500), (1_296, 875), (3_240, 950)].map(|(pay, factor)| potential(1, pay, factor)), [305; 3]);
    // 20,604.5 pence two years away, 949,169.5 six and 14,242,829.5 thirty-six.
    assert_eq!(potential(2, 5_400, 0), 206_05);
    assert_eq!([potential(6, 78_125, 0), potential(36, 125_000, 0)], [9_491_70, 142_428_30]);
    // In an answer: at 64 the first candidate is one year away and the second two.
    let application = Application { npa: 67, age: 64, pay: 5_400, factors: [990, 0, 1_000], existing: 1, limit: 0 };
    assert_eq!(reduction_limit(&application), given(0, [1_02, 206_05, 0]));
}

/// Whether B ends in an exact half penny before its rounding.
fn is_half(years: u32, pay: u32, factor: u32) -> bool {
    parts(years, pay, factor) % PENNY == PENNY / 2
}

/// Where some pay makes B an exact half penny.
#[test]
fn pays_of_half_pennies() {
    let mut counts = [0; 46];
    for (years, factor) in (1..=45).flat_map(|years| (0..=1_000).map(move |factor| (years, factor))) {
        let Some(pay) = half_penny_pay(years, factor) else { continue };
        counts[years as usize] += 1;
        let all: Vec<u32> = (pay..=200_000).step_by(2 * pay as usize).collect();
        assert!(all.iter().all(|&pay| is_half(years, pay, factor)));
        assert!(!is_half(years, pay - 1, factor) && !is_half(years, 2 * pay, factor));
    }
    let met: Vec<_> = (1..=45).filter(|&years| counts[years] > 0).map(|years| (years, counts[years])).collect();
    assert_eq!(met, [(1, 969), (2, 144), (6, 3), (36, 3)]);
    // None is left out: these are all that four factors have.
    for (years, factor) in [(1, 0), (2, 200), (6, 500), (36, 375)] {
        let pay = half_penny_pay(years, factor).unwrap();
        assert!((1..=200_000).all(|other| is_half(years, other, factor) == (other % (2 * pay) == pay)));
    }
}

#[test]
fn refused_applications_are_0_otherwise() {
    let mut random = Random::new(SEED);
    let mut refused = 0;
    for _ in 0..100_000 {
        let answer = reduction_limit(&samples::application(&mut random));
        if answer.refusal != 0 {
            refused += 1;
            assert_eq!(answer, REFUSED);
        }
    }
    assert!(refused > 10_000);
}

/// What each answer says, by sums instead of differences: where there is existing pension, a candidate is taken if B and existing
/// pension together are below the limit.
#[test]
fn the_first_with_room_is_taken() {
    let mut random = Random::new(SEED);
    let mut taken = [0; 3];
    let mut no_scope = [0; 2];
    for _ in 0..100_000 {
        let application = samples::lawful_application(&mut random);
        let Application { npa, age, pay, factors, existing, limit } = application;
        let ages = [0, 1, 2].map(|later| first_candidate(npa) + later);
        let potentials = [0, 1, 2].map(|place| potential(ages[place] - age, pay, factors[place]));
        let below = ages.iter().filter(|candidate| **candidate < npa).count();
        let place = (0..below).find(|&place| existing == 0 || potentials[place] + existing < limit);
        let shown = place.map_or(below, |place| place + 1);
        let mut expected = ReductionLimit { age: place.map_or(0, |place| ages[place]), ..ReductionLimit::default() };
        expected.potentials[..shown].copy_from_slice(&potentials[..shown]);
        assert_eq!(reduction_limit(&application), expected, "{application:?}");
        match place {
            Some(place) => taken[place] += 1,
            None => no_scope[usize::from(below == 3)] += 1,
        }
    }
    println!("100000 applications, taken {taken:?}, no scope at the pension age and after three {no_scope:?}");
    assert!(taken.iter().chain(&no_scope).all(|count| *count > 5_000));
}
