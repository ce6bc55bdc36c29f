//! Made-up applications for the reduction limit, lawful and damaged.

use super::{wild, with_high_bits, Random};
use crate::reduction::{first_candidate, power, Application, AGES, MOST_FACTOR, MOST_PENCE, PAYS};

/// A number from `least` to `most`, once in four times at an end or next to it.
fn in_or_at_ends(random: &mut Random, least: u32, most: u32) -> u32 {
    let anywhere = random.from_to(least, most);
    let at_ends = random.pick(&[least, least + 1, most - 1, most]);
    random.pick(&[anywhere, anywhere, anywhere, at_ends])
}

/// So many pence up to `most`, which is no more than a limit or existing pension can be.
fn pence(random: &mut Random, most: u64) -> u64 {
    u64::from(random.from_to(0, most as u32))
}

/// Three factors, mostly rising, so that each candidate has a smaller B than the one before.
fn factors(random: &mut Random) -> [u32; 3] {
    match random.from_to(0, 7) {
        0 => [(); 3].map(|()| in_or_at_ends(random, 0, MOST_FACTOR)),
        1 => random.pick(&[[0; 3], [MOST_FACTOR; 3], [MOST_FACTOR, 0, 0], [0, MOST_FACTOR, 0]]),
        _ => {
            let mut factors = [(); 3].map(|()| random.from_to(700, MOST_FACTOR));
            factors.sort_unstable();
            factors
        }
    }
}

fn common_divisor(one: u64, other: u64) -> u64 {
    match other {
        0 => one,
        _ => common_divisor(other, one % other),
    }
}

/// The least pay at which B ends in exactly half a penny before its rounding, if there is one. The others are its odd multiples.
pub fn half_penny_pay(years: u32, factor: u32) -> Option<u32> {
    // What a pound of pay gives, and half a penny, in the same parts.
    let parts = u64::from(years) * power(years) * u64::from(MOST_FACTOR - factor);
    let half = 27 * 10_000_000_000;
    let common = common_divisor(2 * half, parts);
    let pay = (half / common).try_into().ok()?;
    (half.is_multiple_of(common) && PAYS.contains(&pay)).then_some(pay)
}

/// Makes the B of a candidate end in exactly half a penny before its rounding, where the pension age allows it. There are pays for
/// it with 1, 2, 6 and 36 years to the candidate alone.
fn to_half_penny(random: &mut Random, application: &mut Application) {
    let place = random.from_to(0, 2);
    let years = random.pick(&[1, 1, 2, 2, 6, 36]);
    let any = random.from_to(0, MOST_FACTOR);
    let factor = random.pick(&[0, 200, 375, 500, any]);
    let age = first_candidate(application.npa) + place - years;
    let Some(least) = half_penny_pay(years, factor).filter(|_| AGES.contains(&age)) else {
        return;
    };
    let odd = 2 * random.from_to(0, (PAYS.end() / least - 1) / 2) + 1;
    application.age = age;
    application.pay = least * odd;
    application.factors[place as usize] = factor;
}

/// An application that nothing refuses. More than half of them have a limit that decides at one of the candidates by a penny.
pub fn lawful_application(random: &mut Random) -> Application {
    let usual_pay = random.from_to(15_000, 120_000);
    let any_pay = in_or_at_ends(random, *PAYS.start(), *PAYS.end());
    let mut application = Application {
        npa: random.from_to(66, 70),
        age: in_or_at_ends(random, *AGES.start(), *AGES.end()),
        pay: random.pick(&[usual_pay, any_pay]),
        factors: factors(random),
        existing: 0,
        limit: 0,
    };
    if random.one_in(8) {
        to_half_penny(random, &mut application);
    }
    let potentials: Vec<u64> = application.candidates().map(|(_, potential)| potential).collect();
    let potential = random.pick(&potentials);
    application.existing = match random.from_to(0, 9) {
        0 => 0,
        1 => random.pick(&[1, 2, MOST_PENCE - 1, MOST_PENCE]),
        2 => pence(random, MOST_PENCE),
        3 => potential,
        _ => pence(random, 6_924_00),
    };
    application.limit = match random.from_to(0, 9) {
        0 => 6_924_00,
        1 => random.pick(&[0, 1, MOST_PENCE - 1, MOST_PENCE]),
        2 => pence(random, MOST_PENCE),
        3 => pence(random, application.existing),
        _ => (potential + application.existing + u64::from(random.from_to(0, 2))).saturating_sub(1).min(MOST_PENCE),
    };
    application
}

/// A number in the place of a lawful one: just outside its bounds, with the same low bits, or anything.
fn stray(random: &mut Random, lawful: u32, outside: &[u32]) -> u32 {
    match random.from_to(0, 3) {
        0 => wild(random),
        1 => with_high_bits(random, lawful),
        _ => random.pick(outside),
    }
}

/// The same for pence.
fn stray_pence(random: &mut Random, lawful: u64) -> u64 {
    match random.from_to(0, 3) {
        0 => random.number(),
        1 => lawful.wrapping_add(random.pick(&[1 << 32, 1 << 33, 1 << 40, 1 << 63])),
        2 => random.pick(&[u64::MAX, u64::MAX - 1, 1 << 63, 1 << 32, u64::from(u32::MAX)]),
        _ => MOST_PENCE + 1 + pence(random, 2),
    }
}

fn damage(random: &mut Random, application: &mut Application) {
    let Application { npa, age, pay, factors: [first, second, third], existing, limit } = application;
    match random.from_to(0, 7) {
        0 => *npa = stray(random, *npa, &[0, 65, 71, 72]),
        1 => *age = stray(random, *age, &[0, 23, 65, 66]),
        2 => *pay = stray(random, *pay, &[0, 200_001, 200_002]),
        3 => *first = stray(random, *first, &[1_001, 1_002]),
        4 => *second = stray(random, *second, &[1_001, 1_002]),
        5 => *third = stray(random, *third, &[1_001, 1_002]),
        6 => *existing = stray_pence(random, *existing),
        _ => *limit = stray_pence(random, *limit),
    }
}

/// An application, one in four of them damaged in up to three fields.
pub fn application(random: &mut Random) -> Application {
    let mut application = lawful_application(random);
    if random.one_in(4) {
        for _ in 0..random.pick(&[1, 1, 1, 2, 3]) {
            damage(random, &mut application);
        }
    }
    application
}
