//! Time per call of the reduction limit.

use crate::timing::{self, Answer, INPUTS};
use additional_pension::raw::{self, ApplicationNumbers};
use reference::samples::Random;
use reference::{Application, ReductionLimit};

/// What a kind of application has: its refusal, how many candidates are tried, whether one is taken, and what is changed for it.
struct Kind {
    name: &'static str,
    refusal: u32,
    tried: usize,
    taken: bool,
    change: fn(&mut Application),
}

const fn kind(name: &'static str, refusal: u32, tried: usize, taken: bool, change: fn(&mut Application)) -> Kind {
    Kind { name, refusal, tried, taken, change }
}

/// Sets the limit so many pence above B of a candidate and existing pension: with a penny it is taken, without one it is not.
fn limit_above(application: &mut Application, place: usize, pence: u64) {
    let (_, potential) = application.candidates().nth(place).expect("three candidates are below the pension age");
    application.limit = potential + application.existing + pence;
}

const KINDS: [Kind; 5] = [
    kind("reduction, nothing existing", 0, 1, true, |application| application.existing = 0),
    kind("reduction, first taken", 0, 1, true, |application| limit_above(application, 0, 1)),
    kind("reduction, third taken", 0, 3, true, |application| limit_above(application, 2, 1)),
    kind("reduction, no scope after three", 0, 3, false, |application| limit_above(application, 2, 0)),
    kind("reduction, refused 18", 18, 0, false, |application| application.limit = 1_000_000_01),
];

/// Applications with three candidates below the pension age, each with a smaller B than the one before.
fn applications(kind: &Kind) -> Vec<Application> {
    let mut random = Random::new(1);
    let make = |_| {
        let mut application = Application {
            npa: random.from_to(68, 70),
            age: random.from_to(24, 54),
            pay: random.from_to(15_000, 120_000),
            factors: [random.from_to(830, 860), random.from_to(890, 920), random.from_to(940, 970)],
            existing: u64::from(random.from_to(1, 3_000_00)),
            limit: 6_924_00,
        };
        (kind.change)(&mut application);
        application
    };
    (0..INPUTS).map(make).collect()
}

fn part_call(application: &Application, out: &mut Answer) {
    let Application { npa, age, pay, factors, existing, limit } = *application;
    let numbers = ApplicationNumbers { npa, age, pay, factors, existing_pence: existing, limit_pence: limit };
    raw::reduction_limit(&numbers, &mut out[..raw::REDUCTION_LIMIT_BYTES]);
}

/// The same work: an answer as bytes in a buffer.
fn reference_call(application: &Application, out: &mut Answer) {
    let answer = reference::reduction_limit(application);
    out[..raw::REDUCTION_LIMIT_BYTES].copy_from_slice(&answer.bytes());
}

/// Both give the same answer, and it is what the kind says.
fn check(kind: &Kind, applications: &[Application]) {
    for application in applications {
        let (mut part, mut reference) = ([0; raw::SETTLE_BYTES], [0; raw::SETTLE_BYTES]);
        part_call(application, &mut part);
        reference_call(application, &mut reference);
        assert_eq!(part, reference, "{}: {application:?}", kind.name);
        let ReductionLimit { refusal, age, potentials } = reference::reduction_limit(application);
        let tried = potentials.iter().filter(|potential| **potential > 0).count();
        assert_eq!((refusal, tried, age > 0), (kind.refusal, kind.tried, kind.taken), "{}: {application:?}", kind.name);
    }
}

/// Measures every kind. The value is the lowest ratio.
pub fn measure() -> f64 {
    let ratios = KINDS.iter().map(|kind| {
        let applications = applications(kind);
        check(kind, &applications);
        timing::measure(kind.name, &applications, part_call, reference_call)
    });
    ratios.fold(f64::INFINITY, f64::min)
}
