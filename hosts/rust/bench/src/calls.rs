//! Time per call of Settle, Quote and the pay-off.

use crate::timing::{self, Answer, INPUTS};
use additional_pension::raw::{self, Numbers};
use reference::samples::Random;
use reference::Terms;

struct Contract {
    terms: Terms,
    marks: Vec<u8>,
    existing: u64,
    last_number: u32,
    age_now: u32,
}

/// The increase of every pay-off, in thousandths.
const INCREASE: u32 = 1_011;

#[derive(Clone, Copy)]
enum Call {
    Quote,
    Settle,
    PayOff,
}

/// What a kind of contract has: its marks, whether the pension age has odd months, its refusal, and what is changed for it.
struct Kind {
    name: &'static str,
    call: Call,
    marks: usize,
    odd: bool,
    refusal: u64,
    change: fn(&mut Contract),
}

fn as_it_is(_: &mut Contract) {}

fn lump_sum(contract: &mut Contract) {
    contract.terms.term = 0;
}

fn five_years(contract: &mut Contract) {
    contract.terms.term = 5;
    contract.terms.age = contract.terms.age.min(59);
}

const fn kind(name: &'static str, call: Call, marks: usize, odd: bool, refusal: u64, change: fn(&mut Contract)) -> Kind {
    Kind { name, call, marks, odd, refusal, change }
}

const KINDS: [Kind; 25] = [
    kind("settle, 5 marks, whole", Call::Settle, 5, false, 0, as_it_is),
    kind("settle, 5 marks, odd", Call::Settle, 5, true, 0, as_it_is),
    kind("settle, 28 marks, whole", Call::Settle, 28, false, 0, as_it_is),
    kind("settle, 28 marks, odd", Call::Settle, 28, true, 0, as_it_is),
    kind("settle, 60 marks, whole", Call::Settle, 60, false, 0, as_it_is),
    kind("settle, 60 marks, odd", Call::Settle, 60, true, 0, as_it_is),
    kind("settle, 240 marks, whole", Call::Settle, 240, false, 0, as_it_is),
    kind("settle, 240 marks, odd", Call::Settle, 240, true, 0, as_it_is),
    kind("settle, 240 in many runs, odd", Call::Settle, 240, true, 0, |contract| {
        contract.marks.iter_mut().skip(2).step_by(4).for_each(|mark| *mark = 0);
    }),
    kind("settle, lump sum", Call::Settle, 0, false, 0, lump_sum),
    kind("settle, lump sum, 12 marks", Call::Settle, 12, false, 0, lump_sum),
    kind("settle, refused 1", Call::Settle, 60, false, 1, |contract| contract.terms.option = 3),
    kind("settle, refused 7", Call::Settle, 60, false, 7, |contract| contract.terms.amount += 1),
    kind("settle, refused 10", Call::Settle, 241, false, 10, as_it_is),
    kind("settle, refused 12 at 239", Call::Settle, 240, true, 12, |contract| contract.marks[226..239].fill(0)),
    kind("quote, whole", Call::Quote, 0, false, 0, as_it_is),
    kind("quote, odd", Call::Quote, 0, true, 0, as_it_is),
    kind("quote, lump sum, odd", Call::Quote, 0, true, 0, lump_sum),
    kind("quote, refused 1", Call::Quote, 0, false, 1, |contract| contract.terms.option = 3),
    kind("quote, refused 5", Call::Quote, 0, false, 5, |contract| contract.terms.age = 67),
    kind("quote, refused 8", Call::Quote, 0, true, 8, |contract| contract.existing = 6_400_01),
    kind("quote, refused 9", Call::Quote, 0, true, 9, |contract| contract.last_number = 999_999),
    kind("pay-off, 18 of 60 marks, whole", Call::PayOff, 18, false, 0, five_years),
    kind("pay-off, 18 of 60 marks, odd", Call::PayOff, 18, true, 0, five_years),
    kind("pay-off, 240 marks, odd", Call::PayOff, 240, true, 0, as_it_is),
];

/// Contracts that run on after their marks, where a term can: 240 marks are a whole one of 20 years.
fn contracts(kind: &Kind) -> Vec<Contract> {
    let mut random = Random::new(kind.marks as u64 + 1);
    let least = (kind.marks as u32 / 12 + 1).min(20);
    let make = |_| {
        let term = random.from_to(least, 20);
        let pension_age_years = random.from_to(65, 67);
        let terms = Terms {
            age: random.from_to(16, 64 - term),
            pension_age_years,
            pension_age_months: if kind.odd { random.from_to(1, 11) } else { 0 },
            option: random.from_to(1, 2),
            payer: 1,
            term,
            amount: 250 * random.from_to(1, 26),
        };
        let mut marks = vec![1; kind.marks];
        if kind.marks >= 28 {
            marks[18..22].fill(0);
        }
        let age_now = terms.age + kind.marks as u32 / 12;
        let mut contract = Contract { terms, marks, existing: 0, last_number: random.from_to(0, 999_998), age_now };
        (kind.change)(&mut contract);
        contract
    };
    (0..INPUTS).map(make).collect()
}

fn part_call(call: Call, contract: &Contract, out: &mut Answer) {
    let terms = Numbers::from(contract.terms.numbers());
    match call {
        Call::Quote => raw::quote(&terms, contract.existing, contract.last_number, &mut out[..raw::QUOTE_BYTES]),
        Call::Settle => raw::settle(&terms, &contract.marks, out),
        Call::PayOff => raw::pay_off(&terms, &contract.marks, contract.age_now, INCREASE, &mut out[..raw::PAY_OFF_BYTES]),
    };
}

/// The same work: an answer as bytes in a buffer.
fn reference_call(call: Call, contract: &Contract, out: &mut Answer) {
    match call {
        Call::Quote => {
            let answer = reference::quote(&contract.terms, contract.existing, contract.last_number);
            out[..raw::QUOTE_BYTES].copy_from_slice(&answer.bytes());
        }
        Call::Settle => *out = reference::settle(&contract.terms, &contract.marks).bytes(),
        Call::PayOff => {
            let answer = reference::pay_off(&contract.terms, &contract.marks, contract.age_now, INCREASE);
            out[..raw::PAY_OFF_BYTES].copy_from_slice(&answer.bytes());
        }
    }
}

/// Both give the same answer, and it is what the kind says.
fn check(kind: &Kind, contracts: &[Contract]) {
    for contract in contracts {
        let (mut part, mut reference) = ([0; raw::SETTLE_BYTES], [0; raw::SETTLE_BYTES]);
        part_call(kind.call, contract, &mut part);
        reference_call(kind.call, contract, &mut reference);
        assert_eq!(part, reference, "{}: {:?}", kind.name, contract.terms);
        assert_eq!(raw::number(&part, raw::SETTLE_REFUSAL), kind.refusal, "{}: {:?}", kind.name, contract.terms);
    }
}

/// Measures every kind. The value is the lowest ratio.
pub fn measure() -> f64 {
    let ratios = KINDS.iter().map(|kind| {
        let contracts = contracts(kind);
        check(kind, &contracts);
        let part_call = |contract: &Contract, out: &mut Answer| part_call(kind.call, contract, out);
        let reference_call = |contract: &Contract, out: &mut Answer| reference_call(kind.call, contract, out);
        timing::measure(kind.name, &contracts, part_call, reference_call)
    });
    ratios.fold(f64::INFINITY, f64::min)
}
