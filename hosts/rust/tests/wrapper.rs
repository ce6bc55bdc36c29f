//! The wrapper's types over the library: figures, refusals and words.

mod contract;

use additional_pension::*;
use contract::TERMS;

#[test]
fn a_quote() {
    let quoted = quote(&TERMS, Pension(0), 41).unwrap();
    assert_eq!(quoted, Quote { contribution: Contribution(242_00), next_number: 42 });
    assert_eq!(quote(&TERMS, Pension(5_500_00), 0).unwrap().next_number, 1);
}

#[test]
fn a_settlement() {
    let mut marks = vec![PAID; 18];
    marks.extend([MISSED; 4]);
    marks.extend([PAID; 6]);
    let settled = settle(&TERMS, &marks).unwrap();
    assert_eq!((settled.status, settled.credit, settled.refund), (Status::Paying, Pension(429_60), Contribution(0)));
    let refunded = settle(&TERMS, &[PAID, PAID, ENDED]).unwrap();
    assert_eq!((refunded.status, refunded.credit, refunded.refund), (Status::Refunded, Pension(0), Contribution(484_00)));
}

/// £1,000 by lump sum from 50, with dependant's pension.
const LUMP_SUM: Terms = Terms { term: 0, ..TERMS };

#[test]
fn a_lump_sum() {
    let contribution = Contribution(11_640_00);
    let credited = Settlement { contribution, status: Status::LumpSum, credit: Pension(1_000_00), refund: Contribution(0) };
    let refunded = Settlement { contribution, status: Status::Refunded, credit: Pension(0), refund: contribution };
    for payer in [Payer::Member, Payer::Employer] {
        let terms = Terms { payer, ..LUMP_SUM };
        assert_eq!([&[][..], &[PAID], &[PAID; 12]].map(|marks| settle(&terms, marks)), [Ok(credited); 3]);
        assert_eq!([&[ENDED][..], &[PAID, ENDED], &[ENDED; 12]].map(|marks| settle(&terms, marks)), [Ok(refunded); 3]);
        assert_eq!(settle(&terms, &[[PAID; 6], [ENDED; 6]].concat()), Ok(refunded));
    }
    let refused = |marks: &[u8]| settle(&LUMP_SUM, marks).unwrap_err();
    assert_eq!(refused(&[PAID; 13]), Refusal::TooManyMarks);
    assert_eq!(refused(&[MISSED; 13]), Refusal::TooManyMarks);
    assert_eq!(refused(&[PAID, 3]), Refusal::UnknownMark { place: 1 });
    assert_eq!(refused(&[MISSED]), Refusal::UnlawfulMark { place: 0 });
    assert_eq!(refused(&[PAID, PAID, MISSED]), Refusal::UnlawfulMark { place: 2 });
    assert_eq!(refused(&[PAID, ENDED, PAID]), Refusal::UnlawfulMark { place: 2 });
}

#[test]
fn a_pay_off() {
    let paid_off = pay_off(&TERMS, &[PAID; 18], 51, 1_011).unwrap();
    let expected = PayOff { remaining: Pension(672_02), increased: Pension(679_41), cost: Contribution(8_125_74) };
    assert_eq!(paid_off, expected);
    let nothing = PayOff { remaining: Pension(0), increased: Pension(0), cost: Contribution(0) };
    assert_eq!(pay_off(&TERMS, &[PAID; 60], 55, 1_011).unwrap(), nothing);
}

/// Three candidates with falling B, of which the last has room.
const APPLICATION: Application = Application {
    npa: 68,
    age: 35,
    pay: 70_000,
    factors: [850, 896, 946],
    existing: Pension(2_000_00),
    limit: Pension(6_924_00),
};

#[test]
fn a_reduction_limit() {
    let [first, second, third] = [9_117_97, 6_630_51, 3_607_13].map(Pension);
    let limit = |existing, limit| reduction_limit(&Application { existing, limit, ..APPLICATION }).unwrap();
    let given = |age, potentials| ReductionLimit { age, potentials };
    assert_eq!(reduction_limit(&APPLICATION), Ok(given(Some(67), [first, second, third])));
    assert_eq!(limit(Pension(1), Pension(first.0 + 2)), given(Some(65), [first, Pension(0), Pension(0)]));
    assert_eq!(limit(Pension(1), Pension(first.0 + 1)), given(Some(66), [first, second, Pension(0)]));
    assert_eq!(limit(Pension(0), Pension(0)), given(Some(65), [first, Pension(0), Pension(0)]));
    // No scope: after three, and after one at pension age 66.
    assert_eq!(limit(Pension(1), Pension(0)), given(None, [first, second, third]));
    let at_66 = reduction_limit(&Application { npa: 66, ..APPLICATION });
    assert_eq!(at_66, Ok(given(None, [first, Pension(0), Pension(0)])));
}

#[test]
fn every_status() {
    let lump_sum = Terms { term: 0, payer: Payer::Employer, ..TERMS };
    let statuses = [
        settle(&TERMS, &[]),
        settle(&TERMS, &[PAID]),
        settle(&TERMS, &[PAID, MISSED]),
        settle(&TERMS, &[PAID; 60]),
        settle(&TERMS, &[[PAID; 12], [MISSED; 12]].concat()),
        settle(&TERMS, &[ENDED]),
        settle(&lump_sum, &[]),
    ]
    .map(|settled| settled.unwrap().status);
    assert_eq!(statuses.map(Status::number), [0, 1, 2, 3, 4, 5, 6]);
    assert_eq!(
        statuses.map(|status| status.to_string()),
        ["not started", "paying", "in a gap", "complete", "ceased", "refunded", "lump sum"]
    );
}

#[test]
fn refusals() {
    let refused = [
        quote(&Terms { pension_age: PensionAge { years: 68, months: 1 }, ..TERMS }, Pension(0), 0).unwrap_err(),
        quote(&Terms { term: 21, ..TERMS }, Pension(0), 0).unwrap_err(),
        quote(&Terms { payer: Payer::Employer, ..TERMS }, Pension(0), 0).unwrap_err(),
        quote(&Terms { age: 60, ..TERMS }, Pension(0), 0).unwrap_err(),
        quote(&Terms { amount: 1_100, ..TERMS }, Pension(0), 0).unwrap_err(),
        quote(&TERMS, Pension(u64::MAX), 0).unwrap_err(),
        quote(&TERMS, Pension(0), 999_999).unwrap_err(),
        settle(&TERMS, &[PAID; 61]).unwrap_err(),
        settle(&TERMS, &[PAID, 3]).unwrap_err(),
        settle(&TERMS, &[MISSED]).unwrap_err(),
    ];
    assert_eq!(refused.map(|refusal| refusal.number()), [2, 3, 4, 5, 7, 8, 9, 10, 11, 12]);
    assert_eq!(refused[8], Refusal::UnknownMark { place: 1 });
    assert_eq!(refused[9], Refusal::UnlawfulMark { place: 0 });
    let error: Box<dyn std::error::Error> = Box::new(refused[8]);
    assert_eq!(error.to_string(), "the mark at 1 is unknown");
}

/// Each of them is wrong in everything that comes after its refusal too.
#[test]
fn refused_pay_offs() {
    let refused = [
        pay_off(&Terms { age: 60, ..TERMS }, &[], 65, 999).unwrap_err(),
        pay_off(&TERMS, &[PAID, 3], 65, 999).unwrap_err(),
        pay_off(&TERMS, &[], 65, 999).unwrap_err(),
        pay_off(&TERMS, &[PAID, ENDED], 65, 10_000).unwrap_err(),
        pay_off(&LUMP_SUM, &[], u32::MAX, u32::MAX).unwrap_err(),
        pay_off(&LUMP_SUM, &[PAID, ENDED], u32::MAX, u32::MAX).unwrap_err(),
        pay_off(&LUMP_SUM, &[PAID, MISSED], u32::MAX, u32::MAX).unwrap_err(),
        pay_off(&TERMS, &[PAID; 18], 65, 999).unwrap_err(),
        pay_off(&TERMS, &[PAID; 60], 15, 10_000).unwrap_err(),
        pay_off(&TERMS, &[PAID; 18], 15, 1_000).unwrap_err(),
        pay_off(&TERMS, &[PAID; 60], 65, 9_999).unwrap_err(),
    ];
    assert_eq!(refused.map(|refusal| refusal.number()), [5, 11, 16, 16, 16, 16, 12, 17, 17, 5, 5]);
    assert_eq!(refused[1], Refusal::UnknownMark { place: 1 });
    assert_eq!(refused[6], Refusal::UnlawfulMark { place: 1 });
    assert_eq!(refused[2].to_string(), "the contract has nothing to pay off");
    assert_eq!(refused[7].to_string(), "the increase is outside its range");
}

#[test]
fn refused_applications() {
    let sound = APPLICATION;
    let above = Pension(1_000_000_01);
    let refused = [
        Application { npa: 65, ..sound },
        Application { npa: 71, ..sound },
        Application { age: 23, ..sound },
        Application { age: 65, ..sound },
        Application { pay: 0, ..sound },
        Application { pay: 200_001, ..sound },
        Application { factors: [1_001, 896, 946], ..sound },
        Application { factors: [850, 1_001, 946], ..sound },
        // Neither of the last two candidates is reached.
        Application { npa: 66, factors: [850, 896, 1_001], existing: Pension(0), ..sound },
        Application { existing: above, ..sound },
        Application { limit: above, ..sound },
        Application { npa: u32::MAX, age: u32::MAX, pay: u32::MAX, factors: [u32::MAX; 3], existing: above, limit: above },
    ];
    for application in refused {
        assert_eq!(reduction_limit(&application), Err(Refusal::Application), "{application:?}");
    }
    assert_eq!(Refusal::Application.number(), 18);
    assert_eq!(Refusal::Application.to_string(), "a number of the application is outside its range");
}

#[test]
fn money_in_words() {
    assert_eq!(Pension(71_05).to_string(), "£71.05 a year");
    assert_eq!(Contribution(9).to_string(), "£0.09");
}

#[test]
fn the_archive() {
    assert_eq!((raw::interface(), raw::rules()), (raw::INTERFACE, raw::RULES));
    assert_eq!((raw::INTERFACE, raw::RULES), (1, 5));
    assert!(archive_fits());
}
