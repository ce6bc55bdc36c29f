//! The numbers of the C header are the wrapper's.

mod contract;

use additional_pension::*;
use contract::TERMS;
use std::collections::BTreeMap;

#[test]
fn numbers_of_the_header() {
    let mark = |mark| u32::from(mark);
    let offset = |offset| u32::try_from(offset).unwrap();
    let option = |option| Terms { option, ..TERMS }.numbers().option;
    let payer = |payer| Terms { payer, ..TERMS }.numbers().payer;
    let mut wrapped = BTreeMap::from([
        ("INTERFACE", raw::INTERFACE),
        ("RULES", raw::RULES),
        ("OPTION_PERSONAL", option(PensionOption::Personal)),
        ("OPTION_WITH_DEPENDANT", option(PensionOption::WithDependant)),
        ("PAYER_MEMBER", payer(Payer::Member)),
        ("PAYER_EMPLOYER", payer(Payer::Employer)),
        ("TERM_LUMP_SUM", 0),
        ("MARK_MISSED", mark(MISSED)),
        ("MARK_PAID", mark(PAID)),
        ("MARK_ENDED", mark(ENDED)),
        ("REFUSED_NOTHING", 0),
    ]);
    wrapped.extend(
        [
            ("REFUSED_OPTION", Refusal::Option),
            ("REFUSED_PENSION_AGE", Refusal::PensionAge),
            ("REFUSED_TERM", Refusal::Term),
            ("REFUSED_PAYER", Refusal::Payer),
            ("REFUSED_NO_RATE", Refusal::NoRate),
            ("REFUSED_NO_UPPER_RATE", Refusal::NoUpperRate),
            ("REFUSED_AMOUNT", Refusal::Amount),
            ("REFUSED_CAP", Refusal::AboveCap),
            ("REFUSED_LAST_NUMBER", Refusal::NumbersUsedUp),
            ("REFUSED_MARK_COUNT", Refusal::TooManyMarks),
            ("REFUSED_MARK_VALUE", Refusal::UnknownMark { place: 0 }),
            ("REFUSED_MARK_ORDER", Refusal::UnlawfulMark { place: 0 }),
            ("REFUSED_SHORT_BUFFER", Refusal::ShortBuffer),
            ("REFUSED_NOTHING_TO_PAY_OFF", Refusal::NothingToPayOff),
            ("REFUSED_INCREASE", Refusal::Increase),
            ("REFUSED_APPLICATION", Refusal::Application),
        ]
        .map(|(name, refusal)| (name, refusal.number())),
    );
    wrapped.extend(
        [
            ("STATUS_NOT_STARTED", Status::NotStarted),
            ("STATUS_PAYING", Status::Paying),
            ("STATUS_IN_GAP", Status::InGap),
            ("STATUS_COMPLETE", Status::Complete),
            ("STATUS_CEASED", Status::Ceased),
            ("STATUS_REFUNDED", Status::Refunded),
            ("STATUS_LUMP_SUM", Status::LumpSum),
        ]
        .map(|(name, status)| (name, status.number())),
    );
    wrapped.extend(
        [
            ("QUOTE_REFUSAL", raw::QUOTE_REFUSAL),
            ("QUOTE_CONTRIBUTION", raw::QUOTE_CONTRIBUTION),
            ("QUOTE_NEXT_NUMBER", raw::QUOTE_NEXT_NUMBER),
            ("QUOTE_BYTES", raw::QUOTE_BYTES),
            ("SETTLE_REFUSAL", raw::SETTLE_REFUSAL),
            ("SETTLE_PLACE", raw::SETTLE_PLACE),
            ("SETTLE_CONTRIBUTION", raw::SETTLE_CONTRIBUTION),
            ("SETTLE_STATUS", raw::SETTLE_STATUS),
            ("SETTLE_CREDIT", raw::SETTLE_CREDIT),
            ("SETTLE_REFUND", raw::SETTLE_REFUND),
            ("SETTLE_BYTES", raw::SETTLE_BYTES),
            ("PAY_OFF_REFUSAL", raw::PAY_OFF_REFUSAL),
            ("PAY_OFF_PLACE", raw::PAY_OFF_PLACE),
            ("PAY_OFF_REMAINING", raw::PAY_OFF_REMAINING),
            ("PAY_OFF_INCREASED", raw::PAY_OFF_INCREASED),
            ("PAY_OFF_COST", raw::PAY_OFF_COST),
            ("PAY_OFF_BYTES", raw::PAY_OFF_BYTES),
            ("REDUCTION_LIMIT_REFUSAL", raw::REDUCTION_LIMIT_REFUSAL),
            ("REDUCTION_LIMIT_AGE", raw::REDUCTION_LIMIT_AGE),
            ("REDUCTION_LIMIT_B_FIRST", raw::REDUCTION_LIMIT_B_FIRST),
            ("REDUCTION_LIMIT_B_SECOND", raw::REDUCTION_LIMIT_B_SECOND),
            ("REDUCTION_LIMIT_B_THIRD", raw::REDUCTION_LIMIT_B_THIRD),
            ("REDUCTION_LIMIT_BYTES", raw::REDUCTION_LIMIT_BYTES),
        ]
        .map(|(name, place)| (name, offset(place))),
    );
    let header = include_str!("../../c/additional_pension.h");
    let defined = header.lines().filter_map(|line| {
        let mut words = line.strip_prefix("#define AP_")?.split_whitespace();
        let (name, number) = (words.next()?, words.next()?);
        Some((name, number.strip_suffix('u').unwrap().parse().unwrap()))
    });
    assert_eq!(defined.collect::<BTreeMap<_, u32>>(), wrapped);
}
