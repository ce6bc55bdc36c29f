//! The worked examples of document 000, those of paying off in document 001, and those of the reduction limit in document 003.

use reference::credit::{month_value, row};
use reference::pay_off::{cost, increased};
use reference::reduction::room;
use reference::rounding::blend;
use reference::*;

const MEMBER: Terms =
    Terms { age: 0, pension_age_years: 67, pension_age_months: 0, option: 2, payer: 1, term: 9, amount: 1_250 };

fn contribution(terms: Terms) -> u64 {
    let quoted = quote(&terms, 0, 0);
    assert_eq!(quoted.refusal, 0);
    quoted.contribution
}

#[test]
fn example_1_lump_sum() {
    let terms = Terms { age: 40, pension_age_years: 68, option: 1, term: 0, amount: 2_000, ..MEMBER };
    assert_eq!(contribution(terms), 16_640_00);
    let settled = settle(&terms, &[]);
    assert_eq!((settled.status, settled.credit, settled.refund), (6, 2_000_00, 0));
}

#[test]
fn examples_2_and_3_monthly() {
    let terms = Terms { age: 31, pension_age_years: 68, term: 10, amount: 1_750, ..MEMBER };
    assert_eq!(contribution(terms), 128_80);
    assert_eq!(contribution(Terms { age: 32, ..terms }), 132_30);
}

/// Document 000 rounds the rate before it multiplies and prints £255.71; the rules round once.
#[test]
fn example_4_odd_months() {
    let terms = Terms { age: 54, pension_age_years: 66, pension_age_months: 5, term: 10, amount: 1_750, ..MEMBER };
    assert_eq!(contribution(terms), 255_73);
    assert_eq!(contribution(Terms { amount: 250, ..terms }), 36_53);
}

/// Document 000 works with the next year's cap, £6,578, and gets £5,457 of room; £6,500 leaves £5,379, the same multiple.
#[test]
fn example_5_room_under_the_cap() {
    assert_eq!(cap_decision(37_00 + 1_084_00), 5_250);
}

#[test]
fn example_a1_stopped_after_whole_years() {
    let terms = Terms { age: 40, ..MEMBER };
    assert_eq!(contribution(terms), 131_50);
    let mut marks = vec![1; 60];
    assert_eq!(settle(&terms, &marks).credit, 766_32);
    marks.push(2);
    assert_eq!(settle(&terms, &marks), Settlement { contribution: 131_50, status: 4, credit: 766_32, ..Settlement::default() });
}

#[test]
fn example_a2_stopped_within_a_year() {
    let terms = Terms { age: 46, ..MEMBER };
    assert_eq!(contribution(terms), 154_00);
    assert_eq!(row(&terms, 67)[5..7], [770_00, 901_64]);
    let mut marks = vec![1; 61];
    marks.push(2);
    let settled = settle(&terms, &marks);
    assert_eq!((settled.status, settled.credit), (4, 780_97));
}

#[test]
fn example_a3_five_months() {
    let terms = Terms { age: 50, ..MEMBER };
    assert_eq!(contribution(terms), 171_50);
    assert_eq!(row(&terms, 67)[1], 171_98);
    assert_eq!(settle(&terms, &[1; 5]).credit, 71_66);
}

/// Document 000 counts the rest of the term as paid as soon as payments resume; the rules credit what has been paid.
#[test]
fn example_a4_gap() {
    let terms = Terms { age: 54, option: 1, term: 4, amount: 1_000, ..MEMBER };
    assert_eq!(contribution(terms), 278_40);
    let credits = row(&terms, 67);
    assert_eq!(credits[..5], [0, 272_30, 529_28, 771_62, 1_000_00]);
    // The first two are halves, 42,220.5 and 58,986.5 pence, that go down to the even penny.
    assert_eq!([19, 27, 28].map(|month| month_value(&credits, month)), [422_20, 589_86, 610_06]);
    let mut marks = vec![1; 48];
    marks[19..27].fill(0);
    assert_eq!(settle(&terms, &marks[..19]).credit, 422_20);
    assert_eq!(settle(&terms, &marks[..28]).credit, 442_40);
    let settled = settle(&terms, &marks);
    assert_eq!((settled.status, settled.credit), (4, 832_34));
}

/// The rest of a pension at a whole pension age: what it is after the increase, and its cost at document 001's own rate.
fn rest(remaining: u64, increase: u32, rate: u32) -> (u64, u64) {
    let increased = increased(remaining, increase);
    (increased, cost(increased, rate, rate, 0))
}

/// Example 4 prints its cost in whole pounds.
#[test]
fn document_001_examples_2_to_4_paid_off() {
    assert_eq!(rest(1_750_00 - 562_16, 1_040, 4_810_00), (1_235_35, 23_768_13));
    assert_eq!(rest(1_000_00 - 846_15, 1_208, 3_290_00), (185_85, 2_445_79));
    assert_eq!(rest(2_250_00 - 487_96, 1_061, 2_190_00), (1_869_52, 16_377_00));
}

/// Document 001 increases the rest by 1.1 per cent to £1,209.56, but then prices £1,208.36, which is the rest increased by 1.0
/// per cent, and prints £18,620.83.
#[test]
fn document_001_example_5_paid_off_at_odd_months() {
    let remaining = 1_500_00 - blend(5, 303_62, 303_58);
    assert_eq!(remaining, 1_196_40);
    let priced = |increase| {
        let increased = increased(remaining, increase);
        (increased, cost(increased, 3_940_00, 3_730_00, 5))
    };
    assert_eq!(priced(1_011), (1_209_56, 18_639_32));
    assert_eq!(priced(1_010), (1_208_36, 18_620_83));
}

/// The same contract at document 000's rates, where a lump sum costs as much at either pension age.
#[test]
fn document_001_example_5_at_the_rates_of_document_000() {
    let terms = Terms { age: 60, pension_age_years: 66, pension_age_months: 5, option: 1, term: 4, amount: 1_500, ..MEMBER };
    let paid_off = pay_off(&terms, &[1; 9], 61, 1_011);
    assert_eq!(paid_off, PayOff { remaining: 1_190_83, increased: 1_203_93, cost: 18_299_74, ..PayOff::default() });
}

/// Examples B and C of document 003 have the limit of 2019-20; A has none.
const APPLICATION: Application =
    Application { npa: 67, age: 50, pay: 30_000, factors: [896, 946, 1_000], existing: 4_000_00, limit: 6_924_00 };

/// The document gives no age, pay or factor here, and no B.
#[test]
fn document_003_example_a_no_existing_pension() {
    for (age, pay) in [(24, 200_000), (50, 30_000), (64, 1)] {
        assert_eq!(reduction_limit(&Application { age, pay, existing: 0, ..APPLICATION }).age, 65);
    }
}

#[test]
fn document_003_example_b_the_first_candidate() {
    let expected = ReductionLimit { refusal: 0, age: 65, potentials: [1_083_53, 0, 0] };
    assert_eq!(reduction_limit(&APPLICATION), expected);
    assert_eq!(room(1_083_53, 4_000_00, 6_924_00), 2_924_00);
}

#[test]
fn document_003_example_c_the_third_candidate() {
    let application =
        Application { npa: 68, age: 35, pay: 70_000, factors: [850, 896, 946], existing: 2_000_00, ..APPLICATION };
    let potentials = [9_117_97, 6_630_51, 3_607_13];
    assert_eq!(reduction_limit(&application), ReductionLimit { refusal: 0, age: 67, potentials });
    assert_eq!(potentials.map(|potential| room(potential, 2_000_00, 6_924_00)), [7_117_97, 4_924_00, 4_924_00]);
}
