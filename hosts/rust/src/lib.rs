//! Additional Pension of the HSC Pension Scheme 2015: quoting an election, settling a contract and paying off its rest; and, by the
//! guidance of the NHS Pension Scheme 2015, the limit on buying out the reduction of an early pension.
//!
//! The figures come from a static library whose functions are proved to keep their rules for every input. This crate only
//! puts Rust's types around them: it checks nothing, rounds nothing and refuses nothing of its own.
//!
//! The library rounds to the nearest penny. An exact half goes to the even penny in a contribution, a whole-year credit, the value
//! at a month and the combined credits of two tables; it goes up in the increased pension and the cost of a pay-off, and in the
//! potential value (B) of a reduction buy-out.
//!
//! ```
//! use additional_pension::{pay_off, settle, Payer, PensionAge, PensionOption, Status, Terms, PAID};
//!
//! let terms = Terms {
//!     age: 50,
//!     pension_age: PensionAge { years: 67, months: 0 },
//!     option: PensionOption::WithDependant,
//!     payer: Payer::Member,
//!     term: 9,
//!     amount: 1_250,
//! };
//! let settled = settle(&terms, &[PAID; 5])?;
//! assert_eq!(settled.status, Status::Paying);
//! assert_eq!(settled.contribution.to_string(), "£171.50");
//! assert_eq!(settled.credit.to_string(), "£71.66 a year");
//!
//! let paid_off = pay_off(&terms, &[PAID; 5], 50, 1_011)?;
//! assert_eq!(paid_off.remaining.to_string(), "£1178.34 a year");
//! assert_eq!(paid_off.cost.to_string(), "£13866.73");
//! # Ok::<(), additional_pension::Refusal>(())
//! ```
//!
//! ```
//! use additional_pension::{reduction_limit, Application, Pension};
//!
//! let application = Application {
//!     npa: 67,
//!     age: 50,
//!     pay: 30_000,
//!     factors: [896, 946, 1_000],
//!     existing: Pension(4_000_00),
//!     limit: Pension(6_924_00),
//! };
//! let limited = reduction_limit(&application)?;
//! assert_eq!(limited.age, Some(65));
//! assert_eq!(limited.potentials[0].to_string(), "£1083.53 a year");
//! # Ok::<(), additional_pension::Refusal>(())
//! ```
//!
//! # Numbers that do not fit
//!
//! A number has to fit its type before the call. `u32::try_from` says where one does not; `as` drops what does not fit without a
//! word, and the call prices what is left.
//!
//! ```
//! let typed: u64 = 4_294_967_346;
//! assert_eq!(typed as u32, 50);
//! assert!(u32::try_from(typed).is_err());
//! ```
//!
//! # The archive that is linked
//!
//! A host asks [`archive_fits`] once, at its start, and does not go on where it is false. By another interface the parameters may
//! be others, so no further function may be called. By other rules the calls are safe, but results may differ. With an archive
//! from before these two numbers, a host that asks does not link.
//!
//! # What panics
//!
//! With an archive that fits, no function of this crate panics, whatever it is given, but for [`raw::number`]: that does where a
//! result ends less than eight bytes past the offset. The library itself never panics. With an archive of other rules [`quote`],
//! [`settle`], [`pay_off`] and [`reduction_limit`] panic at a refusal or a status that this crate has no name for.
//!
//! # The stack
//!
//! The library takes at most 2,048 bytes of the stack in a call. That is measured and not proved; what this crate takes besides is
//! the compiler's affair.

mod application;
mod money;
pub mod raw;
mod refusal;
mod terms;

pub use application::Application;
pub use money::{Contribution, Pension};
pub use refusal::Refusal;
pub use terms::{Payer, PensionAge, PensionOption, Status, Terms, ENDED, MISSED, PAID};

/// Whether the archive that is linked is the one that this crate is written for, by the numbers of its interface and its rules.
pub fn archive_fits() -> bool {
    raw::interface() == raw::INTERFACE && raw::rules() == raw::RULES
}

/// An election that can be made.
#[derive(Clone, Copy, Debug, PartialEq, Eq)]
pub struct Quote {
    /// The lump sum, or what is paid each month.
    pub contribution: Contribution,
    /// The quote's number; the host stores it in its register.
    pub next_number: u32,
}

/// A contract as its marks stand.
#[derive(Clone, Copy, Debug, PartialEq, Eq)]
pub struct Settlement {
    /// The lump sum, or what is paid each month.
    pub contribution: Contribution,
    pub status: Status,
    /// The pension that has been earned, or that a lump sum bought.
    pub credit: Pension,
    /// What goes back: at status 5 the contribution for each paid month, or a lump sum once, whoever paid it; otherwise nothing.
    pub refund: Contribution,
}

/// What is missing from a contract, and what it costs to have it.
#[derive(Clone, Copy, Debug, PartialEq, Eq)]
pub struct PayOff {
    /// The amount of the election less what has been earned.
    pub remaining: Pension,
    /// The same after the increase since the election.
    pub increased: Pension,
    /// The lump sum that pays it off.
    pub cost: Contribution,
}

/// How early a reduction may be bought out to. The first candidate is the pension age less 3 years, but at least 65; the other two
/// follow a year apart.
#[derive(Clone, Copy, Debug, PartialEq, Eq)]
pub struct ReductionLimit {
    /// The earliest reduced retirement age that the member may choose; nothing where there is no scope.
    pub age: Option<u32>,
    /// B of each candidate: the greatest value, in pension a year, that a buy-out up to it could come to. 0 for the candidates
    /// that were not tried: those after the one that is taken, and those at the pension age or past it. It is also 0 where it
    /// comes to less than half a penny, as with a factor of 1,000.
    pub potentials: [Pension; 3],
}

/// Quotes an election for a member who has `existing` pension (Additional Pension and the value of any reduction buy-out). What a
/// contract that is still being paid counts for is the host's to say.
/// `last_number` is the last quote number of the host's register; the host stores the one that it gets.
pub fn quote(terms: &Terms, existing: Pension, last_number: u32) -> Result<Quote, Refusal> {
    let mut result = [0; raw::QUOTE_BYTES];
    let refusal = raw::quote(&terms.numbers(), existing.0, last_number, &mut result);
    Refusal::check(refusal, 0)?;
    Ok(Quote {
        contribution: Contribution(raw::number(&result, raw::QUOTE_CONTRIBUTION)),
        next_number: raw::number(&result, raw::QUOTE_NEXT_NUMBER) as u32,
    })
}

/// Settles a contract as its marks stand, in the order of the months. Too many are refused before any is looked at; then the first
/// bad one is.
///
/// A monthly contract has a mark for each elapsed month, [`MISSED`], [`PAID`] or [`ENDED`], at most 12 for each year of the term. The
/// first is not [`MISSED`], at most eleven [`MISSED`] stand directly before a [`PAID`], and after an [`ENDED`] stand no others.
///
/// A lump sum has marks for its first year, 12 at most: [`PAID`] for each elapsed month, then [`ENDED`] from the month in which the
/// member died, became entitled to an ill-health pension or left with no pension, neither at once nor deferred. The first may be
/// [`ENDED`]. The lump sum then goes back; to whom it is paid is for the host to say, and whether the leaving was within the year.
/// A member who left with a pension is not marked [`ENDED`]. No marks say the same as up to twelve of [`PAID`], and after twelve a
/// host adds no more.
pub fn settle(terms: &Terms, marks: &[u8]) -> Result<Settlement, Refusal> {
    let mut result = [0; raw::SETTLE_BYTES];
    let refusal = raw::settle(&terms.numbers(), marks, &mut result);
    let number = |offset| raw::number(&result, offset);
    Refusal::check(refusal, number(raw::SETTLE_PLACE))?;
    Ok(Settlement {
        contribution: Contribution(number(raw::SETTLE_CONTRIBUTION)),
        status: Status::from_number(number(raw::SETTLE_STATUS)),
        credit: Pension(number(raw::SETTLE_CREDIT)),
        refund: Contribution(number(raw::SETTLE_REFUND)),
    })
}

/// Prices the rest of a contract at the member's age now, last birthday. The increase since the election is in thousandths:
/// 1,000 for none, 1,011 for 1.1 per cent, 9,999 at most. Marks are as for [`settle`].
pub fn pay_off(terms: &Terms, marks: &[u8], age_now: u32, increase: u32) -> Result<PayOff, Refusal> {
    let mut result = [0; raw::PAY_OFF_BYTES];
    let refusal = raw::pay_off(&terms.numbers(), marks, age_now, increase, &mut result);
    let number = |offset| raw::number(&result, offset);
    Refusal::check(refusal, number(raw::PAY_OFF_PLACE))?;
    Ok(PayOff {
        remaining: Pension(number(raw::PAY_OFF_REMAINING)),
        increased: Pension(number(raw::PAY_OFF_INCREASED)),
        cost: Contribution(number(raw::PAY_OFF_COST)),
    })
}

/// Finds the earliest candidate that a reduction may be bought out to: the first, if there is no existing pension; else the first
/// below the pension age whose B is below the greater of B and the limit, each less existing pension.
pub fn reduction_limit(application: &Application) -> Result<ReductionLimit, Refusal> {
    let mut result = [0; raw::REDUCTION_LIMIT_BYTES];
    let refusal = raw::reduction_limit(&application.numbers(), &mut result);
    let number = |offset| raw::number(&result, offset);
    Refusal::check(refusal, 0)?;
    let potentials = [raw::REDUCTION_LIMIT_B_FIRST, raw::REDUCTION_LIMIT_B_SECOND, raw::REDUCTION_LIMIT_B_THIRD];
    Ok(ReductionLimit {
        age: match number(raw::REDUCTION_LIMIT_AGE) {
            0 => None,
            age => Some(age as u32),
        },
        potentials: potentials.map(|offset| Pension(number(offset))),
    })
}
