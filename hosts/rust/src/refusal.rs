//! Why a call gave nothing.

use std::fmt;

/// A refusal. A place is a mark's index, counted from 0. Later rules may refuse for further reasons; each has a number and words.
#[derive(Clone, Copy, Debug, PartialEq, Eq, Hash)]
#[non_exhaustive]
pub enum Refusal {
    /// 1: the option is neither of the two.
    Option,
    /// 2: the pension age is outside 65 years 0 months to 68 years 0 months, or its months are above 11.
    PensionAge,
    /// 3: the term is above 20 years.
    Term,
    /// 4: the payer is neither of the two, or an employer pays by the month.
    Payer,
    /// 5: no lump sum is printed for this age at a needed pension age, or no rate for this age and term in the only or lower
    /// monthly table; or, for a pay-off, no lump sum for the age now at a needed pension age.
    NoRate,
    /// 6: nothing is printed for this age and term in the upper monthly table.
    NoUpperRate,
    /// 7: the amount is 0 or not a multiple of £250.
    Amount,
    /// 8: existing pension and the new amount are above the cap.
    AboveCap,
    /// 9: the register has no further number.
    NumbersUsedUp,
    /// 10: there are more than 12 marks for each year of the term, or more than 12 for a lump sum.
    TooManyMarks,
    /// 11: a mark is above 2.
    UnknownMark { place: u64 },
    /// 12: a mark is not lawful after those before it; for a lump sum any [`MISSED`](crate::MISSED), and a
    /// [`PAID`](crate::PAID) after an [`ENDED`](crate::ENDED).
    UnlawfulMark { place: u64 },
    /// 14: the result's buffer is too short. This crate's own buffers are not.
    ShortBuffer,
    /// 16: no month has elapsed, the contract was refunded, or it is a lump sum, refunded or not. A complete contract is paid off
    /// for nothing.
    NothingToPayOff,
    /// 17: the increase is not from 1,000 to 9,999 thousandths.
    Increase,
    /// 18: a number of the application is out of range: the pension age not from 66 to 70, the age not from 24 to 64, the pay not
    /// from £1 to £200,000, any of the three factors above 1,000 thousandths, existing pension or the limit above £1,000,000.
    Application,
}

impl Refusal {
    /// The refusal of a call's value, if it is one.
    pub(crate) fn check(number: u32, place: u64) -> Result<(), Refusal> {
        Err(match number {
            0 => return Ok(()),
            1 => Refusal::Option,
            2 => Refusal::PensionAge,
            3 => Refusal::Term,
            4 => Refusal::Payer,
            5 => Refusal::NoRate,
            6 => Refusal::NoUpperRate,
            7 => Refusal::Amount,
            8 => Refusal::AboveCap,
            9 => Refusal::NumbersUsedUp,
            10 => Refusal::TooManyMarks,
            11 => Refusal::UnknownMark { place },
            12 => Refusal::UnlawfulMark { place },
            14 => Refusal::ShortBuffer,
            16 => Refusal::NothingToPayOff,
            17 => Refusal::Increase,
            18 => Refusal::Application,
            _ => panic!("the archive that is linked has other rules than this crate: refusal {number}"),
        })
    }

    /// The scheme's number for it.
    pub fn number(&self) -> u32 {
        match self {
            Refusal::Option => 1,
            Refusal::PensionAge => 2,
            Refusal::Term => 3,
            Refusal::Payer => 4,
            Refusal::NoRate => 5,
            Refusal::NoUpperRate => 6,
            Refusal::Amount => 7,
            Refusal::AboveCap => 8,
            Refusal::NumbersUsedUp => 9,
            Refusal::TooManyMarks => 10,
            Refusal::UnknownMark { .. } => 11,
            Refusal::UnlawfulMark { .. } => 12,
            Refusal::ShortBuffer => 14,
            Refusal::NothingToPayOff => 16,
            Refusal::Increase => 17,
            Refusal::Application => 18,
        }
    }
}

impl fmt::Display for Refusal {
    fn fmt(&self, formatter: &mut fmt::Formatter<'_>) -> fmt::Result {
        match self {
            Refusal::Option => write!(formatter, "the option is unknown"),
            Refusal::PensionAge => write!(formatter, "the pension age is outside its range"),
            Refusal::Term => write!(formatter, "the term is above 20 years"),
            Refusal::Payer => write!(formatter, "the payer is unknown, or an employer pays by the month"),
            Refusal::NoRate => write!(formatter, "there is no rate for this age and term, or no lump sum for the age now"),
            Refusal::NoUpperRate => write!(formatter, "there is no rate for this age and term at the upper pension age"),
            Refusal::Amount => write!(formatter, "the amount is 0 or not a multiple of £250"),
            Refusal::AboveCap => write!(formatter, "the pension would be above the cap"),
            Refusal::NumbersUsedUp => write!(formatter, "the quote numbers are used up"),
            Refusal::TooManyMarks => write!(formatter, "there are more marks than the contract takes"),
            Refusal::UnknownMark { place } => write!(formatter, "the mark at {place} is unknown"),
            Refusal::UnlawfulMark { place } => write!(formatter, "the mark at {place} is not lawful there"),
            Refusal::ShortBuffer => write!(formatter, "the buffer is too short"),
            Refusal::NothingToPayOff => write!(formatter, "the contract has nothing to pay off"),
            Refusal::Increase => write!(formatter, "the increase is outside its range"),
            Refusal::Application => write!(formatter, "a number of the application is outside its range"),
        }
    }
}

impl std::error::Error for Refusal {}
