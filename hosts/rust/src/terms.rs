//! The terms of an election, the marks of its months and the states of its contract.

use crate::raw::Numbers;
use std::fmt;

/// A month that was not paid. A lump sum has none.
pub const MISSED: u8 = 0;
/// A paid month; of a lump sum, an elapsed month.
pub const PAID: u8 = 1;
/// A month after the payer gave notice; of a lump sum, the month of a leaving that gives it back, or one after it ([`settle`](crate::settle)).
pub const ENDED: u8 = 2;

/// The pension age that the election is priced for.
#[derive(Clone, Copy, Debug, PartialEq, Eq, PartialOrd, Ord, Hash)]
pub struct PensionAge {
    pub years: u32,
    pub months: u32,
}

/// What is bought.
#[derive(Clone, Copy, Debug, PartialEq, Eq, Hash)]
pub enum PensionOption {
    Personal,
    WithDependant,
}

/// Who pays. An employer pays by lump sum.
#[derive(Clone, Copy, Debug, PartialEq, Eq, Hash)]
pub enum Payer {
    Member,
    Employer,
}

/// An election.
#[derive(Clone, Copy, Debug, PartialEq, Eq, Hash)]
pub struct Terms {
    /// Age last birthday.
    pub age: u32,
    pub pension_age: PensionAge,
    pub option: PensionOption,
    pub payer: Payer,
    /// 0 for a lump sum, 1 to 20 for so many years of monthly payments.
    pub term: u32,
    /// Whole pounds a year.
    pub amount: u32,
}

impl Terms {
    /// The numbers that the library takes.
    pub fn numbers(&self) -> Numbers {
        Numbers {
            age: self.age,
            pension_age_years: self.pension_age.years,
            pension_age_months: self.pension_age.months,
            option: match self.option {
                PensionOption::Personal => 1,
                PensionOption::WithDependant => 2,
            },
            payer: match self.payer {
                Payer::Member => 1,
                Payer::Employer => 2,
            },
            term: self.term,
            amount: self.amount,
        }
    }
}

/// How a contract stands.
#[derive(Clone, Copy, Debug, PartialEq, Eq, Hash)]
pub enum Status {
    /// 0: monthly, and no month has elapsed.
    NotStarted,
    /// 1: the last month is paid, and the term goes on.
    Paying,
    /// 2: one to eleven missed months at the end, and the term goes on.
    InGap,
    /// 3: every month of the term is paid.
    Complete,
    /// 4: stopped, the last paid month being the twelfth or later; the credit stays.
    Ceased,
    /// 5: stopped, with the last paid month before the twelfth or none, or a lump sum with an [`ENDED`] mark; what was paid goes back
    /// and the credit is 0.
    Refunded,
    /// 6: a lump sum without an [`ENDED`] mark, credited in full.
    LumpSum,
}

impl Status {
    pub(crate) fn from_number(number: u64) -> Status {
        match number {
            0 => Status::NotStarted,
            1 => Status::Paying,
            2 => Status::InGap,
            3 => Status::Complete,
            4 => Status::Ceased,
            5 => Status::Refunded,
            6 => Status::LumpSum,
            _ => panic!("the archive that is linked has other rules than this crate: status {number}"),
        }
    }

    /// The scheme's number for it.
    pub fn number(self) -> u32 {
        self as u32
    }
}

impl fmt::Display for Status {
    fn fmt(&self, formatter: &mut fmt::Formatter<'_>) -> fmt::Result {
        formatter.write_str(match self {
            Status::NotStarted => "not started",
            Status::Paying => "paying",
            Status::InGap => "in a gap",
            Status::Complete => "complete",
            Status::Ceased => "ceased",
            Status::Refunded => "refunded",
            Status::LumpSum => "lump sum",
        })
    }
}
