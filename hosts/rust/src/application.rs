//! An application for a reduction buy-out.

use crate::money::Pension;
use crate::raw::ApplicationNumbers;

/// What a member applies with, before a reduction buy-out is quoted.
#[derive(Clone, Copy, Debug, PartialEq, Eq, Hash)]
pub struct Application {
    /// Normal pension age in whole years, 66 to 70.
    pub npa: u32,
    /// Age at the last birthday in whole years, 24 to 64.
    pub age: u32,
    /// Whole-time pay in whole pounds a year, 1 to 200,000.
    pub pay: u32,
    /// The early-retirement factor of each candidate: what a pension keeps that is taken then and not at the pension age, in
    /// thousandths, 0 to 1,000 (896 keeps 89.6%, 1,000 is no reduction). All three are looked at; for a candidate that is not
    /// below the pension age any of these numbers does.
    pub factors: [u32; 3],
    /// The Additional Pension that the member has, with increases so far and with contracts that are still being paid as if
    /// completed, £1,000,000 at most.
    pub existing: Pension,
    /// The limit on Additional Pension and buy-outs together, £1,000,000 at most. Without existing pension it decides nothing.
    pub limit: Pension,
}

impl Application {
    /// The numbers that the library takes.
    pub fn numbers(&self) -> ApplicationNumbers {
        ApplicationNumbers {
            npa: self.npa,
            age: self.age,
            pay: self.pay,
            factors: self.factors,
            existing_pence: self.existing.0,
            limit_pence: self.limit.0,
        }
    }
}
