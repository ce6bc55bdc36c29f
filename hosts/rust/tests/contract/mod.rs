//! The contract that tests of the wrapper start from.

use additional_pension::{Payer, PensionAge, PensionOption, Terms};

/// £1,000 over five years from age 50, with dependant's pension, at a pension age of 65.
pub const TERMS: Terms = Terms {
    age: 50,
    pension_age: PensionAge { years: 65, months: 0 },
    option: PensionOption::WithDependant,
    payer: Payer::Member,
    term: 5,
    amount: 1_000,
};
