//! Quote and the cap decision.

use crate::bytes_of;
use crate::terms::{Terms, CAP_PENCE, STEP};

/// The last number that a register can hold.
pub const LAST_NUMBER: u32 = 999_999;

/// What a quote gives.
#[derive(Clone, Copy, Debug, Default, PartialEq, Eq)]
pub struct Quote {
    pub refusal: u32,
    pub contribution: u64,
    pub next_number: u32,
    /// The register handed back: the number given out, or the old one after a refusal.
    pub register: u32,
}

impl Quote {
    /// The 24 bytes that a host receives.
    pub fn bytes(&self) -> [u8; 24] {
        bytes_of([u64::from(self.refusal), self.contribution, u64::from(self.next_number)])
    }
}

/// Quotes an election, with the pension that the member has and the register's last number.
pub fn quote(terms: &Terms, existing_pence: u64, last_number: u32) -> Quote {
    let refusal = match terms.refusal(existing_pence) {
        0 if last_number >= LAST_NUMBER => 9,
        refusal => refusal,
    };
    if refusal != 0 {
        return Quote { refusal, register: last_number, ..Quote::default() };
    }
    let next_number = last_number + 1;
    Quote { refusal, contribution: terms.contribution(), next_number, register: next_number }
}

/// The greatest lawful amount, in pounds, that may be added to the pension that a member has.
pub fn cap_decision(existing_pence: u64) -> u32 {
    let room = CAP_PENCE.saturating_sub(existing_pence) / 100;
    room as u32 / STEP * STEP
}
