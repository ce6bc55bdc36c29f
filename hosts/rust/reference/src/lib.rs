//! The rules of Additional Pension and of the reduction limit, written a second time in plain Rust.
//!
//! This is what the proved part is compared with, so it shares nothing with it: not the code, not the tables, not the way of
//! working. Refusals and statuses are numbers, money is in pence, and a refusal leaves every other field 0.

pub mod case_file;
pub mod credit;
pub mod halves;
pub mod marks;
pub mod pay_off;
pub mod quote;
pub mod rates;
pub mod records;
pub mod reduction;
pub mod rounding;
pub mod samples;
pub mod schedule;
pub mod settle;
pub mod terms;

pub use case_file::{list_line, listing};
pub use pay_off::{pay_off, PayOff};
pub use quote::{cap_decision, quote, Quote};
pub use records::{member_total, post, MemberTotal, Record};
pub use reduction::{reduction_limit, Application, ReductionLimit};
pub use schedule::schedule;
pub use settle::{settle, Settlement};
pub use terms::Terms;

/// The refusal of an operation that gives nothing else, 0 for success, and the place where it was found.
#[derive(Clone, Copy, Debug, PartialEq, Eq)]
pub struct Outcome {
    pub refusal: u32,
    pub place: u32,
}

/// The numbers of a result one after the other, 8 bytes each, low byte first: what a host's buffer receives.
pub fn bytes_of<const NUMBERS: usize, const BYTES: usize>(numbers: [u64; NUMBERS]) -> [u8; BYTES] {
    let mut bytes = [0; BYTES];
    for (place, number) in bytes.chunks_exact_mut(8).zip(numbers) {
        place.copy_from_slice(&number.to_le_bytes());
    }
    bytes
}
