//! Settle.

use crate::bytes_of;
use crate::credit::credit;
use crate::marks::{first_bad, most_marks, paid, status};
use crate::terms::Terms;

/// What settling a contract gives.
#[derive(Clone, Copy, Debug, Default, PartialEq, Eq)]
pub struct Settlement {
    pub refusal: u32,
    pub place: u32,
    pub contribution: u64,
    pub status: u32,
    pub credit: u64,
    pub refund: u64,
}

impl Settlement {
    fn refused(refusal: u32, place: u32) -> Settlement {
        Settlement { refusal, place, ..Settlement::default() }
    }

    /// The 48 bytes that a host receives.
    pub fn bytes(&self) -> [u8; 48] {
        let [refusal, place, status] = [self.refusal, self.place, self.status].map(u64::from);
        bytes_of([refusal, place, self.contribution, status, self.credit, self.refund])
    }
}

/// Settles a contract as its marks stand.
pub fn settle(terms: &Terms, marks: &[u8]) -> Settlement {
    let refusal = terms.refusal(0);
    if refusal != 0 {
        return Settlement::refused(refusal, 0);
    }
    if marks.len() > most_marks(terms.term) {
        return Settlement::refused(10, 0);
    }
    if let Some((refusal, place)) = first_bad(terms.term, marks) {
        return Settlement::refused(refusal, place);
    }
    let contribution = terms.contribution();
    let status = status(terms.term, marks);
    let (credit, refund) = match status {
        // A lump sum was paid once, however many months have elapsed.
        5 if terms.term == 0 => (0, contribution),
        5 => (0, contribution * paid(marks) as u64),
        6 => (terms.amount_pence(), 0),
        _ => (credit(terms, marks), 0),
    };
    Settlement { contribution, status, credit, refund, ..Settlement::default() }
}
