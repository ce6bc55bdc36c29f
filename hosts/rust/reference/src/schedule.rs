//! Schedule: the credit after each month.

use crate::settle::settle;
use crate::terms::Terms;
use crate::Outcome;

/// Writes the credit after each mark into the list's first entries. A refusal writes nothing.
pub fn schedule(terms: &Terms, marks: &[u8], list: &mut [u32]) -> Outcome {
    let settled = settle(terms, marks);
    if settled.refusal != 0 {
        return Outcome { refusal: settled.refusal, place: settled.place };
    }
    if list.len() < marks.len() {
        return Outcome { refusal: 14, place: 0 };
    }
    for (index, entry) in list.iter_mut().enumerate().take(marks.len()) {
        *entry = settle(terms, &marks[..=index]).credit as u32;
    }
    Outcome { refusal: 0, place: 0 }
}
