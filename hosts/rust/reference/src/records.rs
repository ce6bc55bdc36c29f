//! Contract records: posting a month, and a member's total.

use crate::marks::most_marks;
use crate::settle::{settle, Settlement};
use crate::terms::Terms;
use crate::Outcome;

/// The marks that a record holds.
pub const MARKS: usize = 240;

/// The records that a member total takes.
pub const CONTRACTS: usize = 64;

/// A contract: its terms, its marks and how many of them are used.
#[derive(Clone, Copy, Debug, PartialEq, Eq)]
pub struct Record {
    pub terms: Terms,
    pub marks: [u8; MARKS],
    pub count: u32,
}

impl Record {
    /// A contract in which no month has elapsed.
    pub fn new(terms: Terms) -> Record {
        Record { terms, marks: [0; MARKS], count: 0 }
    }

    /// The settlement of a sound record; `None` for one that is refused with 13.
    pub fn settled(&self) -> Option<Settlement> {
        let (used, unused) = self.marks.split_at_checked(self.count as usize)?;
        if unused.iter().any(|&mark| mark != 0) {
            return None;
        }
        let settled = settle(&self.terms, used);
        (settled.refusal == 0).then_some(settled)
    }
}

/// Adds one mark to the record.
pub fn post(record: &mut Record, mark: u8) -> Outcome {
    if record.settled().is_none() {
        return Outcome { refusal: 13, place: 0 };
    }
    let count = record.count as usize;
    if count == most_marks(record.terms.term) {
        return Outcome { refusal: 10, place: 0 };
    }
    let mut posted = *record;
    posted.marks[count] = mark;
    posted.count += 1;
    let settled = settle(&posted.terms, &posted.marks[..=count]);
    if settled.refusal == 0 {
        *record = posted;
    }
    Outcome { refusal: settled.refusal, place: settled.place }
}

/// What adding up a member's contracts gives. `index` names the first bad record.
#[derive(Clone, Copy, Debug, Default, PartialEq, Eq)]
pub struct MemberTotal {
    pub refusal: u32,
    pub index: u32,
    pub total: u64,
}

/// Adds the credits of the records.
pub fn member_total(records: &[Record]) -> MemberTotal {
    if records.len() > CONTRACTS {
        return MemberTotal { refusal: 14, ..MemberTotal::default() };
    }
    let mut total = 0;
    for (index, record) in records.iter().enumerate() {
        match record.settled() {
            Some(settled) => total += settled.credit,
            None => return MemberTotal { refusal: 13, index: index as u32, total: 0 },
        }
    }
    MemberTotal { total, ..MemberTotal::default() }
}
