//! The marks of a contract's elapsed months: how many there may be, which are lawful, and the status that they give.
//!
//! A lump sum is paid at once, so its months are not paid one by one: a 1 is a month that has elapsed, a 2 the month in which the
//! member left, or one after it. Only the first year is marked.

pub const MISSED: u8 = 0;
pub const PAID: u8 = 1;
pub const ENDED: u8 = 2;

/// The missed months in a row after which no payment may follow.
const LAPSE: usize = 12;

/// The months in which leaving gives a lump sum back.
const LUMP_SUM_MONTHS: usize = 12;

/// The most marks that a contract of this term has.
pub fn most_marks(term: u32) -> usize {
    match term {
        0 => LUMP_SUM_MONTHS,
        years => 12 * years as usize,
    }
}

/// The first bad mark from the left: refusal 11 or 12 and its index.
pub fn first_bad(term: u32, marks: &[u8]) -> Option<(u32, u32)> {
    if term == 0 {
        first_bad_of_lump_sum(marks)
    } else {
        first_bad_of_monthly(marks)
    }
}

/// A lump sum misses no month, and whoever has left does not come back.
fn first_bad_of_lump_sum(marks: &[u8]) -> Option<(u32, u32)> {
    let leaving = marks.iter().position(|&mark| mark == ENDED).unwrap_or(marks.len());
    for (index, &mark) in marks.iter().enumerate() {
        let refusal = match mark {
            PAID if index < leaving => continue,
            ENDED => continue,
            MISSED | PAID => 12,
            _ => 11,
        };
        return Some((refusal, index as u32));
    }
    None
}

fn first_bad_of_monthly(marks: &[u8]) -> Option<(u32, u32)> {
    let mut missed = 0;
    let mut ended = false;
    for (index, &mark) in marks.iter().enumerate() {
        let lawful = match mark {
            MISSED => index > 0 && !ended,
            PAID => missed < LAPSE && !ended,
            ENDED => true,
            _ => return Some((11, index as u32)),
        };
        if !lawful {
            return Some((12, index as u32));
        }
        missed = if mark == MISSED { missed + 1 } else { 0 };
        ended = mark == ENDED;
    }
    None
}

/// How many months there are as far as the last paid one.
pub fn paid_through(marks: &[u8]) -> usize {
    marks.iter().rposition(|&mark| mark == PAID).map_or(0, |last| last + 1)
}

/// The number of paid months.
pub fn paid(marks: &[u8]) -> usize {
    marks.iter().filter(|&&mark| mark == PAID).count()
}

/// The status, 0 to 6, of a contract with lawful marks, not more than its term allows.
pub fn status(term: u32, marks: &[u8]) -> u32 {
    if term == 0 {
        return if marks.contains(&ENDED) { 5 } else { 6 };
    }
    let Some(&last) = marks.last() else {
        return 0;
    };
    let through = paid_through(marks);
    let over = marks.len() == 12 * term as usize;
    let gap = marks.len() - through;
    if last == PAID && !over {
        1
    } else if last == MISSED && gap < LAPSE && !over {
        2
    } else if over && paid(marks) == marks.len() {
        3
    } else if through >= 12 {
        4
    } else {
        5
    }
}
