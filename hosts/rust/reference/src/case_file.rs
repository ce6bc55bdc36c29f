//! The case file and its listing.

use crate::settle::{settle, Settlement};
use crate::terms::Terms;
use std::io::{self, BufRead, Read, Write};

/// The bytes before the marks.
pub const FIXED: usize = 29;

/// The bytes of the longest line, without its end.
pub const LONGEST: usize = 285;

/// The bytes of a line of the listing, its end included.
pub const LISTED: usize = 46;

/// A line of the case file, read.
#[derive(Clone, Copy, Debug, PartialEq, Eq)]
struct Case<'a> {
    election: u32,
    terms: Terms,
    digits: &'a [u8],
}

/// A right-justified number: spaces, then digits without a leading zero.
fn number(field: &[u8]) -> Option<u32> {
    let spaces = field.iter().take_while(|&&byte| byte == b' ').count();
    let digits = &field[spaces..];
    let leading_zero = digits.len() > 1 && digits[0] == b'0';
    if digits.is_empty() || leading_zero {
        return None;
    }
    let mut number = 0;
    for &digit in digits {
        if !digit.is_ascii_digit() {
            return None;
        }
        number = number * 10 + u32::from(digit - b'0');
    }
    Some(number)
}

fn read(line: &[u8]) -> Option<Case<'_>> {
    if line.len() > LONGEST {
        return None;
    }
    let (fixed, digits) = line.split_at_checked(FIXED)?;
    let election = number(&fixed[0..6])?;
    let terms = Terms {
        age: number(&fixed[6..9])?,
        pension_age_years: number(&fixed[9..12])?,
        pension_age_months: number(&fixed[12..15])?,
        option: number(&fixed[15..17])?,
        payer: number(&fixed[17..19])?,
        term: number(&fixed[19..22])?,
        amount: number(&fixed[22..29])?,
    };
    digits.iter().all(u8::is_ascii_digit).then_some(Case { election, terms, digits })
}

/// Writes a number at the right of its field, with spaces before it.
fn put(field: &mut [u8], mut number: u64) {
    for place in field.iter_mut().rev() {
        *place = b'0' + (number % 10) as u8;
        number /= 10;
        if number == 0 {
            return;
        }
    }
    assert_eq!(number, 0, "a number of the listing fits its field");
}

/// The line of the listing, with its end, for one line of the case file, without its end.
pub fn list_line(line: &[u8]) -> [u8; LISTED] {
    let (election, settled) = match read(line) {
        None => (0, Settlement { refusal: 15, ..Settlement::default() }),
        Some(case) => {
            let mut marks = [0; LONGEST - FIXED];
            for (mark, digit) in marks.iter_mut().zip(case.digits) {
                *mark = digit - b'0';
            }
            (case.election, settle(&case.terms, &marks[..case.digits.len()]))
        }
    };
    let mut listed = [b' '; LISTED];
    put(&mut listed[0..6], u64::from(election));
    put(&mut listed[6..9], u64::from(settled.refusal));
    put(&mut listed[9..13], u64::from(settled.place));
    put(&mut listed[13..15], u64::from(settled.status));
    put(&mut listed[15..25], settled.contribution);
    put(&mut listed[25..35], settled.credit);
    put(&mut listed[35..45], settled.refund);
    listed[45] = b'\n';
    listed
}

/// Lists a whole case file, in memory that does not grow with the file or with a line.
pub fn listing(mut input: impl BufRead, mut output: impl Write) -> io::Result<()> {
    let mut line = Vec::with_capacity(LONGEST + 1);
    loop {
        line.clear();
        let read = input.by_ref().take(LONGEST as u64 + 1).read_until(b'\n', &mut line)?;
        if read == 0 {
            return output.flush();
        }
        if line.last() == Some(&b'\n') {
            line.pop();
        } else if line.len() > LONGEST {
            input.skip_until(b'\n')?;
        }
        output.write_all(&list_line(&line))?;
    }
}
