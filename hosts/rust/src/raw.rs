//! The library's calls as they are: numbers and bytes. They are safe with an archive whose [`interface`] is [`INTERFACE`].

/// The interface that this crate is written for: one more each time a call that was there changes its parameters, or a name goes.
pub const INTERFACE: u32 = 1;

/// The rules that this crate is written for: the last request that was in the part.
pub const RULES: u32 = 5;

/// The bytes of a quote's result: numbers of 8 bytes, low byte first.
pub const QUOTE_BYTES: usize = 24;
pub const QUOTE_REFUSAL: usize = 0;
pub const QUOTE_CONTRIBUTION: usize = 8;
pub const QUOTE_NEXT_NUMBER: usize = 16;

/// The bytes of a settlement: numbers of 8 bytes, low byte first.
pub const SETTLE_BYTES: usize = 48;
pub const SETTLE_REFUSAL: usize = 0;
pub const SETTLE_PLACE: usize = 8;
pub const SETTLE_CONTRIBUTION: usize = 16;
pub const SETTLE_STATUS: usize = 24;
pub const SETTLE_CREDIT: usize = 32;
pub const SETTLE_REFUND: usize = 40;

/// The bytes of a pay-off: numbers of 8 bytes, low byte first.
pub const PAY_OFF_BYTES: usize = 40;
pub const PAY_OFF_REFUSAL: usize = 0;
pub const PAY_OFF_PLACE: usize = 8;
pub const PAY_OFF_REMAINING: usize = 16;
pub const PAY_OFF_INCREASED: usize = 24;
pub const PAY_OFF_COST: usize = 32;

/// The bytes of a reduction limit: numbers of 8 bytes, low byte first.
pub const REDUCTION_LIMIT_BYTES: usize = 40;
pub const REDUCTION_LIMIT_REFUSAL: usize = 0;
pub const REDUCTION_LIMIT_AGE: usize = 8;
pub const REDUCTION_LIMIT_B_FIRST: usize = 16;
pub const REDUCTION_LIMIT_B_SECOND: usize = 24;
pub const REDUCTION_LIMIT_B_THIRD: usize = 32;

/// The value of a call whose buffer is too short.
pub const SHORT_BUFFER: u32 = 14;

/// An election as numbers. Every number has an answer.
#[derive(Clone, Copy, Debug, PartialEq, Eq)]
pub struct Numbers {
    pub age: u32,
    pub pension_age_years: u32,
    pub pension_age_months: u32,
    /// 1 personal, 2 with dependant's pension.
    pub option: u32,
    /// 1 member, 2 employer.
    pub payer: u32,
    /// 0 for a lump sum, else the years of monthly payments.
    pub term: u32,
    /// Whole pounds a year.
    pub amount: u32,
}

/// In the order of the fields.
impl From<[u32; 7]> for Numbers {
    fn from([age, pension_age_years, pension_age_months, option, payer, term, amount]: [u32; 7]) -> Self {
        Self { age, pension_age_years, pension_age_months, option, payer, term, amount }
    }
}

/// An application as numbers. Every number has an answer.
#[derive(Clone, Copy, Debug, PartialEq, Eq)]
pub struct ApplicationNumbers {
    pub npa: u32,
    pub age: u32,
    /// Whole pounds a year.
    pub pay: u32,
    /// Thousandths.
    pub factors: [u32; 3],
    /// Pence a year.
    pub existing_pence: u64,
    /// Pence a year.
    pub limit_pence: u64,
}

mod linked {
    extern "C" {
        pub fn ap_interface() -> u32;

        pub fn ap_rules() -> u32;

        pub fn ap_quote(
            age: u32,
            pnpa_years: u32,
            pnpa_months: u32,
            option: u32,
            payer: u32,
            term: u32,
            amount: u32,
            existing_pence: u64,
            last_number: u32,
            out: *mut u8,
            out_len: usize,
        ) -> u32;

        pub fn ap_settle(
            age: u32,
            pnpa_years: u32,
            pnpa_months: u32,
            option: u32,
            payer: u32,
            term: u32,
            amount: u32,
            marks: *const u8,
            marks_len: usize,
            out: *mut u8,
            out_len: usize,
        ) -> u32;

        pub fn ap_pay_off(
            age: u32,
            pnpa_years: u32,
            pnpa_months: u32,
            option: u32,
            payer: u32,
            term: u32,
            amount: u32,
            marks: *const u8,
            marks_len: usize,
            age_now: u32,
            increase: u32,
            out: *mut u8,
            out_len: usize,
        ) -> u32;

        pub fn ap_reduction_limit(
            npa: u32,
            age: u32,
            pay: u32,
            erf_first: u32,
            erf_second: u32,
            erf_third: u32,
            existing_pence: u64,
            limit_pence: u64,
            out: *mut u8,
            out_len: usize,
        ) -> u32;
    }
}

/// A linked call with the terms in their order, then what else it takes.
macro_rules! with_terms {
    ($call:ident, $terms:ident, $($further:expr),+) => {{
        let Numbers { age, pension_age_years, pension_age_months, option, payer, term, amount } = *$terms;
        linked::$call(age, pension_age_years, pension_age_months, option, payer, term, amount, $($further),+)
    }};
}

/// The interface of the archive that is linked. Where it is not [`INTERFACE`], the calls below may not be made.
pub fn interface() -> u32 {
    // SAFETY: the call takes nothing, and no interface has another of this name.
    unsafe { linked::ap_interface() }
}

/// The rules of the archive that is linked.
pub fn rules() -> u32 {
    // SAFETY: as for `interface`.
    unsafe { linked::ap_rules() }
}

/// Quotes into the first [`QUOTE_BYTES`] of `out`; the rest stays. The value is the refusal, 0 for none. A shorter `out` keeps
/// its bytes, and the value is [`SHORT_BUFFER`].
pub fn quote(terms: &Numbers, existing_pence: u64, last_number: u32, out: &mut [u8]) -> u32 {
    // SAFETY: the call asks nothing of its numbers; `out` is lent for its length and for the call.
    unsafe { with_terms!(ap_quote, terms, existing_pence, last_number, out.as_mut_ptr(), out.len()) }
}

/// Settles into the first [`SETTLE_BYTES`] of `out`; the rest stays. The value is the refusal, 0 for none. A shorter `out` keeps
/// its bytes, and the value is [`SHORT_BUFFER`].
pub fn settle(terms: &Numbers, marks: &[u8], out: &mut [u8]) -> u32 {
    // SAFETY: the call asks nothing of its numbers; `marks` and `out` are lent for their lengths and for the call, and a
    // mutable slice overlaps no other.
    unsafe { with_terms!(ap_settle, terms, marks.as_ptr(), marks.len(), out.as_mut_ptr(), out.len()) }
}

/// Pays off into the first [`PAY_OFF_BYTES`] of `out`; the rest stays. The value is the refusal, 0 for none. A shorter `out`
/// keeps its bytes, and the value is [`SHORT_BUFFER`].
pub fn pay_off(terms: &Numbers, marks: &[u8], age_now: u32, increase: u32, out: &mut [u8]) -> u32 {
    // SAFETY: as for `settle`.
    unsafe { with_terms!(ap_pay_off, terms, marks.as_ptr(), marks.len(), age_now, increase, out.as_mut_ptr(), out.len()) }
}

/// Finds a reduction limit into the first [`REDUCTION_LIMIT_BYTES`] of `out`; the rest stays. The value is the refusal, 0 for
/// none. A shorter `out` keeps its bytes, and the value is [`SHORT_BUFFER`].
pub fn reduction_limit(application: &ApplicationNumbers, out: &mut [u8]) -> u32 {
    let ApplicationNumbers { npa, age, pay, factors: [first, second, third], existing_pence, limit_pence } = *application;
    let (start, length) = (out.as_mut_ptr(), out.len());
    // SAFETY: as for `quote`.
    unsafe { linked::ap_reduction_limit(npa, age, pay, first, second, third, existing_pence, limit_pence, start, length) }
}

/// The number at one of the offsets of a result.
///
/// # Panics
///
/// If `result` has fewer than eight bytes from the offset on.
pub fn number(result: &[u8], offset: usize) -> u64 {
    let bytes = result[offset..][..8].try_into().expect("eight bytes");
    u64::from_le_bytes(bytes)
}
