//! Money. Pension a year and contributions are two kinds, and nothing adds one to the other.

use std::fmt;

/// A pension in pence a year.
#[derive(Clone, Copy, Debug, Default, PartialEq, Eq, PartialOrd, Ord, Hash)]
pub struct Pension(pub u64);

/// A contribution or a refund of contributions, in pence.
#[derive(Clone, Copy, Debug, Default, PartialEq, Eq, PartialOrd, Ord, Hash)]
pub struct Contribution(pub u64);

fn pounds(pence: u64, formatter: &mut fmt::Formatter<'_>) -> fmt::Result {
    write!(formatter, "£{}.{:02}", pence / 100, pence % 100)
}

impl fmt::Display for Pension {
    fn fmt(&self, formatter: &mut fmt::Formatter<'_>) -> fmt::Result {
        pounds(self.0, formatter)?;
        formatter.write_str(" a year")
    }
}

impl fmt::Display for Contribution {
    fn fmt(&self, formatter: &mut fmt::Formatter<'_>) -> fmt::Result {
        pounds(self.0, formatter)
    }
}
