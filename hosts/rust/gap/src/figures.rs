//! The credits that the picture shows: those that the part gives, and those that three misreadings make of its answers.

use additional_pension::{
    quote, settle, Payer, Pension, PensionAge, PensionOption, Refusal, Status, Terms, ENDED, MISSED, PAID,
};
use std::error::Error;

/// The £1,000 contract.
pub const TERMS: Terms = Terms {
    age: 50,
    pension_age: PensionAge { years: 65, months: 0 },
    option: PensionOption::WithDependant,
    payer: Payer::Member,
    term: 5,
    amount: 1_000,
};

/// Paid months, missed ones, and paid ones again.
pub const BEFORE: usize = 18;
pub const GAP: usize = 4;
pub const AFTER: usize = 6;
/// The month after which payments resume.
pub const RESUMED: usize = BEFORE + GAP;
pub const LAST: usize = RESUMED + AFTER;

/// What a rate is for, in pounds of pension a year.
const STEP: u32 = 250;
const MONTHS_IN_YEAR: usize = 12;

/// Pence a year after no month, one month and so on to the last.
pub type Credits = [u64; LAST + 1];

pub struct Figures {
    /// Pence a month.
    pub contribution: u64,
    pub part: Credits,
    /// The same contract without a gap, by the part too.
    unbroken: Credits,
    /// The contract ends with the first missed month.
    pub ended: Credits,
    /// The months after the gap move up into it.
    pub slid: Credits,
    /// Nothing is rounded on the way, only the credit at its end.
    pub rounded_once: Credits,
}

impl Figures {
    /// Asks the part. The error is a refusal, or says what the captions claim and the answers do not show.
    pub fn ask() -> Result<Figures, Box<dyn Error>> {
        let marks = [vec![PAID; BEFORE], vec![MISSED; GAP], vec![PAID; AFTER]].concat();
        let ended = [vec![PAID; BEFORE], vec![ENDED; GAP + AFTER]].concat();
        let paid = |month| marks[..month].iter().filter(|&&mark| mark == PAID).count();
        let unbroken = by_month(|month| credit(&vec![PAID; month]))?;
        let figures = Figures {
            contribution: contribution(&TERMS)?,
            part: by_month(|month| credit(&marks[..month]))?,
            unbroken,
            ended: by_month(|month| credit(&ended[..month]))?,
            slid: by_month(|month| Ok(unbroken[paid(month)]))?,
            rounded_once: rounded_once(&marks)?,
        };
        holds("the contract has ended", settle(&TERMS, &ended)?.status == Status::Ceased)?;
        figures.check()?;
        Ok(figures)
    }

    /// Looks whether the figures are as the captions say.
    fn check(&self) -> Result<(), String> {
        let growth = |credits: &Credits, month: usize| credits[month] - credits[month - 1];
        let in_its_place = |month| growth(&self.part, month) == growth(&self.unbroken, month);
        let earned = self.part[BEFORE];
        holds("a missed month adds nothing", self.part[BEFORE..=RESUMED].iter().all(|&credit| credit == earned))?;
        holds("a paid month keeps its place", (1..=BEFORE).chain(RESUMED + 1..=LAST).all(in_its_place))?;
        holds("an ended contract stays as it was", self.ended[BEFORE..].iter().all(|&credit| credit == earned))?;
        holds("an ended contract has too little", self.ended[LAST] < self.part[LAST])?;
        holds("months that slid up earn too much", self.slid[LAST] > self.part[LAST])?;
        let mut both = self.part.iter().zip(&self.rounded_once);
        holds(
            "rounding at the end gives the same or a penny more",
            both.all(|(&part, &once)| once == part || once == part + 1),
        )?;
        holds("rounding at the end gives another figure", !self.months_a_penny_off().is_empty())
    }

    /// The months after which rounding only at the end gives another figure.
    pub fn months_a_penny_off(&self) -> Vec<usize> {
        (0..=LAST).filter(|&month| self.rounded_once[month] != self.part[month]).collect()
    }
}

fn holds(what: &str, so: bool) -> Result<(), String> {
    if so {
        Ok(())
    } else {
        Err(format!("the part's answers no longer show that {what}"))
    }
}

fn by_month(credit_after: impl Fn(usize) -> Result<u64, Refusal>) -> Result<Credits, Refusal> {
    let mut credits = [0; LAST + 1];
    for (month, credit) in credits.iter_mut().enumerate() {
        *credit = credit_after(month)?;
    }
    Ok(credits)
}

/// The part's answer, in pence a year.
fn credit(marks: &[u8]) -> Result<u64, Refusal> {
    Ok(settle(&TERMS, marks)?.credit.0)
}

/// The part's answer, in pence a month.
fn contribution(terms: &Terms) -> Result<u64, Refusal> {
    Ok(quote(terms, Pension(0), 0)?.contribution.0)
}

/// The exact credit, rounded once. Year n is worth what the contribution buys at the rate for n, and a paid month adds a twelfth
/// of what its own year adds. All is counted in fractions of a penny, so small that every year is a whole number of them.
fn rounded_once(marks: &[u8]) -> Result<Credits, Refusal> {
    // The rate for n years is what one step costs over them.
    let rate = |term| Ok(u128::from(contribution(&Terms { term, amount: STEP, ..TERMS })?));
    let rates = (1..=TERMS.term).map(rate).collect::<Result<Vec<_>, Refusal>>()?;
    let fractions: u128 = rates.iter().product();
    let buys = u128::from(contribution(&TERMS)?) * u128::from(100 * STEP) * fractions;
    let mut years = vec![0];
    years.extend(rates.iter().map(|rate| buys / rate));

    let mut credits = [0; LAST + 1];
    let mut earned = 0;
    for (index, &mark) in marks.iter().enumerate() {
        if mark == PAID {
            let year = index / MONTHS_IN_YEAR;
            earned += years[year + 1] - years[year];
        }
        credits[index + 1] = half_to_even(earned, fractions * MONTHS_IN_YEAR as u128) as u64;
    }
    Ok(credits)
}

/// A quotient to the nearest whole number, an exact half to the even one.
fn half_to_even(numerator: u128, denominator: u128) -> u128 {
    let (below, past) = (numerator / denominator, numerator % denominator);
    let up = 2 * past > denominator || 2 * past == denominator && below % 2 == 1;
    below + u128::from(up)
}

#[cfg(test)]
mod tests {
    use super::*;

    #[test]
    fn the_part() {
        let figures = Figures::ask().unwrap();
        assert_eq!(figures.contribution, 242_00);
        assert_eq!((figures.part[0], figures.part[12]), (0, 222_59));
        assert_eq!(figures.part[BEFORE..=RESUMED], [327_98; GAP + 1]);
        assert_eq!(figures.part[LAST], 429_60);
    }

    #[test]
    fn the_misreadings() {
        let figures = Figures::ask().unwrap();
        assert_eq!(figures.ended[BEFORE..], [327_98; GAP + AFTER + 1]);
        assert_eq!(figures.slid[BEFORE..=RESUMED], [327_98; GAP + 1]);
        assert_eq!(figures.slid[LAST], 433_38);
        assert_eq!(figures.months_a_penny_off(), [18, 19, 20, 21, 22, 23, 24, 25, 26, 28]);
        assert_eq!(figures.rounded_once[BEFORE..=RESUMED], [327_99; GAP + 1]);
        assert_eq!(figures.rounded_once[RESUMED + 1..], [345_55, 363_12, 379_74, 396_36, 412_98, 429_61]);
    }

    #[test]
    fn halves() {
        let rounded = [(327_985, 10), (1, 2), (3, 2), (5, 2), (4, 3), (5, 3)]
            .map(|(numerator, denominator)| half_to_even(numerator, denominator));
        assert_eq!(rounded, [327_98, 0, 2, 2, 1, 2]);
    }

    /// Figures of which a caption would say what is not so.
    #[test]
    fn captions_that_would_be_wrong() {
        let asked = || Figures::ask().unwrap();
        let (part, ended) = (asked().part, asked().ended);
        let changed = |change: fn(&mut Figures)| {
            let mut figures = asked();
            change(&mut figures);
            figures
        };
        let wrong = [
            (changed(|figures| figures.part[RESUMED] += 1), "a missed month adds nothing"),
            (changed(|figures| figures.part[LAST] += 1), "a paid month keeps its place"),
            (Figures { part: ended, ..asked() }, "a paid month keeps its place"),
            (changed(|figures| figures.ended[RESUMED] += 1), "an ended contract stays as it was"),
            (Figures { part: ended, unbroken: ended, ..asked() }, "an ended contract has too little"),
            (Figures { slid: part, ..asked() }, "months that slid up earn too much"),
            (changed(|figures| figures.rounded_once[1] += 2), "rounding at the end gives the same or a penny more"),
            (changed(|figures| figures.rounded_once[1] -= 1), "rounding at the end gives the same or a penny more"),
            (Figures { rounded_once: part, ..asked() }, "rounding at the end gives another figure"),
        ];
        for (figures, caption) in wrong {
            assert_eq!(figures.check(), holds(caption, false));
        }
        assert_eq!(asked().check(), Ok(()));
    }
}
