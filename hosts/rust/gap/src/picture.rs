//! What stands where in the picture: a panel for what the part gives, then one for each misreading, with the part's line in it.

use crate::figures::{Credits, Figures, AFTER, BEFORE, GAP, LAST, RESUMED, TERMS};
use crate::panel::{definitions, Panel, ENDED, HATCHED, PART, PLAIN, ROUNDED, SLID};
use crate::svg::Anchor::{End, Middle, Start};
use crate::svg::{at, Svg};

const HEADING: &str = r#" font-size="18" font-weight="bold""#;
/// Text that can be read over lines.
const FIGURE: &str = r#" font-weight="bold" stroke="white" stroke-width="4" paint-order="stroke""#;
const WORDS: &str = r#" font-size="12" stroke="white" stroke-width="4" paint-order="stroke""#;

/// Places from the top that the three upper panels share.
const TOP: i64 = 180;
const BOTTOM: i64 = 410;

pub fn draw(figures: &Figures) -> String {
    let amount = format!("£{},{:03}", TERMS.amount / 1_000, TERMS.amount % 1_000);
    let heading = format!("{BEFORE} paid, {GAP} missed and {AFTER} paid months of the {amount} contract");
    let mut svg = Svg::new(900, 690, &heading, &description(figures));
    definitions(&mut svg);
    svg.text(at(16, 28), Start, HEADING, &heading);
    svg.text(at(16, 50), Start, PLAIN, &contract(figures));
    legend(&mut svg);
    part(&mut svg, figures);
    ended(&mut svg, figures);
    slid(&mut svg, figures);
    rounded(&mut svg, figures);
    svg.finish()
}

/// The picture in words.
fn description(figures: &Figures) -> String {
    format!(
        "The credit after each contract month. What the part gives rises to {} a year in {BEFORE} paid months, stays there for \
         {GAP} missed ones, and comes to {} after {AFTER} more. If the contract ended at the gap, {} would stay. If the later \
         months slid up into the gap, it would come to {}. If rounding came only at the end, it would be a penny more after \
         months {}, and {} at last.",
        pounds(figures.part[BEFORE]),
        pounds(figures.part[LAST]),
        pounds(figures.ended[LAST]),
        pounds(figures.slid[LAST]),
        in_words(&figures.months_a_penny_off()),
        pounds(figures.rounded_once[LAST]),
    )
}

fn contract(figures: &Figures) -> String {
    format!(
        "{} a month for {} years from age {}; pension age {}, with dependant's pension",
        pounds(figures.contribution),
        TERMS.term,
        TERMS.age,
        TERMS.pension_age.years
    )
}

fn legend(svg: &mut Svg) {
    let y = 76;
    for (x, line) in [(16, PART), (138, ENDED), (321, SLID), (523, ROUNDED)] {
        line.explain(svg, at(x, y));
    }
    svg.rectangle(at(752, y - 7), at(780, y + 7), HATCHED);
    svg.text(at(788, y + 4), Start, PLAIN, "missed month");
}

/// All months, by the part.
fn part(svg: &mut Svg, figures: &Figures) {
    let panel = Panel { left: 58, right: 328, top: TOP, bottom: BOTTOM, margin: 6, first_month: 0, pence: 0..=500_00 };
    panel.head(svg, "What the part gives", ["a missed month adds nothing", "and keeps its place"], &credit_in(&panel));
    panel.axes(svg, 4, &pounds_every(100, &panel));
    PART.draw(svg, &panel.points(&figures.part));
    for month in [BEFORE, LAST] {
        let credit = figures.part[month];
        svg.text(panel.point(month, credit).moved(2, -10), End, FIGURE, &pounds(credit));
    }
    for (from, to, words) in [(0, BEFORE, "paid"), (BEFORE, RESUMED, "missed"), (RESUMED, LAST, "paid")] {
        svg.text(panel.between(from, to, 0).moved(0, -8), Middle, WORDS, words);
    }
}

/// The gap and what follows it, if the contract ended with the first missed month.
fn ended(svg: &mut Svg, figures: &Figures) {
    let panel = magnified(392, 562, BEFORE);
    let less = format!("{} too little", pounds(figures.part[LAST] - figures.ended[LAST]));
    panel.head(svg, "Ended at the gap", ["later months add nothing", &less], &credit_in(&panel));
    panel.axes(svg, 2, &pounds_every(20, &panel));
    svg.text(panel.between(BEFORE, RESUMED, 440_00).moved(0, -4), Middle, WORDS, "missed");
    ENDED.draw(svg, &panel.points(&figures.ended));
    PART.draw(svg, &panel.points(&figures.part));
    svg.text(panel.point(LAST, figures.part[LAST]).moved(-8, 0), End, FIGURE, &pounds(figures.part[LAST]));
    svg.text(panel.point(LAST, figures.ended[LAST]).moved(2, -10), End, FIGURE, &pounds(figures.ended[LAST]));
}

/// What follows the gap, if it slid up into it.
fn slid(svg: &mut Svg, figures: &Figures) {
    let panel = magnified(626, 818, RESUMED);
    let places = format!("months {} to {LAST} earn as {} to {}", RESUMED + 1, BEFORE + 1, BEFORE + AFTER);
    let more = format!("{} too much", pounds(figures.slid[LAST] - figures.part[LAST]));
    panel.head(svg, "Later months slid up", [&places, &more], &credit_in(&panel));
    panel.axes(svg, 1, &pounds_every(20, &panel));
    SLID.draw(svg, &panel.points(&figures.slid));
    PART.draw(svg, &panel.points(&figures.part));
    svg.text(panel.point(LAST, figures.slid[LAST]).moved(10, 0), Start, FIGURE, &pounds(figures.slid[LAST]));
    svg.text(panel.point(LAST, figures.part[LAST]).moved(10, 9), Start, FIGURE, &pounds(figures.part[LAST]));
}

/// A panel for what is earned from the gap on.
fn magnified(left: i64, right: i64, first_month: usize) -> Panel {
    Panel { left, right, top: TOP, bottom: BOTTOM, margin: 6, first_month, pence: 320_00..=450_00 }
}

/// Both figures, and by how much they differ, from the first month on in which they do.
fn rounded(svg: &mut Svg, figures: &Figures) {
    let off = figures.months_a_penny_off();
    // The part stands a penny above the bottom.
    let panel = Panel { left: 58, right: 884, top: 548, bottom: 642, margin: 38, first_month: off[0], pence: 0..=3 };
    let more = format!("a penny too much after months {}", in_words(&off));
    panel.head(
        svg,
        "Rounded only at the end",
        ["years and months stay exact until the credit is rounded, once", &more],
        "pence above the part",
    );
    panel.axes(svg, 1, &[(1, "0".to_string()), (2, "1".to_string())]);
    svg.text(panel.between(BEFORE, RESUMED, 1).moved(0, -12), Middle, WORDS, "missed");
    let points = |credits: &Credits| {
        let above = |month: usize| panel.point(month, 1 + credits[month] - figures.part[month]);
        (panel.first_month..=LAST).map(above).collect::<Vec<_>>()
    };
    ROUNDED.draw(svg, &points(&figures.rounded_once));
    PART.draw(svg, &points(&figures.part));
    for month in panel.first_month..=LAST {
        let style = if off.contains(&month) { FIGURE } else { WORDS };
        svg.text(panel.point(month, 2).moved(0, -13), Middle, style, &pounds(figures.rounded_once[month]));
        svg.text(panel.point(month, 1).moved(0, 20), Middle, style, &pounds(figures.part[month]));
    }
}

/// Labels so many pounds apart.
fn pounds_every(step: u64, panel: &Panel) -> Vec<(u64, String)> {
    panel.pence.clone().step_by(100 * step as usize).map(|pence| (pence, format!("£{}", pence / 100))).collect()
}

/// What these labels measure.
fn credit_in(panel: &Panel) -> String {
    match panel.pence.start() {
        0 => "credit, £ a year".to_string(),
        start => format!("credit, £ a year, from £{}", start / 100),
    }
}

fn pounds(pence: u64) -> String {
    format!("£{}.{:02}", pence / 100, pence % 100)
}

/// Months in order, with runs drawn together: 18 to 26 and 28.
fn in_words(months: &[usize]) -> String {
    let runs: Vec<String> = months
        .chunk_by(|month, next| month + 1 == *next)
        .map(|run| match run {
            [month] => month.to_string(),
            _ => format!("{} to {}", run[0], run[run.len() - 1]),
        })
        .collect();
    match runs.split_last() {
        Some((last, others)) if !others.is_empty() => format!("{} and {last}", others.join(", ")),
        _ => runs.concat(),
    }
}

#[cfg(test)]
mod tests {
    use super::*;

    #[test]
    fn words() {
        assert_eq!(in_words(&[18, 19, 20, 22, 24, 25]), "18 to 20, 22 and 24 to 25");
        assert_eq!([in_words(&[7]), in_words(&[7, 8])], ["7", "7 to 8"]);
        assert_eq!([pounds(9), pounds(327_98)], ["£0.09", "£327.98"]);
    }
}
