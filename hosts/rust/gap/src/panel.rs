//! A panel with axes, and the lines of credits in it.

use crate::figures::{BEFORE, LAST, RESUMED};
use crate::svg::Anchor::{End, Middle, Start};
use crate::svg::{at, px, Point, Svg};
use std::ops::RangeInclusive;

const BOLD: &str = r#" font-weight="bold""#;
pub const PLAIN: &str = "";
pub const SMALL: &str = r#" font-size="12""#;
pub const HATCHED: &str = r#" fill="url(#missed)""#;
const AXIS: &str = r#" stroke="black""#;
const GRID: &str = r##" stroke="#ccc""##;

/// How a line of credits looks. Its dashes and the shape of its marks tell it from the others, its colour does so once more.
pub struct Line {
    pub name: &'static str,
    id: &'static str,
    colour: &'static str,
    width: &'static str,
    dashes: &'static str,
    /// The mark's outline in a square of 16 pixels.
    mark: &'static str,
    filling: &'static str,
}

pub const PART: Line = Line {
    name: "the part",
    id: "part",
    colour: "black",
    width: "2",
    dashes: "none",
    mark: "M6 8a2 2 0 0 0 4 0a2 2 0 0 0-4 0z",
    filling: "black",
};
pub const ENDED: Line = Line {
    name: "ended at the gap",
    id: "ended",
    colour: "#a33b00",
    width: "1.6",
    dashes: "5 3",
    mark: "M4.5 4.5h7v7h-7z",
    filling: "white",
};
pub const SLID: Line = Line {
    name: "later months slid up",
    id: "slid",
    colour: "#00558c",
    width: "1.6",
    dashes: "8 2.5 2 2.5",
    mark: "M8 2.5l5.5 5.5-5.5 5.5-5.5-5.5z",
    filling: "white",
};
pub const ROUNDED: Line = Line {
    name: "rounded only at the end",
    id: "rounded",
    colour: "#5b2a86",
    width: "1.6",
    dashes: "2 3",
    mark: "M8 2l5.5 9.5h-11z",
    filling: "white",
};

impl Line {
    /// Joins points and marks each.
    pub fn draw(&self, svg: &mut Svg, points: &[Point]) {
        self.draw_marked(svg, points, &["start", "mid", "end"]);
    }

    /// A piece of it with a mark in the middle, and its name.
    pub fn explain(&self, svg: &mut Svg, from: Point) {
        self.draw_marked(svg, &[from, from.moved(18, 0), from.moved(36, 0)], &["mid"]);
        svg.text(from.moved(44, 4), Start, PLAIN, self.name);
    }

    fn draw_marked(&self, svg: &mut Svg, points: &[Point], marked: &[&str]) {
        let Line { id, colour, width, dashes, .. } = self;
        let marks: String = marked.iter().map(|place| format!(r#" marker-{place}="url(#{id})""#)).collect();
        svg.line(points, &format!(r#" stroke="{colour}" stroke-width="{width}" stroke-dasharray="{dashes}"{marks}"#));
    }

    fn define(&self, svg: &mut Svg) {
        let Line { id, colour, mark, filling, .. } = self;
        let square = r#"markerUnits="userSpaceOnUse" markerWidth="16" markerHeight="16" refX="8" refY="8""#;
        let outline = format!(r#"<path d="{mark}" fill="{filling}" stroke="{colour}" stroke-width="1.5"/>"#);
        svg.write(&format!(r#"<marker id="{id}" {square}>{outline}</marker>"#));
    }
}

/// The marks of the lines, and the hatching of missed months.
pub fn definitions(svg: &mut Svg) {
    svg.write("<defs>");
    for line in [PART, ENDED, SLID, ROUNDED] {
        line.define(svg);
    }
    svg.write(r#"<pattern id="missed" width="6" height="6" patternUnits="userSpaceOnUse" patternTransform="rotate(45)">"#);
    svg.write(r##"<path d="M0 0v6" stroke="#bbb" stroke-width="2"/></pattern>"##);
    svg.write("</defs>");
}

/// Contract months go from left to right, up to the last, and pence from the bottom to the top.
pub struct Panel {
    /// Of the field within the axes, in pixels.
    pub left: i64,
    pub right: i64,
    pub top: i64,
    pub bottom: i64,
    /// What stays free beside the first month and the last.
    pub margin: i64,
    pub first_month: usize,
    pub pence: RangeInclusive<u64>,
}

impl Panel {
    pub fn x(&self, month: usize) -> i64 {
        let width = px(self.right - self.left - 2 * self.margin);
        px(self.left + self.margin) + (month - self.first_month) as i64 * width / (LAST - self.first_month) as i64
    }

    pub fn y(&self, pence: u64) -> i64 {
        assert!(self.pence.contains(&pence), "the panel has no room for {pence} pence");
        let (lowest, highest) = (self.pence.start(), self.pence.end());
        px(self.bottom) - (pence - lowest) as i64 * px(self.bottom - self.top) / (highest - lowest) as i64
    }

    pub fn point(&self, month: usize, pence: u64) -> Point {
        Point { x: self.x(month), y: self.y(pence) }
    }

    /// In the middle between two months.
    pub fn between(&self, month: usize, next: usize, pence: u64) -> Point {
        Point { x: (self.x(month) + self.x(next)) / 2, y: self.y(pence) }
    }

    /// The places of the credits from the panel's first month on.
    pub fn points(&self, credits: &[u64]) -> Vec<Point> {
        (self.first_month..=LAST).map(|month| self.point(month, credits[month])).collect()
    }

    /// Title, captions and what is measured, above the field.
    pub fn head(&self, svg: &mut Svg, title: &str, captions: [&str; 2], measured: &str) {
        let corner = at(self.left - 42, self.top);
        svg.text(corner.moved(0, -67), Start, BOLD, title);
        svg.text(corner.moved(0, -49), Start, PLAIN, captions[0]);
        svg.text(corner.moved(0, -32), Start, PLAIN, captions[1]);
        svg.text(corner.moved(0, -12), Start, SMALL, measured);
    }

    /// The hatched months and the axes, with a number at each so many months and a label at some pence.
    pub fn axes(&self, svg: &mut Svg, months: usize, labels: &[(u64, String)]) {
        let (top_left, corner, bottom_right) =
            (at(self.left, self.top), at(self.left, self.bottom), at(self.right, self.bottom));
        if self.first_month < RESUMED {
            svg.rectangle(Point { x: self.x(BEFORE), y: top_left.y }, Point { x: self.x(RESUMED), y: corner.y }, HATCHED);
        }
        for (pence, label) in labels {
            let from = Point { x: corner.x, y: self.y(*pence) };
            svg.line(&[from, Point { x: bottom_right.x, ..from }], GRID);
            svg.text(from.moved(-6, 4), End, SMALL, label);
        }
        svg.line(&[top_left, corner, bottom_right], AXIS);
        for month in self.first_month..=LAST {
            let tick = Point { x: self.x(month), y: corner.y };
            let numbered = month % months == 0;
            svg.line(&[tick, tick.moved(0, if numbered { 6 } else { 3 })], AXIS);
            if numbered {
                svg.text(tick.moved(0, 19), Middle, SMALL, &month.to_string());
            }
        }
        let middle = Point { x: (corner.x + bottom_right.x) / 2, y: corner.y };
        svg.text(middle.moved(0, 36), Middle, SMALL, "contract month");
    }
}
