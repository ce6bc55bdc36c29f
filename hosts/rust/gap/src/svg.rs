//! The few elements of SVG that the picture is made of. Lengths are whole tenths of a pixel, so that the text is always the same.

/// A place, in tenths of a pixel from the top left corner.
#[derive(Clone, Copy)]
pub struct Point {
    pub x: i64,
    pub y: i64,
}

/// Pixels in tenths.
pub fn px(pixels: i64) -> i64 {
    10 * pixels
}

/// A place in pixels.
pub fn at(x: i64, y: i64) -> Point {
    Point { x: px(x), y: px(y) }
}

impl Point {
    /// So many pixels to the right and down.
    pub fn moved(self, right: i64, down: i64) -> Point {
        Point { x: self.x + px(right), y: self.y + px(down) }
    }
}

/// Which end of a text its point is.
#[derive(Clone, Copy)]
pub enum Anchor {
    Start,
    Middle,
    End,
}

/// Elements, a line of text for each. A style is attributes, with a space before each.
pub struct Svg {
    text: String,
}

impl Svg {
    /// An empty white picture of whole pixels. The title and the description are for those who do not see it.
    pub fn new(width: i64, height: i64, title: &str, description: &str) -> Svg {
        let mut svg = Svg { text: String::new() };
        svg.write(&format!(
            r#"<svg xmlns="http://www.w3.org/2000/svg" width="{width}" height="{height}" viewBox="0 0 {width} {height}"{}>"#,
            r#" role="img" aria-labelledby="title description" font-family="sans-serif" font-size="13""#
        ));
        svg.write(&format!(r#"<title id="title">{title}</title>"#));
        svg.write(&format!(r#"<desc id="description">{description}</desc>"#));
        svg.rectangle(at(0, 0), at(width, height), r#" fill="white""#);
        svg
    }

    /// The whole text.
    pub fn finish(mut self) -> String {
        self.write("</svg>");
        self.text
    }

    /// A line of text as it is.
    pub fn write(&mut self, line: &str) {
        self.text.push_str(line);
        self.text.push('\n');
    }

    pub fn text(&mut self, point: Point, anchor: Anchor, style: &str, words: &str) {
        let anchor = match anchor {
            Anchor::Start => "",
            Anchor::Middle => r#" text-anchor="middle""#,
            Anchor::End => r#" text-anchor="end""#,
        };
        self.write(&format!(r#"<text x="{}" y="{}"{anchor}{style}>{words}</text>"#, pixels(point.x), pixels(point.y)));
    }

    pub fn rectangle(&mut self, from: Point, to: Point, style: &str) {
        let (x, y, width, height) = (pixels(from.x), pixels(from.y), pixels(to.x - from.x), pixels(to.y - from.y));
        self.write(&format!(r#"<rect x="{x}" y="{y}" width="{width}" height="{height}"{style}/>"#));
    }

    /// A line through points.
    pub fn line(&mut self, points: &[Point], style: &str) {
        let points: Vec<String> = points.iter().map(|point| format!("{},{}", pixels(point.x), pixels(point.y))).collect();
        self.write(&format!(r#"<polyline points="{}" fill="none"{style}/>"#, points.join(" ")));
    }
}

fn pixels(tenths: i64) -> String {
    match tenths % 10 {
        0 => (tenths / 10).to_string(),
        rest => format!("{}.{rest}", tenths / 10),
    }
}
