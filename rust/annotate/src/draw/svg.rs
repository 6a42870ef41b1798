//! Writing the elements of an SVG document, with attributes alone: no script, no style sheet, no
//! font from outside.

use super::{Point, Rect, Size};
use std::fmt::Write;

/// Goal texts and forms: every character has the same width.
const MONO: &str = "DejaVu Sans Mono, Menlo, Consolas, Courier New, monospace";
const SANS: &str = "DejaVu Sans, Verdana, Arial, Helvetica, sans-serif";
pub const INK: &str = "#222222";
/// Of lines.
pub const GREY: &str = "#555555";
/// Of number cells.
pub const PALE: &str = "#e6e9ee";
/// Of the four goals of a clause without a form: apart from the other colours in print too.
pub const MARK: &str = "#c44e00";
pub const PALE_MARK: &str = "#ffe8d6";

/// The length and breadth of an arrow head; so far before its box a line ends.
pub const HEAD: f64 = 8.0;

/// For how much of its way a bend keeps near the direction of its ends.
const BEND: f64 = 0.36;

/// A text's look: its size in px, letters of one width or not, bold or not, its colour.
#[derive(Clone, Copy)]
pub struct Font {
    pub size: f64,
    pub mono: bool,
    pub bold: bool,
    pub colour: &'static str,
}

impl Font {
    /// A character's width: that of fonts of one width, else more than a mean.
    pub fn advance(self) -> f64 {
        self.size * if self.mono || !self.bold { 0.605 } else { 0.75 }
    }
}

/// A line's look.
#[derive(Clone, Copy)]
pub struct Pen {
    pub colour: &'static str,
    pub width: f64,
    pub dashed: bool,
    /// With an arrow head at its end.
    pub head: bool,
}

/// A document's elements, placed from the origin.
pub struct Svg {
    body: String,
    pub origin: Point,
}

/// A number with at most one digit behind the point.
fn px(number: f64) -> f64 {
    (number * 10.0).round() / 10.0 + 0.0
}

/// A text for XML; a character that XML cannot have becomes U+FFFD.
fn escaped(text: &str) -> String {
    let mut out = String::new();
    for sign in text.chars() {
        match sign {
            '&' => out.push_str("&amp;"),
            '<' => out.push_str("&lt;"),
            '>' => out.push_str("&gt;"),
            '"' => out.push_str("&quot;"),
            '\u{fffe}' | '\u{ffff}' => out.push('\u{fffd}'),
            _ if sign.is_control() => out.push('\u{fffd}'),
            _ => out.push(sign),
        }
    }
    out
}

impl Svg {
    pub fn new() -> Svg {
        Svg { body: String::new(), origin: Point { x: 0.0, y: 0.0 } }
    }

    fn put(&mut self, element: std::fmt::Arguments) {
        writeln!(self.body, "{element}").expect("a string takes every text");
    }

    fn place(&self, x: f64, y: f64) -> (f64, f64) {
        (px(self.origin.x + x), px(self.origin.y + y))
    }

    /// `names` are attributes that only name the element.
    pub fn rect(&mut self, names: &str, rect: Rect, fill: &str, pen: Pen) {
        let (x, y) = self.place(rect.corner.x, rect.corner.y);
        let (width, height) = (px(rect.size.width), px(rect.size.height));
        let Pen { colour, width: stroke, .. } = pen;
        self.put(format_args!(
            "<rect {names} x=\"{x}\" y=\"{y}\" width=\"{width}\" height=\"{height}\" rx=\"3\" \
             fill=\"{fill}\" stroke=\"{colour}\" stroke-width=\"{stroke}\"/>"
        ));
    }

    /// The start or the end of the fork-join picture.
    pub fn dot(&mut self, x: f64, y: f64, fill: &str) {
        let (x, y) = self.place(x, y);
        self.put(format_args!(
            "<circle cx=\"{x}\" cy=\"{y}\" r=\"5\" fill=\"{fill}\" stroke=\"{INK}\" \
             stroke-width=\"1.5\"/>"
        ));
    }

    /// An arrow head to the right with its tip there.
    pub fn head(&mut self, tip: Point) {
        let (x, y) = self.place(tip.x - HEAD, tip.y);
        let half = HEAD / 2.0;
        self.put(format_args!(
            "<path d=\"M{x} {y}v-{half}l{HEAD} {half}l-{HEAD} {half}z\" fill=\"{GREY}\"/>"
        ));
    }

    /// A text with its start, or its middle, at x.
    pub fn text(&mut self, x: f64, y: f64, text: &str, font: Font, middle: bool) {
        let (x, y) = self.place(x, y);
        let family = if font.mono { String::new() } else { format!(" font-family=\"{SANS}\"") };
        let weight = if font.bold { " font-weight=\"bold\"" } else { "" };
        let anchor = if middle { " text-anchor=\"middle\"" } else { "" };
        let Font { size, colour, .. } = font;
        let text = escaped(text);
        self.put(format_args!(
            "<text x=\"{x}\" y=\"{y}\"{family} font-size=\"{size}\"{weight}{anchor} \
             fill=\"{colour}\">{text}</text>"
        ));
    }

    /// A line, by its path's data.
    fn path(&mut self, names: &str, data: &str, pen: Pen) {
        let Pen { colour, width, .. } = pen;
        let dashes = if pen.dashed { " stroke-dasharray=\"7 4\"" } else { "" };
        let head = match (pen.head, pen.colour == MARK) {
            (false, _) => "",
            (true, false) => " marker-end=\"url(#head)\"",
            (true, true) => " marker-end=\"url(#marked-head)\"",
        };
        self.put(format_args!(
            "<path {names} d=\"{data}\" fill=\"none\" stroke=\"{colour}\" \
             stroke-width=\"{width}\"{dashes}{head}/>"
        ));
    }

    /// A line straight from point to point.
    pub fn line(&mut self, names: &str, points: &[Point], pen: Pen) {
        let mut data = String::new();
        for point in points {
            let (x, y) = self.place(point.x, point.y);
            let step = if data.is_empty() { 'M' } else { 'L' };
            write!(data, "{step}{x} {y}").expect("a string takes every text");
        }
        self.path(names, &data, pen);
    }

    /// A line bent from the first point to the second, straight to the third, and so on; each bend
    /// starts and ends to the right, or else downwards.
    pub fn bends(&mut self, names: &str, points: &[Point], rightwards: bool, pen: Pen) {
        let (x, y) = self.place(points[0].x, points[0].y);
        let mut data = format!("M{x} {y}");
        for (step, pair) in points.windows(2).enumerate() {
            let (from, to) = (pair[0], pair[1]);
            let (x, y) = self.place(to.x, to.y);
            let (right, down) = (BEND * (to.x - from.x), BEND * (to.y - from.y));
            let (one, two) = if rightwards {
                (self.place(from.x + right, from.y), self.place(to.x - right, to.y))
            } else {
                (self.place(from.x, from.y + down), self.place(to.x, to.y - down))
            };
            let written = match step % 2 {
                0 => write!(data, "C{} {} {} {} {x} {y}", one.0, one.1, two.0, two.1),
                _ => write!(data, "L{x} {y}"),
            };
            written.expect("a string takes every text");
        }
        self.path(names, &data, pen);
    }

    /// The whole document.
    pub fn document(self, title: &str, size: Size) -> String {
        let (width, height) = (size.width.ceil(), size.height.ceil());
        let half = HEAD / 2.0;
        let head = |name: &str, colour: &str| {
            format!(
                "<marker id=\"{name}\" markerUnits=\"userSpaceOnUse\" markerWidth=\"{HEAD}\" \
                 markerHeight=\"{HEAD}\" refX=\"0\" refY=\"{half}\" orient=\"auto\">\
                 <path d=\"M0 0L{HEAD} {half}L0 {HEAD}Z\" fill=\"{colour}\"/></marker>\n"
            )
        };
        format!(
            "<svg xmlns=\"http://www.w3.org/2000/svg\" width=\"{width}\" height=\"{height}\" \
             viewBox=\"0 0 {width} {height}\" font-family=\"{MONO}\" role=\"img\">\n\
             <title>{}</title>\n<defs>\n{}{}</defs>\n\
             <rect width=\"{width}\" height=\"{height}\" fill=\"white\"/>\n{}</svg>\n",
            escaped(title),
            head("head", GREY),
            head("marked-head", MARK),
            self.body
        )
    }
}
