//! The texts of a page: its title, and words in lines.

use super::svg::{Font, INK, Svg};
use super::{Point, Size, lines};

const MARGIN: f64 = 24.0;
/// From one line of text to the next, and of the title.
const LEADING: f64 = 18.0;
const TITLE_LEADING: f64 = 24.0;
/// A longer title is cut.
const TITLE_COLUMNS: usize = 80;
/// A line of text is not cut below this width.
const TEXT_WIDTH: f64 = 340.0;

const TITLE: Font = Font { size: 18.0, mono: false, bold: true, colour: INK };
pub const HEADING: Font = Font { size: 14.0, mono: false, bold: true, colour: INK };
pub const WORDS: Font = Font { size: 12.0, mono: false, bold: false, colour: INK };
pub const GOAL: Font = Font { size: 13.0, mono: true, bold: false, colour: INK };
pub const NUMBER: Font = Font { size: 13.0, mono: true, bold: true, colour: INK };

fn title_lines(title: &str) -> Vec<String> {
    lines(title, TITLE_COLUMNS, |sign| sign == ' ')
}

/// Where what stands below this title starts.
pub fn below_title(title: &str) -> Point {
    let height = title_lines(title).len() as f64 * TITLE_LEADING;
    Point { x: MARGIN, y: MARGIN + 12.0 + height }
}

/// The whole document: below its title elements that take so much room.
pub fn titled(mut svg: Svg, title: &str, room: Size) -> String {
    let lines = title_lines(title);
    svg.origin = Point { x: MARGIN, y: MARGIN };
    let longest = lines.iter().map(|line| line.chars().count()).max().unwrap_or(0);
    for (row, line) in (0..).zip(&lines) {
        svg.text(0.0, 16.0 + TITLE_LEADING * f64::from(row), line, TITLE, false);
    }
    let width = room.width.max(longest as f64 * TITLE.advance()) + 2.0 * MARGIN;
    let height = below_title(title).y + room.height + MARGIN;
    svg.document(title, Size { width, height })
}

impl Svg {
    /// Lines of text from this height on, within this width or `TEXT_WIDTH`; the width that they
    /// take and the height below them.
    pub fn write(&mut self, y: f64, text: &str, font: Font, width: f64) -> Size {
        let most = (width.max(TEXT_WIDTH) / font.advance()) as usize;
        let ends: fn(char) -> bool =
            if font.mono { |sign| matches!(sign, ' ' | ',' | '&') } else { |sign| sign == ' ' };
        let mut size = Size { width: 0.0, height: y };
        for line in lines(text, most, ends) {
            size.width = size.width.max(line.chars().count() as f64 * font.advance());
            size.height += LEADING;
            self.text(0.0, size.height - 4.0, &line, font, false);
        }
        size
    }
}
