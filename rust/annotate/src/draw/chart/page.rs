//! The chart as a page: a row a head over a time axis, the numbers of the run, and its goals.

use super::range;
use crate::chart::{Chart, Work};
use crate::draw::page::{BORDER, BOX_HEIGHT, CELL, MARKED};
use crate::draw::svg::{GREY, INK, Pen, Svg};
use crate::draw::texts::{GOAL, HEADING, NUMBER, WORDS, below_title, titled};
use crate::draw::{Point, Rect, Size};

/// The width of the time axis at most, and of a tick.
const WIDE: f64 = 860.0;
const TICK: f64 = 40.0;
/// No goal's box is narrower, or it could not be seen.
const NARROW: f64 = 2.0;
/// Left of the axis: the heads' names.
const LABEL: f64 = 64.0;
/// From the top to the first row: the names of the lines for T and the bound.
const TOP: f64 = 28.0;
/// From row to row, of heads and of goals.
const ROW: f64 = 40.0;
const GOALS: f64 = 30.0;
/// No column of goals has more.
const COLUMN: usize = 16;
/// Between two columns of goals.
const GUTTER: f64 = 40.0;
/// From the end of a number on the axis to the next at least.
const NUMBERS: f64 = 14.0;

const GRID: Pen = Pen { colour: "#d5d8dd", width: 1.0, dashed: false, head: false };
const AXIS: Pen = Pen { colour: GREY, width: 1.2, dashed: false, head: false };
const LAST: Pen = Pen { colour: INK, width: 2.0, dashed: false, head: false };
const BOUND: Pen = Pen { colour: GREY, width: 1.5, dashed: true, head: false };
const CHAIN: Pen = Pen { head: false, ..MARKED };
/// Of a row while its head is idle.
const IDLE: &str = "#f3f4f6";

const WORDS_BELOW: &str = "A row is a head, a box a goal at work, from its first tick to its last; \
                           tick 1 is the first after the start. Thick borders: the goals of a \
                           heaviest chain.";
const WIDENED: &str =
    " Goals of few ticks are drawn wider than they are, or they could not be seen.";

/// The chart as an SVG document.
///
/// ```
/// use annotate::{chart::Chart, draw};
///
/// let clause = lfj::Clause::new(2).head([0, 1]).goal_with_facts("half", [0], [], 2);
/// let clause = clause.goal_with_facts("edge", [1], [], 1).goal_with_facts("join", [0, 1], [], 1);
/// let record = clause.independent(0, 1).record()?;
/// let svg = draw::chart::svg(&Chart::of("a clause", &record, 2)?);
/// assert!(svg.contains("<title>a clause on 2 heads</title>"));
/// assert_eq!(svg.matches("<rect class=\"work\"").count(), 3);
/// # Ok::<(), lfj::ClauseError>(())
/// ```
pub fn svg(chart: &Chart) -> String {
    let tick = (WIDE / f64::from(chart.bound)).min(TICK);
    let mut page = Page { svg: Svg::new(), chart, tick };
    page.svg.origin = below_title(&chart.title);
    let run = page.run();
    page.svg.origin.y += run.height;
    let words = page.words(run.width);
    page.svg.origin.y += words.height;
    let goals = page.goals();
    let width = run.width.max(words.width).max(goals.width);
    let height = run.height + words.height + goals.height;
    titled(page.svg, &chart.title, Size { width, height })
}

/// A page in the making.
struct Page<'a> {
    svg: Svg,
    chart: &'a Chart,
    /// The width of a tick.
    tick: f64,
}

/// A goal's colour: light, and unlike those of the goals before and after it.
fn colour(goal: u32) -> String {
    // Hues that follow each other by the golden angle stay apart however many they are.
    let hue = (f64::from(goal) * 137.508) % 360.0 / 60.0;
    let light = |shift: f64| {
        let near = ((hue + shift) % 6.0 - 3.0).abs() - 1.0;
        (168.0 + 78.0 * near.clamp(0.0, 1.0)) as u8
    };
    format!("#{:02x}{:02x}{:02x}", light(0.0), light(4.0), light(2.0))
}

/// The distance from number to number on an axis: 1, 2 or 5 with zeros, and at least this.
fn step(least: f64) -> u32 {
    let tens = (0..7).map(|zeros| 10u32.pow(zeros));
    let mut steps = tens.flat_map(|ten| [ten, 2 * ten, 5 * ten]);
    steps.find(|step| f64::from(*step) >= least).expect("an axis is not so long")
}

impl Page<'_> {
    /// Where a tick ends.
    fn place(&self, tick: u32) -> f64 {
        LABEL + self.tick * f64::from(tick)
    }

    /// The width of a goal's ticks.
    fn width(&self, work: &Work) -> f64 {
        self.tick * f64::from(work.ticks())
    }

    fn vertical(&mut self, names: &str, x: f64, from: f64, to: f64, pen: Pen) {
        self.svg.line(names, &[Point { x, y: from }, Point { x, y: to }], pen);
    }

    /// The rows over the axis: the size that they take.
    fn run(&mut self) -> Size {
        let (last, bound) = (self.chart.last, self.chart.bound);
        let bottom = TOP + ROW * self.chart.heads as f64;
        self.axis(bottom);
        for (row, head) in (0..self.chart.heads).map(|row| (TOP + ROW * row as f64, row + 1)) {
            let corner = Point { x: LABEL, y: row + (ROW - BOX_HEIGHT) / 2.0 };
            let size = Size { width: self.place(last) - LABEL, height: BOX_HEIGHT };
            self.svg.rect("class=\"idle\"", Rect { corner, size }, IDLE, GRID);
            self.svg.text(0.0, row + ROW / 2.0 + 4.5, &format!("head {head}"), GOAL, false);
        }
        // The thick borders lie over the others.
        let goals = 1..=self.chart.goals.len() as u32;
        let (thick, thin): (Vec<u32>, Vec<u32>) =
            goals.partition(|goal| self.chart.chain.contains(goal));
        thin.into_iter().chain(thick).for_each(|goal| self.work(goal));
        let (end, most) = (self.place(last), self.place(bound));
        self.vertical("class=\"bound\"", most, TOP - 8.0, bottom, BOUND);
        self.vertical("class=\"last\"", end, TOP - 8.0, bottom, LAST);
        let (left, right) = (format!("T = {last}"), format!("T <= {bound}"));
        let left_width = left.len() as f64 * GOAL.advance();
        self.svg.text(end - left_width, TOP - 14.0, &left, NUMBER, false);
        self.svg.text(most.max(end + 12.0), TOP - 14.0, &right, GOAL, false);
        let width = most.max(end + 12.0) + right.len() as f64 * GOAL.advance();
        Size { width, height: bottom + 34.0 }
    }

    /// The axis below the rows, with the ticks that end there, and the lines up from it.
    fn axis(&mut self, bottom: f64) {
        let bound = self.chart.bound;
        let number = bound.to_string().len() as f64 * WORDS.advance() + NUMBERS;
        let step = step(number / self.tick);
        for tick in (0..=bound).step_by(step as usize) {
            let x = self.place(tick);
            self.vertical("class=\"grid\"", x, TOP, bottom + 4.0, GRID);
            self.svg.text(x, bottom + 18.0, &tick.to_string(), WORDS, true);
        }
        let ends = [LABEL, self.place(bound)].map(|x| Point { x, y: bottom });
        self.svg.line("class=\"axis\"", &ends, AXIS);
        self.svg.text(0.0, bottom + 18.0, "ticks", WORDS, false);
    }

    /// The border of a goal's box.
    fn border(&self, goal: u32) -> Pen {
        if self.chart.chain.contains(&goal) { CHAIN } else { BORDER }
    }

    /// A goal at work, with its number and its text as far as there is room.
    fn work(&mut self, goal: u32) {
        let work = &self.chart.goals[goal as usize - 1];
        let x = self.place(work.from - 1);
        let y = TOP + ROW * (work.head as f64 - 1.0) + (ROW - BOX_HEIGHT) / 2.0;
        let width = self.width(work).max(NARROW);
        let rect = Rect { corner: Point { x, y }, size: Size { width, height: BOX_HEIGHT } };
        let names = format!("class=\"work\" id=\"work-{goal}\"");
        self.svg.rect(&names, rect, &colour(goal), self.border(goal));
        let number = goal.to_string();
        let both = format!("{number} {}", work.text);
        let fits = |text: &str| text.len() as f64 * GOAL.advance() + 8.0 <= width;
        let label = [both, number].into_iter().find(|text| fits(text));
        if let Some(label) = label {
            let base = y + BOX_HEIGHT / 2.0 + 4.5;
            self.svg.text(x + width / 2.0, base, &label, GOAL, true);
        }
    }

    /// T, W, C and the bound, and what the picture shows: the size that they take.
    fn words(&mut self, width: f64) -> Size {
        let mut below = Size { width: 0.0, height: 0.0 };
        for (number, words) in self.chart.numbers() {
            let left = self.right_of(&number);
            self.svg.text(0.0, below.height + 14.0, &number, NUMBER, false);
            self.svg.origin.x += left;
            let next = self.svg.write(below.height, &words, GOAL, WIDE - left);
            self.svg.origin.x -= left;
            below = Size { width: below.width.max(left + next.width), height: next.height };
        }
        let bound = self.svg.write(below.height, &self.chart.bound_line(), GOAL, WIDE);
        let width = width.max(below.width).max(bound.width);
        let narrow = self.chart.goals.iter().any(|work| self.width(work) < NARROW);
        let words = format!("{WORDS_BELOW}{}", if narrow { WIDENED } else { "" });
        let words = self.svg.write(bound.height + 8.0, &words, WORDS, width);
        Size { width: width.max(words.width), height: words.height + 28.0 }
    }

    /// From the start of a text to what stands right of it.
    fn right_of(&self, text: &str) -> f64 {
        text.chars().count() as f64 * GOAL.advance() + 16.0
    }

    /// The goals with their colours, as a table: the size that it takes.
    fn goals(&mut self) -> Size {
        let lines = self.chart.goals.iter().map(|work| {
            let at = range(work.from, work.to);
            [work.text.clone(), work.ticks().to_string(), work.head.to_string(), at]
        });
        let lines: Vec<[String; 4]> = lines.collect();
        let names = ["", "ticks", "head", "at work in ticks"].map(String::from);
        // Where each cell of a line starts, and where the last ends.
        let mut starts = vec![CELL + 8.0];
        for cell in 0..4 {
            let widths = lines.iter().chain([&names]).map(|line| self.right_of(&line[cell]));
            starts.push(starts[cell] + widths.fold(0.0, f64::max));
        }
        let width = starts[4];
        for (place, line) in lines.iter().enumerate() {
            let goal = place as u32 + 1;
            let x = (place / COLUMN) as f64 * (width + GUTTER);
            let y = 24.0 + (place % COLUMN) as f64 * GOALS;
            let size = Size { width: CELL, height: GOALS - 6.0 };
            let base = y + size.height / 2.0 + 4.5;
            if place % COLUMN == 0 {
                self.svg.text(x, 12.0, "Goals", HEADING, false);
                for cell in 1..4 {
                    self.svg.text(x + starts[cell], 12.0, &names[cell], GOAL, false);
                }
            }
            let rect = Rect { corner: Point { x, y }, size };
            self.svg.rect("class=\"number\"", rect, &colour(goal), self.border(goal));
            self.svg.text(x + CELL / 2.0, base, &goal.to_string(), NUMBER, true);
            for cell in 0..4 {
                // Numbers end below each other.
                let room = if cell == 0 || cell == 3 { 0 } else { names[cell].len() };
                let shift = room.saturating_sub(line[cell].len()) as f64 * GOAL.advance();
                self.svg.text(x + starts[cell] + shift, base, &line[cell], GOAL, false);
            }
        }
        let columns = lines.len().div_ceil(COLUMN) as f64;
        let height = 24.0 + lines.len().min(COLUMN) as f64 * GOALS;
        Size { width: columns * (width + GUTTER) - GUTTER, height }
    }
}
