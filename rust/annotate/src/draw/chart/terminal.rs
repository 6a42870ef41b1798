//! The chart for a terminal: plain ASCII, at most 100 columns wide.

use super::range;
use crate::chart::Chart;
use crate::draw::terminal::{COLUMNS, put, title};
use lfj::dispatch::Span;

/// The columns of the label at the left.
const LABEL: usize = 9;

const PUT_TOGETHER: &str = "A column has all ticks in which no head changes; above it stand the \
                            first and the last of them.";

/// The chart as text: a line a head, a column a tick, or a column for all ticks in which no head
/// changes where the ticks are too many.
///
/// ```
/// use annotate::{chart::Chart, draw};
///
/// let clause = lfj::Clause::new(2).head([0, 1]).goal_with_facts("half", [0], [], 2);
/// let clause = clause.goal_with_facts("edge", [1], [], 1).goal_with_facts("join", [0, 1], [], 1);
/// let record = clause.independent(0, 1).record()?;
/// let text = draw::chart::text(&Chart::of("a clause", &record, 2)?);
/// assert!(text.contains("  head 1  1 1 3\n  head 2  2 . .\n"));
/// assert!(text.contains("2 x 3 <= 4 + 1 x 3"));
/// # Ok::<(), lfj::ClauseError>(())
/// ```
pub fn text(chart: &Chart) -> String {
    let mut out = String::new();
    put(&mut out, &title(&chart.title), "");
    out.push('\n');
    let pitch = chart.goals.len().to_string().len() + 1;
    if LABEL + chart.last as usize * pitch <= COLUMNS {
        lines(chart.heads, &ticks(chart, pitch), &mut out);
    } else {
        blocks(chart.heads, &spans(chart), &mut out);
        put(&mut out, PUT_TOGETHER, "");
        out.push('\n');
    }
    for (number, words) in chart.numbers() {
        put(&mut out, &format!("{number}  {words}"), &" ".repeat(number.len() + 2));
    }
    put(&mut out, &chart.bound_line(), "    ");
    out.push('\n');
    goals(chart, &mut out);
    out
}

/// A column: what stands above it, of each head the goal, and how wide it is with the room left of
/// it.
struct Column {
    above: String,
    goals: Vec<u32>,
    pitch: usize,
}

/// A column a tick, the first and every fifth numbered.
fn ticks(chart: &Chart, pitch: usize) -> Vec<Column> {
    let all = chart.spans.iter().flat_map(|span| (0..span.ticks).map(|_| span.goals.clone()));
    let column = |(tick, goals): (u32, Vec<u32>)| {
        let numbered = tick == 1 || tick % 5 == 0;
        Column { above: if numbered { tick.to_string() } else { String::new() }, goals, pitch }
    };
    (1..).zip(all).map(column).collect()
}

/// A column a span, its first and last tick above it.
fn spans(chart: &Chart) -> Vec<Column> {
    let column = |span: &Span| {
        let above = range(span.from, span.from + span.ticks - 1);
        let pitch = 2 + above.len().max(2);
        Column { above, goals: span.goals.clone(), pitch }
    };
    chart.spans.iter().map(column).collect()
}

/// Columns that fit beside each other: a line for the ticks and one a head, then an empty one.
fn lines(heads: usize, columns: &[Column], out: &mut String) {
    let line = |label: &str, cell: &dyn Fn(&Column) -> String| {
        let cells = columns.iter().map(|column| format!("{:>1$}", cell(column), column.pitch));
        let line = format!("  {label:<6} {}", cells.collect::<String>());
        line.trim_end().to_string() + "\n"
    };
    *out += &line("tick", &|column| column.above.clone());
    for head in 0..heads {
        let goal = |column: &Column| match column.goals[head] {
            0 => ".".to_string(),
            goal => goal.to_string(),
        };
        *out += &line(&format!("head {}", head + 1), &goal);
    }
    out.push('\n');
}

/// The same of any columns, as many beside each other as fit.
fn blocks(heads: usize, mut columns: &[Column], out: &mut String) {
    while !columns.is_empty() {
        let widths = columns.iter().scan(LABEL, |width, column| {
            *width += column.pitch;
            Some(*width)
        });
        let fit = widths.take_while(|width| *width <= COLUMNS).count();
        let (block, rest) = columns.split_at(fit);
        lines(heads, block, out);
        columns = rest;
    }
}

/// The goals, where and when each runs, and which are on the heaviest chain.
fn goals(chart: &Chart, out: &mut String) {
    let digits = chart.goals.len().to_string().len();
    let name = |goal: u32, text: &str| format!("{goal:>digits$} {text}");
    let names = (1..).zip(&chart.goals).map(|(goal, work)| name(goal, &work.text));
    let names: Vec<String> = names.collect();
    let longest = names.iter().map(|name| name.len()).max().unwrap_or(0).max(4);
    *out += &format!("  {:longest$}  ticks  head  at work in ticks\n", "goal");
    for (goal, (work, name)) in (1..).zip(chart.goals.iter().zip(names)) {
        let mark = if chart.chain.contains(&goal) { '*' } else { ' ' };
        let (ticks, head, at) = (work.ticks(), work.head, range(work.from, work.to));
        *out += &format!("{mark} {name:longest$}  {ticks:>5}  {head:>4}  {at}\n");
    }
    *out += "\n* on the heaviest chain\n";
}
