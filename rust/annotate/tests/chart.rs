//! The charts of runs: the text whole, what the SVG shows read back from its own elements, and
//! runs too long for a column a tick.

mod elements;

use annotate::chart::Chart;
use annotate::draw::chart::{svg, text};
use elements::{attribute, elements, number};
use lfj::Clause;

/// Goals of these ticks, each after those that share a variable with it; the pairs are all listed.
fn record(goals: &[(u16, &[u8])]) -> Vec<u8> {
    let mut clause = Clause::new(64).head(0..64);
    for (number, (ticks, variables)) in (1..).zip(goals) {
        let name = format!("goal(X{number})");
        clause = clause.goal_with_facts(&name, variables.iter().copied(), [], *ticks);
    }
    let used: Vec<u8> = (0..64).filter(|v| goals.iter().any(|(_, set)| set.contains(v))).collect();
    for (place, one) in used.iter().enumerate() {
        for other in &used[place + 1..] {
            clause = clause.independent(*one, *other);
        }
    }
    clause.record().unwrap()
}

fn chart(goals: &[(u16, &[u8])], heads: usize) -> Chart {
    Chart::of("a clause", &record(goals), heads).unwrap()
}

/// Charts of short and long runs on 1 to 8 heads.
fn charts() -> Vec<Chart> {
    let variables: Vec<Vec<u8>> = (0..32).map(|goal| vec![goal / 2, 16 + goal % 5]).collect();
    let wide = |ticks: fn(u16) -> u16| -> Vec<(u16, &[u8])> {
        (0..32).zip(&variables).map(|(goal, set)| (ticks(goal), &set[..])).collect()
    };
    let one: &[(u16, &[u8])] = &[(1, &[])];
    let clauses = [
        one.to_vec(),
        vec![(60_000, &[])],
        vec![(3, &[0]), (2, &[1]), (4, &[0, 1]), (1, &[2])],
        wide(|_| 1),
        wide(|_| 60_000),
        wide(|goal| 1 + 1000 * (goal % 3)),
    ];
    let all = clauses.iter().flat_map(|clause| (1..=8).map(|heads| chart(clause, heads)));
    all.collect()
}

#[test]
fn a_column_a_tick() {
    let goals: [(u16, &[u8]); 4] = [(3, &[0]), (2, &[1]), (4, &[0, 1]), (1, &[2])];
    let wanted = "\
a clause on 2 heads

  tick    1       5
  head 1  1 1 1 3 3 3 3
  head 2  2 2 4 . . . .

T =  7  the last working tick
W = 10  the ticks of all goals
C =  7  the ticks of the heaviest chain: 1 3
2 x T <= W + 1 x C: 2 x 7 <= 10 + 1 x 7, so T is at most 8

  goal        ticks  head  at work in ticks
* 1 goal(X1)      3     1  1-3
  2 goal(X2)      2     2  1-2
* 3 goal(X3)      4     1  4-7
  4 goal(X4)      1     2  3

* on the heaviest chain
";
    assert_eq!(text(&chart(&goals, 2)), wanted);
}

#[test]
fn ticks_put_together() {
    let goals: [(u16, &[u8]); 3] = [(30, &[0]), (60_000, &[1]), (29, &[0])];
    let drawn = text(&chart(&goals, 2));
    let wanted = "
  tick     1-30  31-59  60-60000
  head 1      1      3         .
  head 2      2      2         2

A column has all ticks in which no head changes";
    assert!(drawn.contains(wanted), "{drawn}");
}

/// The columns of a text chart, as the goal of each head in each of them.
fn columns(text: &str) -> Vec<Vec<u32>> {
    let mut columns: Vec<Vec<u32>> = Vec::new();
    let mut of_head = [0; 8];
    for line in text.lines() {
        let Some(line) = line.strip_prefix("  head ") else { continue };
        let mut words = line.split_whitespace();
        let head = words.next().unwrap().parse::<usize>().unwrap() - 1;
        for word in words {
            if columns.len() == of_head[head] {
                columns.push(Vec::new());
            }
            columns[of_head[head]].push(if word == "." { 0 } else { word.parse().unwrap() });
            of_head[head] += 1;
        }
    }
    columns
}

#[test]
fn the_text_shows_the_run_in_100_columns() {
    let mut both = [0; 2];
    for chart in charts() {
        let drawn = text(&chart);
        assert!(drawn.is_ascii());
        assert_eq!(drawn.lines().find(|line| line.len() > 100), None);
        let together = drawn.contains("A column has all ticks");
        both[together as usize] += 1;
        let spans = chart.spans.iter();
        let times = |ticks: u32| if together { 1 } else { ticks as usize };
        let wanted = spans.flat_map(|span| vec![span.goals.clone(); times(span.ticks)]);
        assert_eq!(columns(&drawn), wanted.collect::<Vec<_>>(), "{drawn}");
    }
    assert!(both[0] > 5 && both[1] > 5, "{both:?}");
}

#[test]
fn each_goal_is_drawn_once_where_it_works() {
    for chart in charts() {
        let svg = svg(&chart);
        let width = number(&svg, "width");
        assert!(width < 1400.0 && number(&svg, "height") < 1400.0);
        let idle = elements(&svg, "idle");
        assert_eq!(idle.len(), chart.heads);
        let first = number(idle[0], "x");
        let tick = number(idle[0], "width") / f64::from(chart.last);
        let drawn = elements(&svg, "work");
        assert_eq!(drawn.len(), chart.goals.len());
        let mut rows = vec![Vec::new(); 8];
        for (goal, work) in (1..).zip(&chart.goals) {
            let id = format!("work-{goal}");
            let rect = drawn.iter().find(|rect| attribute(rect, "id") == id).expect(&id);
            let near = |name: &str, wanted: f64| (number(rect, name) - wanted).abs() < 0.2;
            assert!(near("x", first + tick * f64::from(work.from - 1)), "{rect}");
            let wanted = tick * f64::from(work.ticks());
            assert!(near("width", wanted.max(2.0)), "{rect}");
            assert!(number(rect, "x") + number(rect, "width") < width, "{rect}");
            let chain = chart.chain.contains(&goal);
            assert_eq!(number(rect, "stroke-width") > 2.0, chain, "{rect}");
            rows[work.head - 1].push(number(rect, "y"));
        }
        // One height a head, and another for each.
        let heights = rows.iter().filter_map(|row| {
            assert!(row.windows(2).all(|pair| pair[0] == pair[1]));
            row.first()
        });
        assert!(heights.collect::<Vec<_>>().windows(2).all(|pair| pair[0] < pair[1]));
        let widened = chart.goals.iter().any(|work| tick * f64::from(work.ticks()) < 1.9);
        assert_eq!(svg.contains("drawn wider"), widened, "{}", chart.title);
    }
}

/// The numbers of the axis: those of the small font that stand around their place.
#[test]
fn numbers_of_the_axis_stand_apart() {
    for chart in charts() {
        let svg = svg(&chart);
        let small = |line: &&str| line.contains(" font-size=\"12\" text-anchor=\"middle\"");
        let numbers: Vec<(f64, &str)> = svg
            .lines()
            .filter(small)
            .map(|text| (number(text, "x"), text.split(['<', '>']).nth(2).unwrap()))
            .collect();
        assert!(numbers.len() >= 2 && numbers[0].1 == "0", "{numbers:?}");
        for pair in numbers.windows(2) {
            let letters = pair[0].1.len().max(pair[1].1.len()) as f64;
            assert!(pair[1].0 - pair[0].0 > 12.0 * 0.64 * letters + 4.0, "{pair:?}");
        }
    }
}

/// Goals of a row stand one behind the other, unless one is too short to be seen.
#[test]
fn goals_do_not_overlap() {
    for chart in charts() {
        for (place, one) in chart.goals.iter().enumerate() {
            for other in chart.goals[..place].iter().filter(|other| other.head == one.head) {
                assert!(one.from > other.to || other.from > one.to, "{}", chart.title);
            }
        }
    }
}

#[test]
fn numbers_of_the_run() {
    for chart in charts() {
        let (k, others) = (chart.heads as u32, chart.heads as u32 - 1);
        assert!(k * chart.last <= chart.total + others * chart.heaviest);
        assert!(chart.last <= chart.bound && chart.last >= chart.heaviest);
        let texts = [text(&chart), svg(&chart).replace("&lt;", "<")];
        let line = chart.bound_line();
        assert!(texts.iter().all(|text| text.contains(&line)), "{line}");
        for (number, words) in chart.numbers() {
            assert!(texts[1].contains(&format!(">{number}</text>")), "{number}");
            assert!(texts[0].contains(&format!("{number}  {}", &words[..20])), "{words}");
        }
    }
}
