//! The pictures: what is drawn, read back from the SVG's own elements, and the text whole.

mod elements;

use annotate::{draw, scene::Scene};
use elements::{attribute, elements, number};
use lfj::Expr;
use std::collections::BTreeSet;

/// Pseudo-random numbers (SplitMix64).
struct Random(u64);

impl Random {
    fn below(&mut self, limit: u64) -> u64 {
        self.0 = self.0.wrapping_add(0x9e37_79b9_7f4a_7c15);
        let mut mixed = self.0;
        mixed = (mixed ^ mixed >> 30).wrapping_mul(0xbf58_476d_1ce4_e5b9);
        mixed = (mixed ^ mixed >> 27).wrapping_mul(0x94d0_49bb_1331_11eb);
        (mixed ^ mixed >> 31) % limit
    }

    /// An order on so many goals, in which each pair is related with the chance 1 in `rare`, or
    /// more often, since it is closed.
    fn order(&mut self, goals: usize, rare: u64) -> Vec<u32> {
        let mut order = vec![0u32; goals];
        for i in (0..goals).rev() {
            for j in i + 1..goals {
                if self.below(rare) == 0 {
                    order[i] |= 1 << j | order[j];
                }
            }
        }
        order
    }

    /// A fork-join expression of goals `from` to `to`, of one kind, with parts of the other.
    fn form(&mut self, from: u32, to: u32, sequence: bool) -> Expr {
        if from == to {
            return Expr::Goal(from);
        }
        let mut parts = Vec::new();
        let mut start = from;
        while start <= to {
            let most = if parts.is_empty() { to - from } else { to - start + 1 };
            let end = start + self.below(most.into()) as u32;
            parts.push(self.form(start, end, !sequence));
            start = end + 1;
        }
        if sequence { Expr::Sequence(parts) } else { Expr::Parallel(parts) }
    }
}

/// The goals of an expression as a set; adds its order to the rows.
fn induce(form: &Expr, order: &mut [u32]) -> u32 {
    let parts = match form {
        Expr::Goal(goal) => return 1 << (goal - 1),
        Expr::Sequence(parts) | Expr::Parallel(parts) => parts,
    };
    let mut met = 0;
    for part in parts {
        let goals = induce(part, order);
        if matches!(form, Expr::Sequence(_)) {
            lfj::members(met).for_each(|goal| order[goal as usize - 1] |= goals);
        }
        met |= goals;
    }
    met
}

fn is_before(order: &[u32], i: u32, j: u32) -> bool {
    order[i as usize - 1] >> (j - 1) & 1 == 1
}

fn scene(goals: Vec<String>, order: Vec<u32>, form: Option<Expr>) -> Scene {
    let form_text = form.as_ref().map_or(String::new(), |form| format!("{form:#}"));
    Scene { title: "a clause".to_string(), goals, order, form, form_text, four: None }
}

fn names(count: usize) -> Vec<String> {
    (1..=count).map(|goal| format!("goal(X{goal})")).collect()
}

fn scene_of_form(form: Expr) -> Scene {
    let count = form.goals().len();
    let mut order = vec![0; count];
    induce(&form, &mut order);
    scene(names(count), order, Some(form))
}

/// The four goals that show that an order has no form, if there are such.
fn four(order: &[u32]) -> Option<[u32; 4]> {
    let goals = 1..=order.len() as u32;
    let apart = |i, j| i != j && !is_before(order, i, j) && !is_before(order, j, i);
    for a in goals.clone() {
        for b in goals.clone().filter(|b| apart(a, *b)) {
            for c in goals.clone().filter(|c| is_before(order, a, *c) && is_before(order, b, *c)) {
                let is_d = |d: &u32| is_before(order, b, *d) && apart(a, *d) && apart(c, *d);
                if let Some(d) = goals.clone().find(is_d) {
                    return Some([a, b, c, d]);
                }
            }
        }
    }
    None
}

/// The scene of an order without a form, or none.
fn scene_of_order(order: Vec<u32>) -> Option<Scene> {
    let four = Some(four(&order)?);
    Some(Scene { four, ..scene(names(order.len()), order, None) })
}

/// Scenes with a form and without, of up to 32 goals.
fn scenes() -> Vec<Scene> {
    let mut random = Random(20);
    let mut scenes = Vec::new();
    for round in 0..40 {
        let goals = if round % 4 == 0 { 32 } else { 1 + random.below(32) as u32 };
        let form = random.form(1, goals, round % 2 == 0);
        scenes.push(scene_of_form(form));
        let rare = [2, 4, 8, 16, 40][round % 5];
        scenes.extend(scene_of_order(random.order(goals as usize, rare)));
    }
    let list =
        |from: u32, to, sign| (from..=to).map(|g| g.to_string()).collect::<Vec<_>>().join(sign);
    let bipartite = format!("({}),({})", list(1, 16, "&"), list(17, 32, "&"));
    for form in [list(1, 32, ","), list(1, 32, "&"), bipartite] {
        scenes.push(scene_of_form(form.parse().unwrap()));
    }
    scenes
}

/// Left, top, right, bottom.
fn edges(rect: &str) -> [f64; 4] {
    let (x, y) = (number(rect, "x"), number(rect, "y"));
    [x, y, x + number(rect, "width"), y + number(rect, "height")]
}

/// The pairs of goals in ids such as line-3-7.
fn pairs(svg: &str, class: &str) -> Vec<(u32, u32)> {
    let pair = |element: &&str| {
        let id = attribute(element, "id");
        let (from, to) = id.strip_prefix(&format!("{class}-"))?.split_once('-')?;
        Some((from.parse().ok()?, to.parse().ok()?))
    };
    elements(svg, class).iter().map(|element| pair(element).expect("two goals")).collect()
}

fn boxes<'a>(svg: &'a str, half: &str) -> Vec<(u32, &'a str)> {
    let goal = |rect: &&'a str| {
        let goal = attribute(rect, "id").strip_prefix(&format!("{half}-"))?;
        Some((goal.parse().expect("a goal"), *rect))
    };
    elements(svg, "box").iter().filter_map(goal).collect()
}

#[test]
fn each_line_of_the_reduction_is_drawn_once_and_no_other() {
    for scene in scenes() {
        let svg = draw::svg(&scene);
        let order = &scene.order;
        let goals = 1..=order.len() as u32;
        let direct = |i, j| {
            let between = |k| is_before(order, i, k) && is_before(order, k, j);
            is_before(order, i, j) && !goals.clone().any(between)
        };
        let all = goals.clone().flat_map(|i| goals.clone().map(move |j| (i, j)));
        let wanted: Vec<(u32, u32)> = all.filter(|(i, j)| direct(*i, *j)).collect();
        let mut drawn = pairs(&svg, "line");
        drawn.sort();
        assert_eq!(drawn, wanted);
        let relations = scene.four.map_or(Vec::new(), |[a, b, c, d]| vec![(a, c), (b, c), (b, d)]);
        let dashed: BTreeSet<_> = pairs(&svg, "through").into_iter().collect();
        let through = relations.into_iter().filter(|pair| !wanted.contains(pair)).collect();
        assert_eq!(dashed, through);
    }
}

#[test]
fn every_goal_stands_once_in_each_half() {
    for scene in scenes() {
        let svg = draw::svg(&scene);
        let goals = |half| boxes(&svg, half).iter().map(|(goal, _)| *goal).collect::<Vec<u32>>();
        let all: Vec<u32> = (1..=scene.goals.len() as u32).collect();
        assert_eq!(goals("graph"), all);
        let mut form = goals("form");
        form.sort();
        assert_eq!(form, if scene.form.is_some() { all } else { Vec::new() });
        assert_eq!(goals("four"), scene.four.map_or(Vec::new(), Vec::from));
    }
}

#[test]
fn the_four_goals_and_their_relations_are_marked() {
    for scene in scenes() {
        let svg = draw::svg(&scene);
        let relations = scene.four.map_or(Vec::new(), |[a, b, c, d]| vec![(a, c), (b, c), (b, d)]);
        // In the graph and beside it.
        assert_eq!(elements(&svg, "letter").len(), 2 * scene.four.map_or(0, |four| four.len()));
        assert_eq!(elements(&svg, "relation").len(), relations.len());
        for class in ["line", "through"] {
            for (pair, path) in pairs(&svg, class).iter().zip(elements(&svg, class)) {
                assert_eq!(path.contains("marked-head"), relations.contains(pair));
                assert_eq!(path.contains("stroke-dasharray"), class == "through");
            }
        }
    }
}

#[test]
fn boxes_stand_apart_and_inside() {
    for scene in scenes() {
        let svg = draw::svg(&scene);
        let view: Vec<f64> =
            attribute(&svg, "viewBox").split(' ').map(|side| side.parse().unwrap()).collect();
        assert!(view[2] < 4000.0 && view[3] < 4000.0, "{view:?}");
        let rects: Vec<[f64; 4]> = elements(&svg, "box").iter().map(|rect| edges(rect)).collect();
        for (place, rect) in rects.iter().enumerate() {
            assert!(rect[0] >= 0.0 && rect[1] >= 0.0 && rect[2] <= view[2] && rect[3] <= view[3]);
            for other in &rects[..place] {
                let beside = rect[2] < other[0] || other[2] < rect[0];
                assert!(beside || rect[3] < other[1] || other[3] < rect[1], "{}", scene.form_text);
            }
        }
    }
}

/// Points on a path of M, C and L.
fn points(path: &str) -> Vec<(f64, f64)> {
    let steps = attribute(path, "d").replace('C', "\nC").replace('L', "\nL");
    let mut points: Vec<(f64, f64)> = Vec::new();
    for step in steps.lines() {
        let ends: Vec<f64> = step[1..].split(' ').map(|text| text.parse().unwrap()).collect();
        let to = (ends[ends.len() - 2], ends[ends.len() - 1]);
        let from = points.last().copied().unwrap_or(to);
        let (one, two) = match ends.len() {
            6 => ((ends[0], ends[1]), (ends[2], ends[3])),
            _ => (from, to),
        };
        for part in 0..=50 {
            let (t, s) = (f64::from(part) / 50.0, 1.0 - f64::from(part) / 50.0);
            let weights = [s * s * s, 3.0 * t * s * s, 3.0 * t * t * s, t * t * t];
            let mix = |side: fn((f64, f64)) -> f64| {
                [from, one, two, to].map(side).iter().zip(weights).map(|(x, w)| x * w).sum()
            };
            points.push((mix(|point| point.0), mix(|point| point.1)));
        }
    }
    points
}

#[test]
fn no_line_runs_through_a_box() {
    for scene in scenes() {
        let svg = draw::svg(&scene);
        let kinds =
            [("line", "graph"), ("through", "graph"), ("flow", "form"), ("relation", "four")];
        for (class, half) in kinds {
            let rects: Vec<_> = boxes(&svg, half).iter().map(|(_, rect)| edges(rect)).collect();
            for path in elements(&svg, class) {
                for (x, y) in points(path) {
                    let within = |low, here, high| low + 0.2 < here && here < high - 0.2;
                    let inside = |rect: &&[f64; 4]| {
                        within(rect[0], x, rect[2]) && within(rect[1], y, rect[3])
                    };
                    assert_eq!(rects.iter().find(inside), None, "{path}");
                }
            }
        }
    }
}

#[test]
fn a_line_leads_to_a_later_layer() {
    for scene in scenes() {
        let svg = draw::svg(&scene);
        let rects = boxes(&svg, "graph");
        let corner = |goal: u32| edges(rects[goal as usize - 1].1);
        let rightwards = |pair: &(u32, u32)| corner(pair.0)[2] < corner(pair.1)[0];
        let downwards = |pair: &(u32, u32)| corner(pair.0)[3] < corner(pair.1)[1];
        let lines = pairs(&svg, "line");
        assert!(lines.iter().all(rightwards) || lines.iter().all(downwards));
    }
}

/// How many groups an expression has.
fn groups(form: &Expr) -> usize {
    match form {
        Expr::Goal(_) => 0,
        Expr::Sequence(parts) => parts.iter().map(groups).sum(),
        Expr::Parallel(parts) => 1 + parts.iter().map(groups).sum::<usize>(),
    }
}

#[test]
fn in_the_form_a_goal_stands_left_of_those_that_wait_or_in_a_row_above() {
    for scene in scenes() {
        let Some(form) = &scene.form else { continue };
        let svg = draw::svg(&scene);
        assert_eq!(elements(&svg, "bar").len(), 2 * groups(form));
        let rects = boxes(&svg, "form");
        for (i, one) in &rects {
            for (j, other) in rects.iter().filter(|(j, _)| is_before(&scene.order, *i, *j)) {
                let (one, other) = (edges(one), edges(other));
                assert!(one[2] < other[0] || one[3] < other[1], "{i} {j} {}", scene.form_text);
            }
        }
    }
}

#[test]
fn in_the_form_a_line_leads_to_each_box_and_one_away() {
    let near = |a: &(f64, f64), b: (f64, f64)| (a.0 - b.0).abs() < 0.2 && (a.1 - b.1).abs() < 0.2;
    for scene in scenes() {
        let svg = draw::svg(&scene);
        let lines: Vec<_> = elements(&svg, "flow").iter().map(|path| points(path)).collect();
        for (goal, rect) in boxes(&svg, "form") {
            let [left, top, right, bottom] = edges(rect);
            let middle = (top + bottom) / 2.0;
            let leads = |line: &Vec<_>| near(&line[line.len() - 1], (left, middle));
            let leaves = |line: &Vec<_>| near(&line[0], (right, middle));
            assert!(lines.iter().any(leads) && lines.iter().any(leaves), "{goal}");
        }
    }
}

#[test]
fn texts_are_escaped_and_nothing_is_from_outside() {
    let goals = vec!["<&\">'(X,Y)".to_string(), "next".to_string()];
    let title = "a < b & \"c\"\u{1}".to_string();
    let svg = draw::svg(&Scene { title, ..scene(goals, vec![0b10, 0], "1,2".parse().ok()) });
    assert!(svg.contains(">&lt;&amp;&quot;&gt;'(X,Y)</text>"));
    assert!(svg.contains("<title>a &lt; b &amp; &quot;c&quot;\u{fffd}</title>"));
    for outside in ["<script", "<style", "href", "@import"] {
        assert!(!svg.contains(outside));
    }
}

#[test]
fn texts_are_legible_and_fit() {
    let goals = vec!["WWWWWWWWWWWWWWWWWWWWWWWW".to_string()];
    let title = "a title of many words ".repeat(20);
    let svg = draw::svg(&Scene { title, ..scene(goals, vec![0], "1".parse().ok()) });
    let end = number(&svg, "width");
    // A letter is about 0.6 of its size wide.
    for text in svg.lines().filter(|line| line.starts_with("<text")) {
        let size = number(text, "font-size");
        assert!(size >= 11.0, "{text}");
        let letters = text.split(['<', '>']).nth(2).map_or(0, |text| text.chars().count());
        assert!(number(text, "x") + 0.6 * size * letters as f64 <= end, "{text}");
    }
    // A cell for the number, and the letters with room at both sides.
    for (_, rect) in boxes(&svg, "graph").iter().chain(&boxes(&svg, "form")) {
        assert!(number(rect, "width") >= 26.0 + 8.0 + 24.0 * 0.6 * 13.0 + 4.0);
    }
}

#[test]
fn the_text_keeps_to_100_columns() {
    for mut scene in scenes() {
        scene.goals.iter_mut().for_each(|goal| *goal = format!("{goal:x<24}"));
        let text = draw::text(&scene);
        assert!(text.is_ascii());
        assert_eq!(text.lines().find(|line| line.len() > 100), None);
    }
}

#[test]
fn text_with_a_form() {
    let goals = ["half", "edge", "join"].map(String::from).to_vec();
    let scene = scene(goals, vec![0b100, 0b100, 0], "(1&2),3".parse().ok());
    let text = "\
a clause

  goal    waits directly for
  1 half  -
  2 edge  -
  3 join  1 2

form (1&2),3

From top to bottom; branches between fork and join run side by side:

  fork
  +- 1 half
  +- 2 edge
  join
  3 join
";
    assert_eq!(draw::text(&scene), text);
}

#[test]
fn text_without_a_form() {
    let goals = ["trim(A)", "picot(B)", "braid(C)", "close(D)"].map(String::from).to_vec();
    let scene = scene(goals, vec![0b0100, 0b1100, 0, 0], None);
    let text = "\
a clause

  goal        waits directly for
a 1 trim(A)   -
b 2 picot(B)  -
c 3 braid(C)  1 2
d 4 close(D)  2

form none 1 2 3 4

No fork-join expression has this order. Goals a, b, c and d show it: c waits for a and b, d waits
for b but not for a, and there is no other wait among the four.

  a 1 trim(A)   --------->  c 3 braid(C)
                      __/
                   __/
  b 2 picot(B)  --------->  d 4 close(D)
";
    assert_eq!(draw::text(&Scene { four: Some([1, 2, 3, 4]), ..scene }), text);
}
