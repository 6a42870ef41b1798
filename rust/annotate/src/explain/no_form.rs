//! A clause without a form: the four goals that show it, and what a designer can do.

use super::causes::direct_waits;
use super::waits::reason;
use super::words::{Named, Page};
use super::{new_facts, new_waits, split};

/// The four goals, who waits for whom among them and why.
pub fn in_words(page: &mut Page, named: &Named, four: [u32; 4]) {
    let [a, b, c, d] = four;
    let direct = direct_waits(named.clause);
    page.paragraph(2, "", "No fork-join expression has this order. Four goals show it:");
    for (earlier, later) in [(a, c), (b, c), (b, d)] {
        let (first, second) = (named.goal(earlier), named.goal(later));
        let reason = reason(named, &direct, earlier, later);
        page.paragraph(2, "- ", &format!("{second} waits for {first}: {reason}"));
    }
    let unordered = new_waits::unordered(four);
    let pair = |(one, other)| format!("{} and {}", named.goal(one), named.goal(other));
    let words = format!("no order between {}", unordered.map(pair).join("; "));
    page.paragraph(2, "- ", &words);
    page.paragraph(
        2,
        "",
        "An expression that keeps these three waits always has at least one more among the four. \
         MEL runs the clause anyway; its annotation stands below.",
    );
}

/// What a designer can do.
pub fn advice(page: &mut Page, named: &Named, order: &[u32], four: [u32; 4]) {
    let [a, b, c, d] = four;
    page.paragraph(
        2,
        "",
        "Take a wait away by facts, if they are true; what is ground from a goal on is so just left \
         of it already:",
    );
    new_facts::in_words(page, named, order, &[(a, c), (b, c), (b, d)]);
    page.paragraph(
        2,
        "",
        "Or use an expression that keeps every wait and adds to them; each wait more is two goals \
         that no longer run side by side:",
    );
    new_waits::in_words(page, named, order, four);
    page.paragraph(
        2,
        "",
        "Or split the clause; then every goal behind the split waits for all goals before it:",
    );
    split::in_words(page, named);
}
