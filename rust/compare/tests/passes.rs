//! The closure in passes against the request's sentences, relation by relation: all graphs of waits
//! of few goals, and seeded ones of any size.

use compare::Closed;
use compare::build::Parts;
use compare::generate::{self, Random};
use compare::kit::every_graph;
use std::collections::BTreeSet;

type Relation = BTreeSet<(usize, usize)>;

fn relation(rows: &[u32; 32]) -> Relation {
    let pairs = (1..=32).flat_map(|i| (1..=32).map(move |j| (i, j)));
    pairs.filter(|(i, j)| rows[i - 1] >> (j - 1) & 1 == 1).collect()
}

/// "each adding exactly those waits that a chain of two waits standing at its start gives"
fn added(standing: &Relation) -> Relation {
    let behind = |j: usize| standing.range((j, 0)..(j + 1, 0)).map(|(_, k)| *k);
    let given = standing.iter().flat_map(|(i, j)| behind(*j).map(move |k| (*i, k)));
    given.filter(|wait| !standing.contains(wait)).collect()
}

/// "closed in passes .. and end with the first that adds none"; the number of all of them.
fn closed_in_passes(waits: &Relation) -> (Relation, u32) {
    let (mut standing, mut passes) = (waits.clone(), 1);
    loop {
        let more = added(&standing);
        if more.is_empty() {
            return (standing, passes);
        }
        standing.extend(more);
        passes += 1;
    }
}

/// Holds the closure of a clause against the sentences; gives its number of passes.
fn hold(parts: &Parts) -> u32 {
    let record = parts.record();
    let waits = relation(&compare::waits(&record).unwrap().rows);
    let (order, passes) = closed_in_passes(&waits);
    let closed = compare::order(&record).unwrap();
    assert_eq!((relation(&closed.order.rows), closed.passes), (order, passes), "{waits:?}");
    assert_eq!(compare::passes(&record), Ok(passes));
    // "1 exactly if the waits were closed already, never above 6"
    let closed_already = added(&waits).is_empty();
    assert_eq!(passes == 1, closed_already, "{waits:?}");
    assert!((1..=6).contains(&passes), "{waits:?}");
    passes
}

fn chain(goals: usize) -> Vec<(usize, usize)> {
    (1..goals).map(|goal| (goal, goal + 1)).collect()
}

#[test]
fn every_graph_of_up_to_six_goals() {
    for goals in 1..=6 {
        let most = every_graph(goals).map(|parts| hold(&parts)).max();
        // The chain takes most.
        assert_eq!(most, Some([1, 1, 2, 3, 3, 4][goals - 1]));
    }
}

#[test]
fn chains() {
    // From these numbers of goals on a chain takes one pass more.
    let more = [1, 3, 4, 6, 10, 18];
    let known = |goals: usize| more.iter().filter(|from| goals >= **from).count() as u32;
    for goals in 1..=24 {
        assert_eq!(hold(&Parts::with_waits(goals, &chain(goals)).unwrap()), known(goals));
    }
    // Without one wait it is two chains, and the longer one counts.
    for gap in 1..23 {
        let waits: Vec<_> = chain(23).into_iter().filter(|(i, _)| *i != gap).collect();
        assert_eq!(hold(&Parts::with_waits(23, &waits).unwrap()), known(gap.max(23 - gap)));
    }
}

#[test]
fn waits_that_are_closed_already() {
    for goals in 1..=32 {
        assert_eq!(hold(&Parts::over(1, &vec![1; goals])), 1);
        assert_eq!(hold(&Parts::over(1, &vec![0; goals])), 1);
    }
    for parts in [Parts::longest_form(), Parts::without_form(32), Parts::longest_wide_record()] {
        assert_eq!(hold(&parts), 1);
    }
}

#[test]
fn seeded_graphs() {
    let mut random = Random::new(41);
    let mut met = [0; 7];
    for _ in 0..4000 {
        let goals = random.between(5, 22);
        let (many, whole) = random.pick(&[(1, 40), (1, 20), (1, 8), (1, 3), (3, 4)]);
        let pairs = (1..=goals).flat_map(|i| (i + 1..=goals).map(move |j| (i, j)));
        let waits: Vec<_> = pairs.filter(|_| random.chance(many, whole)).collect();
        met[hold(&Parts::with_waits(goals, &waits).unwrap()) as usize] += 1;
    }
    for case in 0..6000 {
        let parts = match case % 2 {
            0 => generate::clause(&mut random),
            _ => generate::chained(&mut random),
        };
        met[hold(&parts) as usize] += 1;
    }
    assert!(met[1..].iter().all(|count| *count >= 40), "{met:?}");
}

/// "6 are reached from a chain of 18 goals on": fewer goals never take so many.
#[test]
fn fewer_than_18_goals_take_at_most_five() {
    let mut random = Random::new(42);
    for _ in 0..3000 {
        let parts = generate::chained(&mut random);
        if parts.goals.len() < 18 {
            assert!(hold(&parts) <= 5);
        }
    }
}

/// A refused record has no number.
#[test]
fn refused_records() {
    let record = Parts::over(1, &[1; 3]).record();
    for length in 0..record.len() {
        let refusal = compare::read(&record[..length]).unwrap_err();
        assert_eq!(compare::passes(&record[..length]), Err(refusal));
        assert_eq!(compare::order(&record[..length]), Err::<Closed, _>(refusal));
    }
}
