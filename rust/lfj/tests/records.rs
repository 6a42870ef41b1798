//! The records of the samples and of the conformance kit, taken apart and put together again.

mod kit;

use kit::records;
use lfj::{Clause, Expr, Kind};

#[test]
fn clauses_give_their_record_again() {
    for record in records() {
        match Clause::of(&record) {
            Ok(clause) => assert_eq!(clause.record(), Ok(record)),
            Err(refusal) => assert_eq!(lfj::read(&record), Err(refusal), "{record:?}"),
        }
    }
}

#[test]
fn the_facts_are_those_of_the_clause() {
    for record in records() {
        let Ok(clause) = Clause::of(&record) else { continue };
        let facts = lfj::facts(&record).unwrap();
        assert_eq!(facts.goals as usize, clause.goals.len(), "{record:?}");
        for (at, goal) in clause.goals.iter().enumerate() {
            assert_eq!(lfj::goal_text(&record, at as u32 + 1), Ok(goal.text.as_bytes()));
            if clause.version == 1 {
                assert_eq!((goal.ground, goal.ticks), (clause.ground, 1), "{record:?}");
            }
        }
        for (lower, higher) in &clause.independent {
            let listed = |x: &u8, y: &u8| facts.listed[*x as usize] >> y & 1 == 1;
            assert!(listed(lower, higher) && listed(higher, lower), "{record:?}");
        }
    }
}

#[test]
fn the_order_has_the_rows_of_after() {
    for record in records() {
        let order = lfj::order(&record);
        assert_eq!(order.map(|order| order.goals), lfj::read(&record), "{record:?}");
        let Ok(order) = order else { continue };
        for (row, goal) in order.rows.into_iter().zip(1..) {
            assert_eq!(lfj::after(&record, goal).unwrap_or(0), row, "{record:?}, goal {goal}");
            assert!(lfj::members(row).all(|later| order.before(goal, later)), "{record:?}");
        }
        assert!(!order.before(0, 1) && !order.before(1, 0) && !order.before(33, 33));
    }
}

#[test]
fn passes_of_every_record() {
    let mut met = [false; lfj::PASS_LIMIT as usize + 1];
    for record in records() {
        let passes = lfj::passes(&record);
        assert_eq!(passes.map(|_| ()), lfj::read(&record).map(|_| ()), "{record:?}");
        met[passes.unwrap_or(0) as usize] = true;
    }
    // 0 stands for a record that is refused.
    assert_eq!(met, [true; lfj::PASS_LIMIT as usize + 1]);
}

#[test]
fn forms_as_trees() {
    for record in records() {
        let text = lfj::form_text(&record);
        let tree = lfj::form_tree(&record);
        assert_eq!(
            tree.as_ref().map(|tree| format!("{tree:#}")),
            text.as_ref().cloned(),
            "{record:?}"
        );
        let Ok(tree) = tree else { continue };
        assert_eq!(tree.to_string().parse::<Expr>(), Ok(tree.clone()), "{record:?}");
        let same = lfj::check(&record, tree.to_string().as_bytes());
        assert_eq!(same, Ok(lfj::Verdict::Same), "{record:?}");
        let mut goals = tree.goals();
        goals.sort();
        assert!(goals.into_iter().eq(1..=lfj::read(&record).unwrap()), "{record:?}");
    }
}

/// A letter is a good byte of a text and no good length, so that it tells the halves of 9 apart.
#[test]
fn halves_of_refusal_9() {
    let mut met = [0; 2];
    for record in records() {
        let Err(refusal) = lfj::read(&record) else { continue };
        if refusal.kind() != Kind::BadGoalText {
            continue;
        }
        let mut changed = record.clone();
        changed[refusal.place as usize] = b'a';
        let length = lfj::read(&changed) == Err(refusal);
        let half = if length { " has length " } else { " has a byte of value " };
        assert!(refusal.words(&record).contains(half), "{}", refusal.words(&record));
        met[length as usize] += 1;
    }
    assert!(met[0] > 5 && met[1] > 5, "{met:?}");
}
