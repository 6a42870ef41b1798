//! The dispatcher against its rule, written out here, on the records of the samples and of the
//! kit; its refusals; runs.

mod kit;

use lfj::dispatch::{HEADS_LIMIT, Head, Run, Span, start, tick, words};
use lfj::{Clause, Kind, members};

/// What the rule asks of a clause: of each goal its predecessors, as a set, and its ticks.
struct Rule {
    before: Vec<u32>,
    ticks: Vec<u32>,
}

impl Rule {
    fn of(record: &[u8]) -> Rule {
        let (order, facts) = (lfj::order(record).unwrap(), lfj::facts(record).unwrap());
        let goals = 1..=order.goals;
        let before = |goal| goals.clone().filter(move |i| order.before(*i, goal));
        Rule {
            before: goals.clone().map(|goal| before(goal).map(|i| 1 << (i - 1)).sum()).collect(),
            ticks: facts.ticks[..order.goals as usize].to_vec(),
        }
    }

    /// One tick: of each head the goal that it worked at.
    fn tick(&self, heads: &mut [Head], ended: &mut u32) -> Vec<u32> {
        let at_start = *ended;
        for head in 0..heads.len() {
            let on_head = |goal| heads.iter().any(|head| head.goal == goal);
            let free = |goal: &u32| {
                let waits = self.before[*goal as usize - 1] & !at_start != 0;
                !waits && at_start >> (goal - 1) & 1 == 0 && !on_head(*goal)
            };
            let taken = (1..=self.ticks.len() as u32).find(free);
            if let (true, Some(goal)) = (heads[head].goal == 0, taken) {
                heads[head] = Head { goal, left: self.ticks[goal as usize - 1] };
            }
        }
        let worked = heads.iter().map(|head| head.goal).collect();
        for head in heads.iter_mut().filter(|head| head.goal != 0) {
            head.left -= 1;
            if head.left == 0 {
                *ended |= 1 << (head.goal - 1);
                head.goal = 0;
            }
        }
        worked
    }
}

/// The accepted records with the ticks of all their goals.
fn accepted() -> Vec<(Vec<u8>, u32)> {
    let total = |record: &[u8]| Some(lfj::facts(record).ok()?.ticks.iter().sum());
    let records = kit::records().into_iter();
    records.filter_map(|record| total(&record).map(|total| (record, total))).collect()
}

#[test]
fn every_tick_does_what_the_rule_says() {
    let mut ticks = 0;
    for (record, _) in accepted().into_iter().filter(|(_, total)| *total <= 500) {
        let rule = Rule::of(&record);
        for count in 1..=HEADS_LIMIT {
            let mut heads = vec![Head { goal: 3, left: 70_000 }; count];
            let mut ended = start(&record, &mut heads).unwrap();
            assert_eq!((&heads, ended), (&vec![Head::IDLE; count], 0));
            let (mut row, mut set) = (heads.clone(), ended);
            let mut run = Run::start(&record, count).unwrap();
            while members(set).count() < rule.ticks.len() {
                let worked = rule.tick(&mut row, &mut set);
                ended = tick(&record, &mut heads, ended).unwrap();
                assert_eq!((&heads, ended), (&row, set), "{record:?}");
                assert_eq!(run.next(), Some(worked), "{record:?}");
                assert_eq!((run.heads(), run.ended()), (&row[..], set), "{record:?}");
                ticks += 1;
            }
            assert_eq!(tick(&record, &mut heads, ended), Ok(ended), "{record:?}");
            assert_eq!(heads, vec![Head::IDLE; count], "{record:?}");
            assert_eq!((run.next(), run.is_over()), (None, true));
        }
    }
    assert!(ticks > 10_000, "{ticks} ticks");
}

fn spans(mut run: Run) -> Vec<Span> {
    std::iter::from_fn(|| run.span()).collect()
}

#[test]
fn spans_are_the_ticks_put_together() {
    let mut shorter = 0;
    for (record, _) in accepted().into_iter().filter(|(_, total)| *total <= 5000) {
        for count in 1..=HEADS_LIMIT {
            let run = Run::start(&record, count).unwrap();
            let spans = spans(run.clone());
            let ticks: Vec<Vec<u32>> = run.clone().collect();
            let repeated = |span: &Span| vec![span.goals.clone(); span.ticks as usize];
            assert_eq!(spans.iter().flat_map(repeated).collect::<Vec<_>>(), ticks, "{record:?}");
            let mut from = 1;
            for span in &spans {
                assert_eq!(span.from, from, "{record:?}");
                from += span.ticks;
            }
            shorter += (spans.len() < ticks.len()) as usize;
        }
    }
    assert!(shorter > 50, "{shorter} runs with a span of several ticks");
}

/// The weight of the heaviest chain of goals that starts with `goal`, by all chains.
fn heaviest_from(order: &lfj::Order, ticks: &[u32], goal: u32) -> u32 {
    let next = members(order.rows[goal as usize - 1]);
    let heaviest = next.map(|next| heaviest_from(order, ticks, next)).max();
    ticks[goal as usize - 1] + heaviest.unwrap_or(0)
}

#[test]
fn every_run_keeps_to_the_order_and_the_bound() {
    let mut long = 0;
    for (record, total) in accepted() {
        let (order, facts) = (lfj::order(&record).unwrap(), lfj::facts(&record).unwrap());
        for count in 1..=HEADS_LIMIT {
            let mut run = Run::start(&record, count).unwrap();
            let (mut work, mut ended) = ([0; lfj::GOAL_LIMIT], 0);
            while let Some(span) = run.span() {
                let busy: Vec<u32> = span.goals.into_iter().filter(|goal| *goal != 0).collect();
                assert!(!busy.is_empty(), "{record:?}");
                for goal in busy {
                    work[goal as usize - 1] += span.ticks;
                    let waits = (1..goal).filter(|before| order.before(*before, goal));
                    assert!(waits.into_iter().all(|before| ended >> (before - 1) & 1 == 1));
                }
                ended = run.ended();
            }
            assert_eq!((work, run.total_ticks()), (facts.ticks, total), "{record:?}");
            let (k, t, c) = (count as u32, run.ticks(), run.chain_ticks());
            assert!(k * t <= total + (k - 1) * c && t <= run.bound(), "{record:?}");
            assert!(t >= c && k * t >= total, "{record:?}");
            let pairs = run.chain_goals().windows(2);
            assert!(pairs.into_iter().all(|pair| order.before(pair[0], pair[1])), "{record:?}");
            let weights = run.chain_goals().iter().map(|goal| facts.ticks[*goal as usize - 1]);
            let weight: u32 = weights.sum();
            assert_eq!(c, weight, "{record:?}");
            if order.goals <= 12 {
                let chains =
                    (1..=order.goals).map(|goal| heaviest_from(&order, &facts.ticks, goal));
                assert_eq!(Some(c), chains.max(), "{record:?}");
            }
            long += (t > 60_000) as usize;
        }
    }
    assert!(long > 0, "no long run");
}

/// Goals 1, 2, then 3, then 4 of 5, 6, 7 and 8 ticks.
fn clause() -> Vec<u8> {
    let clause = Clause::new(2).head([0, 1]).independent(0, 1);
    let clause = clause.goal_with_facts("a", [0], [], 5).goal_with_facts("b", [1], [], 6);
    let clause = clause.goal_with_facts("c", [0, 1], [], 7);
    clause.goal_with_facts("d", [0, 1], [], 8).record().unwrap()
}

#[test]
fn rows_of_0_and_9_heads() {
    let record = clause();
    for count in [0, 9, 100] {
        let mut heads = vec![Head { goal: 1, left: 1 }; count];
        for refused in [start(&record, &mut heads), tick(&record, &mut heads, 0)] {
            let refusal = refused.unwrap_err();
            assert_eq!((refusal.kind(), refusal.place), (Kind::BadHeads, 0));
        }
        assert_eq!(heads, vec![Head { goal: 1, left: 1 }; count]);
        assert_eq!(Run::start(&record, count).unwrap_err().kind(), Kind::BadHeads);
    }
    assert_eq!(Run::start(&record, usize::MAX).unwrap_err().kind(), Kind::BadHeads);
}

#[test]
fn a_refused_record_comes_first() {
    let mut record = clause();
    record.push(0);
    let refusal = lfj::read(&record).unwrap_err();
    for count in [0, 2, 9] {
        let mut heads = vec![Head { goal: 9, left: 9 }; count];
        assert_eq!(start(&record, &mut heads), Err(refusal));
        assert_eq!(tick(&record, &mut heads, u32::MAX), Err(refusal));
        assert_eq!(heads, vec![Head { goal: 9, left: 9 }; count]);
    }
    assert_eq!(Run::start(&record, 9).unwrap_err(), refusal);
}

/// Rows and sets, and what is said of each that a tick refuses.
#[test]
fn rows_and_sets_that_a_tick_refuses() {
    let record = clause();
    let head = |goal, left| Head { goal, left };
    let idle = Head::IDLE;
    let cases: [(&[Head], u32, &str); 22] = [
        (&[idle, idle], 0, ""),
        (&[idle, head(1, 5)], 0, ""),
        (&[head(2, 6), head(1, 1)], 0, ""),
        (&[idle, idle], 0b1111, ""),
        (&[head(4, 8)], 0b0111, ""),
        (&[idle; 9], 0, "the row has 9 heads; 1 to 8 is right"),
        (&[head(5, 1)], 0, "head 1 has goal 5; the clause has 4"),
        (&[idle, head(33, 1)], 0, "head 2 has goal 33; the clause has 4"),
        (&[head(u32::MAX, 1)], 0, "head 1 has goal 4294967295; the clause has 4"),
        (&[head(1, 5), head(1, 5)], 0, "head 2 has goal 1, and so has head 1"),
        (&[idle, head(1, 5), head(1, 4)], 0, "head 3 has goal 1, and so has head 2"),
        (&[head(1, 5)], 0b0001, "head 1 has goal 1, which has ended"),
        (&[head(1, 0)], 0, "head 1 has 0 ticks left of goal 1; 1 to 5 is right"),
        (&[head(1, 6)], 0, "head 1 has 6 ticks left of goal 1; 1 to 5 is right"),
        (&[head(1, u32::MAX)], 0, "head 1 has 4294967295 ticks left of goal 1; 1 to 5 is right"),
        (&[head(0, 1)], 0, "head 1 is idle and has 1 ticks left; 0 is right"),
        (&[head(1, 5), head(0, 5)], 0, "head 2 is idle and has 5 ticks left; 0 is right"),
        (&[idle], 0b10000, "goal 5 has ended; the clause has 4"),
        (&[idle], 1 << 31, "goal 32 has ended; the clause has 4"),
        (&[head(3, 7)], 1, "head 1 has goal 3, which waits for goal 2, which has not ended"),
        (&[idle], 0b0100, "goal 3 has ended, and goal 1, for which it waits, has not"),
        (&[idle], 0b1011, "goal 4 has ended, and goal 3, for which it waits, has not"),
    ];
    for (row, ended, said) in cases {
        let mut heads = row.to_vec();
        let answer = tick(&record, &mut heads, ended);
        assert_eq!(answer.is_ok(), said.is_empty(), "{row:?} {ended:b}");
        if let Err(refusal) = answer {
            assert_eq!((refusal.kind(), refusal.place), (Kind::BadHeads, 0));
            assert_eq!(heads, row);
            assert_eq!(words(&refusal, &record, row, ended), format!("{said} (refusal 20)"));
        }
    }
    let refusal = tick(&record[1..], &mut [], 0).unwrap_err();
    assert_eq!(words(&refusal, &record[1..], &[], 0), refusal.to_string());
}

/// Numbers without pattern (SplitMix64).
fn mixed(number: u64) -> u64 {
    let mut mixed = number.wrapping_mul(0x9e37_79b9_7f4a_7c15);
    mixed = (mixed ^ mixed >> 30).wrapping_mul(0xbf58_476d_1ce4_e5b9);
    mixed = (mixed ^ mixed >> 27).wrapping_mul(0x94d0_49bb_1331_11eb);
    mixed ^ mixed >> 31
}

/// A refused row has words of its own, whatever is wrong with it.
#[test]
fn every_refused_row_is_told() {
    let record = clause();
    let mut answers = [0; 2];
    for seed in 0..20_000 {
        let number = |place: u64, below: u64| mixed(16 * seed + place) % below;
        let row: Vec<Head> = (0..1 + number(0, 3))
            .map(|head| {
                let (goal, left) = (number(1 + 2 * head, 6), number(2 + 2 * head, 9));
                let idle = number(10 + head, 3) > 0 && goal % 2 == 0;
                if idle { Head::IDLE } else { Head { goal: goal as u32, left: left as u32 } }
            })
            .collect();
        let ended = [0, 0b1, 0b11, 0b111, number(14, 32) as u32][number(15, 5) as usize];
        match tick(&record, &mut row.clone(), ended) {
            Ok(_) => answers[0] += 1,
            Err(refusal) => {
                let said = words(&refusal, &record, &row, ended);
                assert_ne!(said, refusal.to_string(), "{row:?} {ended:b}");
                answers[1] += 1;
            }
        }
    }
    assert!(answers[0] > 500 && answers[1] > 500, "{answers:?}");
}
