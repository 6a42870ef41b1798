//! The dispatcher against the sentences of 02's request 4, worded as plainly as can be: all states
//! of few goals and heads, and runs of any size.

use compare::build::Parts;
use compare::generate::{self, Random};
use compare::kit::every_order;
use compare::states::{Course, State};
use compare::{Head, Order, Refusal};
use std::collections::BTreeSet;

type Set = BTreeSet<u32>;

/// What the sentences speak of: goals 1 to n, their predecessors and ticks.
struct Clause {
    record: Vec<u8>,
    n: u32,
    predecessors: Vec<Set>,
    ticks: Vec<u32>,
}

impl Clause {
    fn of(parts: &Parts) -> Clause {
        let record = parts.record();
        let Order { goals, rows } = compare::order(&record).unwrap().order;
        let n = goals as u32;
        let before = |i: u32, j: u32| rows[i as usize - 1] >> (j - 1) & 1 == 1;
        let predecessors = (1..=n).map(|j| (1..=n).filter(|i| before(*i, j)).collect()).collect();
        let ticks = match parts.facts.is_empty() {
            true => vec![1; goals],
            false => parts.facts.iter().map(|facts| facts.ticks as u32).collect(),
        };
        Clause { record, n, predecessors, ticks }
    }

    fn may_run(&self, goal: u32, ended: &Set) -> bool {
        self.predecessors[goal as usize - 1].is_subset(ended)
    }

    /// "20 [..]: a row of 0 or more than 8 heads; at a tick also .."
    fn refused(&self, heads: &[Head], ended: &Set) -> bool {
        if heads.is_empty() || heads.len() > 8 {
            return true;
        }
        let busy: Vec<&Head> = heads.iter().filter(|head| head.goal != 0).collect();
        // "a head's goal above n, on two heads or ended"
        if busy.iter().any(|head| head.goal > self.n || ended.contains(&head.goal)) {
            return true;
        }
        if busy.iter().map(|head| head.goal).collect::<Set>().len() < busy.len() {
            return true;
        }
        // "ticks left of 0 or above the goal's on a busy head or not 0 on an idle one"
        let most = |head: &Head| self.ticks[head.goal as usize - 1];
        if busy.iter().any(|head| head.left == 0 || head.left > most(head)) {
            return true;
        }
        if heads.iter().any(|head| head.goal == 0 && head.left != 0) {
            return true;
        }
        // "an ended goal above n, or a busy or ended goal with a predecessor not ended"
        ended.iter().any(|goal| *goal > self.n || !self.may_run(*goal, ended))
            || busy.iter().any(|head| !self.may_run(head.goal, ended))
    }

    /// "In each tick every idle head, lowest first, takes the lowest goal, neither ended nor on a
    /// head, whose predecessors have all ended, then every busy head works one tick; at 0 left its
    /// goal has ended and it is idle." Gives how many heads worked.
    fn tick(&self, heads: &mut [Head], ended: &mut Set) -> usize {
        for at in 0..heads.len() {
            if heads[at].goal == 0 {
                let on_a_head = |goal: u32| heads.iter().any(|head| head.goal == goal);
                let free = |goal: &u32| {
                    !ended.contains(goal) && !on_a_head(*goal) && self.may_run(*goal, ended)
                };
                if let Some(goal) = (1..=self.n).find(free) {
                    heads[at] = Head { goal, left: self.ticks[goal as usize - 1] };
                }
            }
        }
        let mut worked = 0;
        for head in heads.iter_mut().filter(|head| head.goal != 0) {
            worked += 1;
            head.left -= 1;
            if head.left == 0 {
                ended.insert(head.goal);
                head.goal = 0;
            }
        }
        worked
    }

    /// The heaviest chain that starts with this goal.
    fn heaviest_from(&self, goal: u32) -> u32 {
        let behind =
            (1..=self.n).filter(|next| self.predecessors[*next as usize - 1].contains(&goal));
        self.ticks[goal as usize - 1]
            + behind.map(|next| self.heaviest_from(next)).max().unwrap_or(0)
    }

    /// Holds one tick against the words, and says whether it is accepted.
    fn hold(&self, heads: &[Head], ended: u32) -> bool {
        let mut goals = members(ended);
        let mut row = heads.to_vec();
        let answer = compare::tick(&self.record, &mut row, ended);
        if self.refused(heads, &goals) {
            assert_eq!(answer, Err(Refusal { number: 20, place: 0, goals: [0; 4] }), "{heads:?}");
            assert_eq!(row, heads, "a refused tick changed the row");
            return false;
        }
        let mut wanted = heads.to_vec();
        let worked = self.tick(&mut wanted, &mut goals);
        assert_eq!(answer.map(members), Ok(goals.clone()), "{heads:?} {ended:b}");
        assert_eq!(row, wanted, "{heads:?} {ended:b}");
        // "until all goals have ended at least one head works; after that a tick changes nothing"
        let all_ended = members(ended).len() == self.n as usize;
        assert_eq!(worked == 0, all_ended, "{heads:?} {ended:b}");
        assert!(!all_ended || row == heads);
        true
    }

    /// A run of k heads, each tick held against the words: the last working tick.
    fn run(&self, k: u32) -> u32 {
        let mut heads = vec![Head { goal: 7, left: 9 }; k as usize];
        let mut ended = compare::start(&self.record, &mut heads).unwrap();
        assert_eq!((ended, &heads[..]), (0, &vec![Head::default(); k as usize][..]));
        let (mut row, mut goals) = (heads.clone(), Set::new());
        let mut last = 0;
        for number in 1.. {
            let worked = self.tick(&mut row, &mut goals);
            ended = compare::tick(&self.record, &mut heads, ended).unwrap();
            assert_eq!((&heads, members(ended)), (&row, goals.clone()), "tick {number}");
            if worked == 0 {
                break;
            }
            last = number;
        }
        assert_eq!(goals, (1..=self.n).collect());
        last
    }

    /// "k × T is at most W + (k − 1) × C"
    fn hold_bound(&self, k: u32) {
        let last = self.run(k);
        let total: u32 = self.ticks.iter().sum();
        let heaviest = (1..=self.n).map(|goal| self.heaviest_from(goal)).max().unwrap_or(0);
        assert!(k * last <= total + (k - 1) * heaviest, "{k} heads: {last}, {total}, {heaviest}");
        assert!(last <= total && last >= heaviest && k * last >= total);
        let order = compare::order(&self.record).unwrap().order;
        assert_eq!(compare::heaviest(&order, &compare::ticks(&self.record).unwrap()), heaviest);
    }
}

fn members(set: u32) -> Set {
    (1..=32).filter(|goal| set >> (goal - 1) & 1 == 1).collect()
}

/// Every row of `count` of the heads.
fn every_row(heads: &[Head], count: usize) -> Vec<Vec<Head>> {
    match count {
        0 => vec![Vec::new()],
        _ => every_row(heads, count - 1)
            .into_iter()
            .flat_map(|row| heads.iter().map(move |head| [&row[..], &[*head]].concat()))
            .collect(),
    }
}

/// Every list of so many numbers of ticks from 1 to `most`.
fn every_ticks(goals: usize, most: u16) -> Vec<Vec<u16>> {
    (0..(most as usize).pow(goals as u32))
        .map(|number| {
            let digit = |at: usize| number / (most as usize).pow(at as u32) % most as usize;
            (0..goals).map(|at| digit(at) as u16 + 1).collect()
        })
        .collect()
}

/// Every state of these clauses and so many heads: goals up to one above n, ticks left up to one
/// above the most, ended goals up to one above n.
fn hold_every_state(goals: usize, counts: &[usize], all_ticks: &[Vec<u16>]) {
    let (mut accepted, mut refused) = (0, 0);
    for parts in every_order(goals) {
        for ticks in all_ticks {
            let clause = Clause::of(&parts.clone().lasting(ticks));
            let most = *ticks.iter().max().unwrap() as u32;
            let heads: Vec<Head> = (0..=clause.n + 1)
                .flat_map(|goal| (0..=most + 1).map(move |left| Head { goal, left }))
                .collect();
            for row in counts.iter().flat_map(|count| every_row(&heads, *count)) {
                for ended in 0..2 << goals {
                    *(if clause.hold(&row, ended) { &mut accepted } else { &mut refused }) += 1;
                }
            }
        }
    }
    assert!(accepted > 0 && refused > 0, "{accepted} accepted, {refused} refused");
}

#[test]
fn every_state_of_up_to_two_goals() {
    for goals in 1..=2 {
        hold_every_state(goals, &[0, 1, 2, 3], &every_ticks(goals, 2));
    }
}

#[test]
fn every_state_of_three_goals() {
    hold_every_state(3, &[0, 1, 2], &every_ticks(3, 2));
    hold_every_state(3, &[3], &[vec![2, 1, 2]]);
}

#[test]
fn every_state_of_four_goals() {
    hold_every_state(4, &[1], &every_ticks(4, 2));
    hold_every_state(4, &[2], &[vec![1, 2, 2, 1]]);
}

#[test]
fn every_run_of_up_to_four_goals() {
    for goals in 1..=4 {
        for parts in every_order(goals) {
            for ticks in every_ticks(goals, 3) {
                let clause = Clause::of(&parts.clone().lasting(&ticks));
                (1..=3).for_each(|heads| clause.hold_bound(heads));
            }
        }
    }
}

#[test]
fn the_bound_on_seeded_runs() {
    let mut random = Random::new(3);
    for _ in 0..6000 {
        let mut parts = generate::clause(&mut random);
        let most = random.pick(&[1, 3, 12, 40]);
        generate::shorten(&mut random, &mut parts, most);
        // A chain has exponentially many part chains, which the plain search would all try.
        if parts.goals.len() <= 12 {
            Clause::of(&parts).hold_bound(random.between(1, 8) as u32);
        } else {
            Clause::of(&parts).run(random.between(1, 8) as u32);
        }
    }
}

/// States with up to nine heads, of clauses of any size: the words, and what `states` says.
#[test]
fn seeded_states() {
    let mut random = Random::new(4);
    let (mut accepted, mut refused) = (0, 0);
    for _ in 0..6000 {
        let parts = generate::clause(&mut random);
        let (clause, course) = (Clause::of(&parts), Course::of(&parts.record()).unwrap());
        let heads = random.between(1, 8);
        let mut state = match random.chance(1, 2) {
            true => course.accepted(&mut random, heads),
            false => course.on_a_run(&mut random, heads),
        };
        assert_eq!(course.reasons(&state), [], "{state:?}");
        clause.hold(&state.heads, state.ended);
        // From an accepted state every tick is accepted, and all goals end.
        let mut on = state.clone();
        while on.ended.count_ones() < clause.n {
            let (next, quiet) = course.ticked(&on).unwrap();
            on = next;
            Course::later(&mut on, quiet);
        }
        course.damage(&mut random, &mut state);
        clause.hold(&state.heads, state.ended);
        let good = course.reasons(&state).is_empty();
        assert_eq!(clause.refused(&state.heads, &members(state.ended)), !good, "{state:?}");
        *(if good { &mut accepted } else { &mut refused }) += 1;
    }
    assert!(accepted > 500 && refused > 3000, "{accepted} {refused}");
}

/// The states that `on_a_run` leaps to are those of the run, tick by tick.
#[test]
fn states_on_runs() {
    let mut random = Random::new(5);
    for _ in 0..300 {
        let mut parts = generate::clause(&mut random);
        generate::shorten(&mut random, &mut parts, 9);
        let course = Course::of(&parts.record()).unwrap();
        let heads = random.between(1, 8);
        let mut all = vec![course.start(heads)];
        while let Some(State { ended, .. }) = all.last() {
            if ended.count_ones() as usize == parts.goals.len() {
                break;
            }
            let (next, _) = course.ticked(&all[all.len() - 1]).unwrap();
            all.push(next);
        }
        for _ in 0..8 {
            let state = course.on_a_run(&mut random, heads);
            assert!(all.contains(&state), "{state:?}");
        }
    }
}

#[test]
fn starts() {
    let record = Parts::over(1, &[1, 1]).record();
    let twenty = Err(Refusal { number: 20, place: 0, goals: [0; 4] });
    let one = Err(Refusal { number: 1, place: 3, goals: [0; 4] });
    for count in 0..=20 {
        let before = vec![Head { goal: 3, left: u32::MAX }; count];
        let mut heads = before.clone();
        assert_eq!(compare::start(b"LFJ", &mut heads), one);
        assert_eq!(heads, before);
        let answer = compare::start(&record, &mut heads);
        if (1..=8).contains(&count) {
            assert_eq!((answer, heads), (Ok(0), vec![Head::default(); count]));
        } else {
            assert_eq!((answer, heads), (twenty, before));
        }
    }
}
