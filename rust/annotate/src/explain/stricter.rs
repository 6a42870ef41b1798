//! Orders with more waits than a clause has, and their forms.

use lfj::{Clause, Expr, members};

/// An order with waits beyond those of a clause.
#[derive(Clone, PartialEq, Eq, Debug)]
pub struct Stricter {
    /// Row g - 1: the goals behind goal g. Closed; a goal may be behind one of higher number.
    pub rows: Vec<u32>,
}

impl Stricter {
    /// The order of a clause, with nothing added.
    pub fn of(order: &[u32]) -> Stricter {
        Stricter { rows: order.to_vec() }
    }

    fn goals(&self) -> std::ops::RangeInclusive<u32> {
        1..=self.rows.len() as u32
    }

    /// The goals behind a goal.
    fn behind(&self, goal: u32) -> u32 {
        self.rows[goal as usize - 1]
    }

    /// The goals before a goal.
    fn front(&self, goal: u32) -> u32 {
        let before = self.goals().filter(|one| self.before(*one, goal));
        before.fold(0, |set, one| set | 1 << (one - 1))
    }

    fn before(&self, one: u32, other: u32) -> bool {
        self.behind(one) >> (other - 1) & 1 == 1
    }

    /// The order in which `behind` waits for `front` too, with what follows from it.
    pub fn with(&self, (front, behind): (u32, u32)) -> Stricter {
        let mut stricter = self.clone();
        let gained = self.behind(behind) | 1 << (behind - 1);
        for goal in self.goals().filter(|goal| *goal == front || self.before(*goal, front)) {
            stricter.rows[goal as usize - 1] |= gained;
        }
        stricter
    }

    /// The waits beyond those of the clause, the goal in front, then the goal behind.
    pub fn beyond(&self, order: &[u32]) -> Vec<(u32, u32)> {
        let rows = self.rows.iter().zip(order).zip(1..);
        rows.flat_map(|((more, less), front)| members(more & !less).map(move |goal| (front, goal)))
            .collect()
    }

    /// How many fours of goals show that there is no form: a before c, b before c and d, and no
    /// other order among them.
    pub fn fours(&self) -> usize {
        let fronts: Vec<u32> = self.goals().map(|goal| self.front(goal)).collect();
        let front = |goal: u32| fronts[goal as usize - 1];
        let beside = |goal: u32| !(self.behind(goal) | front(goal) | 1 << (goal - 1));
        let mut fours = 0;
        for b in self.goals() {
            for c in members(self.behind(b)) {
                for a in members(front(c) & beside(b)) {
                    fours += (self.behind(b) & beside(c) & beside(a)).count_ones() as usize;
                }
            }
        }
        fours
    }

    /// The goals, each behind those it waits for.
    fn sequence(&self) -> Vec<u32> {
        let mut goals: Vec<u32> = self.goals().collect();
        goals.sort_by_key(|goal| self.front(*goal).count_ones());
        goals
    }

    /// A clause with just this order. Each goal has a variable of its own, unless it has no
    /// order with any other, and those of two goals without an order are listed as independent.
    /// A later goal of a record waits for an earlier one, so the goals stand in this sequence.
    fn clause(&self, sequence: &[u32]) -> Clause {
        let goals = sequence.len() as u8;
        let mut clause = Clause::new(goals).head(0..goals);
        let tied = |goal: u32| self.behind(goal) | self.front(goal) != 0;
        for (own, goal) in (0..).zip(sequence) {
            clause = clause.goal("goal", tied(*goal).then_some(own));
            for (variable, later) in (0..).zip(sequence).skip(own as usize + 1) {
                if tied(*goal) && tied(*later) && !self.before(*goal, *later) {
                    clause = clause.independent(own, variable);
                }
            }
        }
        clause
    }

    /// The form, or the four goals that show there is none, by the proved library. None if a
    /// record cannot list so many pairs.
    pub fn form(&self) -> Option<Result<Expr, [u32; 4]>> {
        let sequence = self.sequence();
        let record = self.clause(&sequence).record().ok()?;
        let goal = |place: u32| sequence[place as usize - 1];
        Some(match lfj::form_tree(&record) {
            Ok(form) => Ok(renumbered(form, &goal)),
            Err(refusal) => Err(refusal.goals.map(|place| goal(place as u32))),
        })
    }
}

/// The expression with other numbers, in house form: the members of a group ascend by their
/// smallest goal.
pub fn renumbered(expression: Expr, number: &impl Fn(u32) -> u32) -> Expr {
    let all = |members: Vec<Expr>| -> Vec<Expr> {
        members.into_iter().map(|member| renumbered(member, number)).collect()
    };
    match expression {
        Expr::Goal(goal) => Expr::Goal(number(goal)),
        Expr::Sequence(members) => Expr::Sequence(all(members)),
        Expr::Parallel(members) => {
            let mut members = all(members);
            members.sort_by_key(|member| member.goals().into_iter().min());
            Expr::Parallel(members)
        }
    }
}
