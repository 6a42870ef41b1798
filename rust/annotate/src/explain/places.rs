//! Where the fields of a record stand, as far as it goes.

/// The header's length, in bytes.
const HEADER: usize = 24;

/// What a field of a record is.
#[derive(Clone, Copy, PartialEq, Eq, Debug)]
pub enum Part {
    Mark,
    Version,
    GoalCount,
    VariableCount,
    PairCount,
    Head,
    Ground,
    /// The variable set of a goal.
    Set(u32),
    /// The ground set of a goal, in version 2.
    GroundAt(u32),
    /// The ticks of a goal, in version 2.
    Ticks(u32),
    /// The length of a goal's text.
    Length(u32),
    /// The text of a goal.
    Text(u32),
    /// Two variables known independent.
    Pair(u32),
    /// The bytes behind the last pair.
    LeftOver,
}

/// A field and its bytes, `start` to `end - 1`. The record may end before them.
#[derive(Clone, Copy, PartialEq, Eq, Debug)]
pub struct Field {
    pub part: Part,
    pub start: usize,
    pub end: usize,
}

/// The fields so far.
struct Fields(Vec<Field>);

impl Fields {
    fn end(&self) -> usize {
        self.0.last().map_or(0, |field| field.end)
    }

    fn add(&mut self, part: Part, length: usize) {
        let start = self.end();
        self.0.push(Field { part, start, end: start + length });
    }

    /// A goal's fields. None if the record does not reach the end of its text, or the length of
    /// this is out of range, so that nothing behind it has a known place.
    fn goal(&mut self, record: &[u8], version: u8, goal: u32) -> Option<()> {
        self.add(Part::Set(goal), 8);
        if version == 2 {
            self.add(Part::GroundAt(goal), 8);
            self.add(Part::Ticks(goal), 2);
        }
        self.add(Part::Length(goal), 1);
        let length = *record.get(self.end() - 1)? as usize;
        if length == 0 || length > lfj::GOAL_TEXT_LIMIT {
            return None;
        }
        self.add(Part::Text(goal), length);
        (self.end() <= record.len()).then_some(())
    }

    /// The fields behind the header.
    fn body(&mut self, record: &[u8]) -> Option<()> {
        let version = match record.get(3..5)? {
            [0, version @ (1 | 2)] => *version,
            _ => return None,
        };
        for goal in 1..=record[5] as u32 {
            self.goal(record, version, goal)?;
        }
        for pair in 1..=record[7] as u32 {
            self.add(Part::Pair(pair), 2);
            (self.end() <= record.len()).then_some(())?;
        }
        self.add(Part::LeftOver, record.len() - self.end());
        Some(())
    }
}

/// The fields of a record from left to right, the last one it does not reach the end of included.
pub fn fields(record: &[u8]) -> Vec<Field> {
    let mut fields = Fields(Vec::new());
    let header = [
        (Part::Mark, 3),
        (Part::Version, 2),
        (Part::GoalCount, 1),
        (Part::VariableCount, 1),
        (Part::PairCount, 1),
        (Part::Head, 8),
        (Part::Ground, 8),
    ];
    for (part, length) in header {
        fields.add(part, length);
    }
    if record.len() >= HEADER {
        fields.body(record);
    }
    fields.0
}

/// The field that has the byte at this place.
pub fn field_at(record: &[u8], place: usize) -> Option<Field> {
    fields(record).into_iter().find(|field| (field.start..field.end).contains(&place))
}
