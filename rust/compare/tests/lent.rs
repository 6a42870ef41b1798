//! A lent byte that is changed where it should have been kept makes an answer an error.

use compare::build::Parts;
use compare::cases::{Annotator, LANDED, Reference, answer, hex};
use compare::{GOAL_LIMIT, Head, Order, Refusal, Verdict};

/// The hand-written annotator, but after a call that writes it changes a byte of the buffer or a
/// head of the row, the first or the last, and of a tick's answer it leaves out the goals to forget.
struct Careless {
    spoils: Option<Place>,
    forgets: u32,
}

#[derive(Clone, Copy)]
enum Place {
    First,
    Last,
}

impl Careless {
    fn at(place: Place) -> Careless {
        Careless { spoils: Some(place), forgets: 0 }
    }

    fn spoil<T>(
        &self,
        out: &mut [T],
        value: T,
        answer: Result<u32, Refusal>,
    ) -> Result<u32, Refusal> {
        match self.spoils {
            None => (),
            Some(Place::First) => out[0] = value,
            Some(Place::Last) => out[out.len() - 1] = value,
        }
        answer
    }
}

impl Annotator for Careless {
    type Head = Head;
    fn read(&self, record: &[u8]) -> Result<u32, Refusal> {
        Reference.read(record)
    }
    fn waits(&self, record: &[u8]) -> Option<Result<Order, Refusal>> {
        Reference.waits(record)
    }
    fn order(&self, record: &[u8]) -> Result<Order, Refusal> {
        Reference.order(record)
    }
    fn passes(&self, record: &[u8]) -> Result<u32, Refusal> {
        Reference.passes(record)
    }
    fn after(&self, record: &[u8], goal: u32) -> Result<u32, Refusal> {
        Reference.after(record, goal)
    }
    fn form(&self, record: &[u8], out: &mut [u8]) -> Result<u32, Refusal> {
        let answer = Reference.form(record, out);
        self.spoil(out, b'1', answer)
    }
    fn form_length(&self, record: &[u8]) -> Result<u32, Refusal> {
        Reference.form_length(record)
    }
    fn mel(&self, record: &[u8], out: &mut [u8]) -> Result<u32, Refusal> {
        let answer = Reference.mel(record, out);
        self.spoil(out, b'1', answer)
    }
    fn goal_text(&self, record: &[u8], goal: u32) -> Result<(u32, u32), Refusal> {
        Reference.goal_text(record, goal)
    }
    fn check(&self, record: &[u8], text: &[u8]) -> Result<Verdict, Refusal> {
        Reference.check(record, text)
    }
    fn unread(&self, input: &[u8]) -> Option<usize> {
        Reference.unread(input)
    }
    fn ticks(&self, record: &[u8]) -> Result<[u32; GOAL_LIMIT], Refusal> {
        Reference.ticks(record)
    }
    fn start(&self, record: &[u8], heads: &mut [Head]) -> Result<u32, Refusal> {
        let answer = Reference.start(record, heads);
        self.spoil(heads, Head { goal: 1, left: 1 }, answer)
    }
    fn tick(&self, record: &[u8], heads: &mut [Head], ended: u32) -> Result<u32, Refusal> {
        let answer = Reference.tick(record, heads, ended).map(|ended| ended & !self.forgets);
        self.spoil(heads, Head { goal: 1, left: 1 }, answer)
    }
}

#[test]
fn a_changed_byte_is_an_error() {
    let three = hex(&Parts::over(1, &[1, 1, 1]).record());
    let none = hex(&Parts::without_form(4).record());
    for (question, right) in [
        (format!("form {LANDED} {three} 4"), "refused 12 5"),
        (format!("form {LANDED} {three} 9"), "ok 5 312c322c33"),
        (format!("form {LANDED} {none} 9"), "refused 13 0 1 2 3 4"),
        (format!("mel {LANDED} {three} 18"), "refused 12 19"),
        (format!("form {LANDED} 4c 9"), "refused 1 1"),
        (format!("mel {LANDED} 4c 9"), "refused 1 1"),
    ] {
        assert_eq!(answer(&Reference, &question).as_deref(), Ok(right));
        let error = answer(&Careless::at(Place::Last), &question).unwrap_err();
        assert!(error.contains("changed"), "{question}: {error}");
        if right.starts_with("refused") {
            let error = answer(&Careless::at(Place::First), &question).unwrap_err();
            assert!(error.contains(right) && error.contains("changed"), "{question}: {error}");
        }
    }
}

#[test]
fn a_changed_head_is_an_error() {
    let record = hex(&Parts::over(1, &[1, 1, 1]).record());
    for (question, right) in [
        (format!("start {LANDED} 4c 2"), "refused 1 1"),
        (format!("start {LANDED} {record} 9"), "refused 20 0"),
        (format!("tick {LANDED} {record} 00000008 2 0 0 0 0"), "refused 20 0"),
        (format!("tick {LANDED} {record} 00000000 9{}", " 0 0".repeat(9)), "refused 20 0"),
    ] {
        assert_eq!(answer(&Reference, &question).as_deref(), Ok(right));
        for place in [Place::First, Place::Last] {
            let error = answer(&Careless::at(place), &question).unwrap_err();
            assert!(error.contains(right) && error.contains("changed"), "{question}: {error}");
        }
    }
}

#[test]
fn a_run_off_the_rule_is_an_error() {
    for (goals, careless, words) in [
        (3, Careless::at(Place::First), "tick 2 of a run is refused 20 0"),
        (
            3,
            Careless { spoils: None, forgets: 0b100 },
            "after 3 ticks the ended goals are 00000003",
        ),
        (1, Careless::at(Place::Last), "a tick after all goals have ended changes something"),
    ] {
        let record = hex(&Parts::over(1, &vec![1; goals]).record());
        let question = format!("run {LANDED} {record} 2");
        assert_eq!(answer(&Reference, &question), Ok(format!("ok {goals} {goals} {goals}")));
        assert_eq!(answer(&careless, &question).unwrap_err(), words);
    }
}

/// A row that is not as long as it says, or too long to be lent.
#[test]
fn a_question_without_its_row() {
    for words in ["00000000", "00000000 x", "00000000 1 0", "00000000 1 0 0 0", "0000000g 0"] {
        assert!(answer(&Reference, &format!("tick {LANDED} 4c {words}")).is_err(), "{words}");
    }
    for operation in ["start", "run"] {
        let question = format!("{operation} {LANDED} 4c {}", u32::MAX);
        assert!(answer(&Reference, &question).unwrap_err().contains("4294967295 heads"));
    }
}
