//! Cases as lines of text, `OPERATION K INPUT.. = ANSWER..`, and what an annotator answers.
//! The format is explained in the kit's README.

use crate::numbers::first_goals;
use crate::sheet::{read_part, sheet};
use crate::{GOAL_LIMIT, Head, Order, Refusal, Verdict, heaviest};
use std::hint::black_box;

/// The field K: how many change requests have landed.
pub const LANDED: u8 = 5;

/// The operations of the paper, as a case calls them.
pub trait Annotator {
    /// A head of the row that is lent to the dispatcher.
    type Head: Copy + From<Head> + Into<Head>;
    fn read(&self, record: &[u8]) -> Result<u32, Refusal>;
    /// `None` if the annotator does not give the waits before closure.
    fn waits(&self, record: &[u8]) -> Option<Result<Order, Refusal>>;
    fn order(&self, record: &[u8]) -> Result<Order, Refusal>;
    fn passes(&self, record: &[u8]) -> Result<u32, Refusal>;
    fn after(&self, record: &[u8], goal: u32) -> Result<u32, Refusal>;
    fn form(&self, record: &[u8], out: &mut [u8]) -> Result<u32, Refusal>;
    fn form_length(&self, record: &[u8]) -> Result<u32, Refusal>;
    fn mel(&self, record: &[u8], out: &mut [u8]) -> Result<u32, Refusal>;
    /// Place and length.
    fn goal_text(&self, record: &[u8], goal: u32) -> Result<(u32, u32), Refusal>;
    fn check(&self, record: &[u8], text: &[u8]) -> Result<Verdict, Refusal>;
    /// How many bytes of standard input the program that prints the sheet leaves unread;
    /// `None` if there is no program.
    fn unread(&self, input: &[u8]) -> Option<usize>;
    /// The ticks of each goal.
    fn ticks(&self, record: &[u8]) -> Result<[u32; GOAL_LIMIT], Refusal>;
    fn start(&self, record: &[u8], heads: &mut [Self::Head]) -> Result<u32, Refusal>;
    fn tick(&self, record: &[u8], heads: &mut [Self::Head], ended: u32) -> Result<u32, Refusal>;
}

/// The annotator of this crate.
pub struct Reference;

impl Annotator for Reference {
    type Head = Head;
    fn read(&self, record: &[u8]) -> Result<u32, Refusal> {
        crate::read(record)
    }
    fn waits(&self, record: &[u8]) -> Option<Result<Order, Refusal>> {
        Some(crate::waits(record))
    }
    fn order(&self, record: &[u8]) -> Result<Order, Refusal> {
        crate::order(record).map(|closed| closed.order)
    }
    fn passes(&self, record: &[u8]) -> Result<u32, Refusal> {
        crate::passes(record)
    }
    fn after(&self, record: &[u8], goal: u32) -> Result<u32, Refusal> {
        crate::after(record, goal)
    }
    fn form(&self, record: &[u8], out: &mut [u8]) -> Result<u32, Refusal> {
        crate::form(record, out)
    }
    fn form_length(&self, record: &[u8]) -> Result<u32, Refusal> {
        crate::form_length(record)
    }
    fn mel(&self, record: &[u8], out: &mut [u8]) -> Result<u32, Refusal> {
        crate::mel(record, out)
    }
    fn goal_text(&self, record: &[u8], goal: u32) -> Result<(u32, u32), Refusal> {
        crate::goal_text(record, goal)
    }
    fn check(&self, record: &[u8], text: &[u8]) -> Result<Verdict, Refusal> {
        crate::check(record, text)
    }
    fn unread(&self, input: &[u8]) -> Option<usize> {
        Some(input.len() - read_part(input).len())
    }
    fn ticks(&self, record: &[u8]) -> Result<[u32; GOAL_LIMIT], Refusal> {
        crate::ticks(record)
    }
    fn start(&self, record: &[u8], heads: &mut [Head]) -> Result<u32, Refusal> {
        crate::start(record, heads)
    }
    fn tick(&self, record: &[u8], heads: &mut [Head], ended: u32) -> Result<u32, Refusal> {
        crate::tick(record, heads, ended)
    }
}

/// Bytes in hexadecimal, `-` where there are none.
pub fn hex(bytes: &[u8]) -> String {
    if bytes.is_empty() {
        return "-".to_string();
    }
    bytes.iter().map(|byte| format!("{byte:02x}")).collect()
}

/// The other way round.
pub fn unhex(text: &str) -> Result<Vec<u8>, String> {
    if text == "-" {
        return Ok(Vec::new());
    }
    let digits = text.as_bytes();
    if digits.len() % 2 == 1 {
        return Err(format!("an odd number of hexadecimal digits: {text}"));
    }
    let value = |digit: u8| (digit as char).to_digit(16).ok_or(format!("not hexadecimal: {text}"));
    digits.chunks(2).map(|two| Ok((value(two[0])? << 4 | value(two[1])?) as u8)).collect()
}

/// A refusal as an answer. Its goals are shown where they are not 0, which is right for 13 alone.
pub fn refused(refusal: Refusal) -> String {
    let mut line = format!("refused {} {}", refusal.number, refusal.place);
    if refusal.goals != [0; 4] {
        for goal in refusal.goals {
            line += &format!(" {goal}");
        }
    }
    line
}

fn rows(order: Order) -> String {
    let mut line = format!("ok {}", order.goals);
    for row in &order.rows[..order.goals] {
        line += &format!(" {row:08x}");
    }
    line
}

/// Bytes on each side of a lent buffer, which nobody may change.
const MARGIN: usize = 64;

/// Calls a writer with a buffer of `room` bytes and says what it left there. A byte that
/// should have been kept and was not is an error: any byte of a call that is refused, else one
/// behind the text, and one beside the buffer.
fn written(
    room: usize,
    write: impl FnOnce(&mut [u8]) -> Result<u32, Refusal>,
) -> Result<Result<String, Refusal>, String> {
    const KEPT: u8 = 0xa5;
    let mut bytes = vec![KEPT; MARGIN + room + MARGIN];
    let answer = write(&mut bytes[MARGIN..MARGIN + room]);
    let bytes = black_box(bytes);
    let length = *answer.as_ref().unwrap_or(&0) as usize;
    if length > room {
        return Err(format!("a length of {length} bytes in a buffer of {room}"));
    }
    let (text, rest) = bytes[MARGIN..].split_at(length);
    if bytes[..MARGIN].iter().chain(rest).any(|byte| *byte != KEPT) {
        return Err(match &answer {
            Ok(_) => "a byte outside the text was changed".to_string(),
            Err(refusal) => format!("{}, and a lent byte was changed", refused(*refusal)),
        });
    }
    Ok(answer.map(|_| format!("ok {length} {}", hex(text))))
}

/// Calls an operation that only reads these bytes. One that changed them is an error.
fn reading<T>(bytes: &[u8], call: impl FnOnce(&[u8]) -> T) -> Result<T, String> {
    let lent = bytes.to_vec();
    let answer = call(&lent);
    match black_box(lent) == bytes {
        true => Ok(answer),
        false => Err("a byte of the record or the text was changed".to_string()),
    }
}

/// The most heads of a row that a question can ask for.
const ROW_LIMIT: usize = 1 << 17;
/// What a row is filled with before a start, and what stands on each side of every row.
const KEPT: Head = Head { goal: 0xa5a5_a5a5, left: 0x5a5a_5a5a };

/// A row of heads that a start is asked for.
fn row_of(heads: usize) -> Result<Vec<Head>, String> {
    if heads > ROW_LIMIT {
        return Err(format!("a row of {heads} heads, more than the {ROW_LIMIT} of this program"));
    }
    Ok(vec![KEPT; heads])
}

/// Lends the row to the dispatcher, and puts what is left there into it. A head that should have
/// been kept and was not is an error: any of a call that is refused, and one beside the row.
fn lend<H: Copy + From<Head> + Into<Head>, T>(
    row: &mut [Head],
    call: impl FnOnce(&mut [H]) -> Result<T, Refusal>,
) -> Result<Result<T, Refusal>, String> {
    let beside = [KEPT; MARGIN];
    let mut all: Vec<H> =
        beside.iter().chain(&*row).chain(&beside).map(|head| H::from(*head)).collect();
    let answer = call(&mut all[MARGIN..MARGIN + row.len()]);
    let all: Vec<Head> = black_box(all).into_iter().map(H::into).collect();
    let (before, rest) = all.split_at(MARGIN);
    let (left, behind) = rest.split_at(row.len());
    if before != beside || behind != beside {
        return Err("a head beside the row was changed".to_string());
    }
    match &answer {
        Err(refusal) if left != row => {
            Err(format!("{}, and a head of the row was changed", refused(*refusal)))
        }
        _ => {
            row.copy_from_slice(left);
            Ok(answer)
        }
    }
}

/// The row that `HEADS GOAL LEFT ..` says: the words behind the first four of a question.
pub fn row_in(words: &[&str]) -> Result<Vec<Head>, String> {
    let numbers: Vec<u32> =
        words.get(4..).unwrap_or(&[]).iter().map_while(|word| word.parse().ok()).collect();
    match numbers.split_first() {
        Some((count, row))
            if row.len() == 2 * *count as usize && words.len() == 4 + numbers.len() =>
        {
            Ok(row.chunks(2).map(|two| Head { goal: two[0], left: two[1] }).collect())
        }
        _ => Err(format!("not a row of heads: {}", words.join(" "))),
    }
}

/// The row as `HEADS GOAL LEFT ..`.
pub fn row_words(row: &[Head]) -> String {
    let heads = row.iter().map(|head| format!(" {} {}", head.goal, head.left));
    format!("{}{}", row.len(), heads.collect::<String>())
}

/// The ended goals and the row as an answer.
pub fn dispatched(ended: u32, row: &[Head]) -> String {
    format!("ok {ended:08x} {}", row_words(row))
}

/// A run from a start to the tick in which the last goal ends: that tick's number, the ticks of
/// all goals and those of the heaviest chain. A tick that is refused is an error, and so is a run
/// that goes on for longer than one head would need, or changes something when it is over.
fn course<A: Annotator>(
    annotator: &A,
    record: &[u8],
    heads: &mut [A::Head],
) -> Result<Result<String, String>, Refusal> {
    let mut ended = annotator.start(record, heads)?;
    let (order, ticks) = (annotator.order(record)?, annotator.ticks(record)?);
    let (all, total) = (first_goals(order.goals), ticks.iter().sum::<u32>());
    let mut last = 0;
    while ended != all {
        if last == total {
            return Ok(Err(format!("after {total} ticks the ended goals are {ended:08x}")));
        }
        last += 1;
        match annotator.tick(record, heads, ended) {
            Ok(more) => ended = more,
            Err(refusal) => {
                return Ok(Err(format!("tick {last} of a run is {}", refused(refusal))));
            }
        }
    }
    let row = |heads: &[A::Head]| heads.iter().map(|head| (*head).into()).collect::<Vec<Head>>();
    let left = row(heads);
    if annotator.tick(record, heads, ended) != Ok(all) || row(heads) != left {
        return Ok(Err("a tick after all goals have ended changes something".to_string()));
    }
    Ok(Ok(format!("ok {last} {total} {}", heaviest(&order, &ticks))))
}

/// What the annotator answers to `OPERATION K INPUT..`. `skip` for what it does not offer.
pub fn answer(annotator: &impl Annotator, question: &str) -> Result<String, String> {
    let words: Vec<&str> = question.split(' ').collect();
    let field = |at: usize| words.get(at).copied().ok_or(format!("too short: {question}"));
    if field(1)? != LANDED.to_string() {
        return Ok("skip".to_string());
    }
    reading(&unhex(field(2)?)?, |record| operation(annotator, record, &words))?
}

/// The operation of a question whose words are given.
fn operation(annotator: &impl Annotator, record: &[u8], words: &[&str]) -> Result<String, String> {
    let asked = || words.join(" ");
    let field = || words.get(3).copied().ok_or_else(|| format!("too short: {}", asked()));
    let number = || field()?.parse::<u32>().map_err(|e| format!("{e}: {}", asked()));
    let skip = || Ok("skip".to_string());
    let answer = match words[0] {
        "read" => annotator.read(record).map(|_| "ok".to_string()),
        "waits" => annotator.waits(record).map_or_else(skip, |waits| waits.map(rows)),
        "order" => annotator.order(record).map(rows),
        "passes" => annotator.passes(record).map(|passes| format!("ok {passes}")),
        "after" => annotator.after(record, number()?).map(|set| format!("ok {set:08x}")),
        "form" => written(number()? as usize, |out| annotator.form(record, out))?,
        "length" => annotator.form_length(record).map(|length| format!("ok {length}")),
        "mel" => written(number()? as usize, |out| annotator.mel(record, out))?,
        "text" => annotator.goal_text(record, number()?).map(|(place, length)| {
            let text = &record[place as usize..][..length as usize];
            format!("ok {place} {length} {}", hex(text))
        }),
        "check" => reading(&unhex(field()?)?, |text| annotator.check(record, text))?.map(verdict),
        "sheet" => Ok(format!("ok {}", hex(&sheet(annotator, record)))),
        "unread" => annotator.unread(record).map_or_else(skip, |rest| Ok(format!("ok {rest}"))),
        "start" => {
            let mut row = row_of(number()? as usize)?;
            let lent = lend(&mut row, |heads| annotator.start(record, heads));
            lent?.map(|ended| dispatched(ended, &row))
        }
        "tick" => {
            let ended =
                u32::from_str_radix(field()?, 16).map_err(|e| format!("{e}: {}", asked()))?;
            let mut row = row_in(words)?;
            let lent = lend(&mut row, |heads| annotator.tick(record, heads, ended));
            lent?.map(|ended| dispatched(ended, &row))
        }
        "run" => {
            let mut row = row_of(number()? as usize)?;
            match lend(&mut row, |heads| course(annotator, record, heads))? {
                Ok(run) => Ok(run?),
                Err(refusal) => Err(refusal),
            }
        }
        other => return Err(format!("no operation is called {other}")),
    };
    Ok(answer.unwrap_or_else(refused))
}

fn verdict(verdict: Verdict) -> String {
    match verdict {
        Verdict::Same => "same".to_string(),
        Verdict::Differs(i, j) => format!("differs {i} {j}"),
    }
}

/// How the answers to a list of cases came out.
#[derive(Default, Debug, PartialEq, Eq)]
pub struct Tally {
    pub agree: usize,
    pub differ: usize,
    pub skipped: usize,
}

/// Runs every case of a file's text; `report` gets line number, question, expected answer
/// and given answer of each difference. Empty lines and lines that start with `#` are left out.
pub fn run(
    annotator: &impl Annotator,
    text: &str,
    mut report: impl FnMut(usize, &str, &str, &str),
) -> Result<Tally, String> {
    let mut tally = Tally::default();
    for (number, line) in text.lines().enumerate() {
        if line.is_empty() || line.starts_with('#') {
            continue;
        }
        let (question, expected) =
            line.split_once(" = ").ok_or(format!("line {}: no ' = '", number + 1))?;
        let given = answer(annotator, question).map_err(|e| format!("line {}: {e}", number + 1))?;
        if given == "skip" {
            tally.skipped += 1;
        } else if given == expected {
            tally.agree += 1;
        } else {
            tally.differ += 1;
            report(number + 1, question, expected, &given);
        }
    }
    Ok(tally)
}
