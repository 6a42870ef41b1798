//! The words that the program is called with, and what it says of itself. `rust/annotate.sh`
//! prints the same texts before anything is built.

use crate::failure::Failure;
use lfj::dispatch::HEADS_LIMIT;

pub const HELP: &str = include_str!("../help/annotate.txt");
pub const VERSION: &str = concat!("annotate ", env!("CARGO_PKG_VERSION"), "\n");

/// A command: its name, its help and its options.
#[derive(Debug, PartialEq)]
pub struct Command {
    pub name: &'static str,
    help: &'static str,
    options: &'static [&'static str],
}

const COMMANDS: [Command; 6] = [
    Command { name: "sheet", help: include_str!("../help/sheet.txt"), options: &["--names"] },
    Command { name: "explain", help: include_str!("../help/explain.txt"), options: &[] },
    Command { name: "draw", help: include_str!("../help/draw.txt"), options: &["--text", "-o"] },
    Command {
        name: "dispatch",
        help: include_str!("../help/dispatch.txt"),
        options: &["--heads", "--text", "-o"],
    },
    Command { name: "record", help: include_str!("../help/record.txt"), options: &["--hex"] },
    Command { name: "show", help: include_str!("../help/show.txt"), options: &[] },
];

/// What is asked for.
#[derive(Debug, PartialEq)]
pub enum Asked {
    /// A text of the program's own.
    Text(&'static str),
    Run(Call),
}

/// A command with its words.
#[derive(Debug, PartialEq)]
pub struct Call {
    pub command: &'static str,
    pub file: String,
    /// The options that are given, but for those with a word behind them.
    pub options: Vec<String>,
    /// The file behind `-o`.
    pub out: Option<String>,
    /// The number behind `--heads`.
    pub heads: Option<usize>,
}

/// The number of heads that a word says.
fn heads(word: &str) -> Option<usize> {
    let heads = word.parse().ok()?;
    (word.len() == 1 && (1..=HEADS_LIMIT).contains(&heads)).then_some(heads)
}

impl Command {
    /// Something is wrong with the words behind the command.
    fn wrong(&self, words: String) -> Failure {
        let usage = self.help.lines().next().unwrap_or_default();
        Failure::Usage(format!("annotate {}: {words}\n{usage}", self.name))
    }

    fn call(&self, words: &[String]) -> Result<Asked, Failure> {
        let (mut file, mut options, mut out, mut on) = (None, Vec::new(), None, None);
        let mut words = words.iter();
        while let Some(word) = words.next() {
            if word == "--help" || word == "-h" {
                return Ok(Asked::Text(self.help));
            } else if word == "--version" {
                return Ok(Asked::Text(VERSION));
            } else if word.starts_with('-') && word != "-" {
                if !self.options.contains(&word.as_str()) {
                    return Err(self.wrong(format!("`{word}` is none of its options")));
                }
                match word.as_str() {
                    "-o" => {
                        let named = words.next().filter(|name| !name.is_empty()).cloned();
                        out = Some(named.ok_or_else(|| self.wrong("-o needs a file".into()))?);
                    }
                    "--heads" => {
                        let limit = "--heads needs a number from 1 to 8";
                        let number = words.next().and_then(|word| heads(word));
                        on = Some(number.ok_or_else(|| self.wrong(limit.into()))?);
                    }
                    _ => options.push(word.clone()),
                }
            } else if let Some(first) = file.replace(word.clone()) {
                return Err(self.wrong(format!("one file, not both `{first}` and `{word}`")));
            }
        }
        let file =
            file.ok_or_else(|| self.wrong("a file is missing; - is standard input".into()))?;
        Ok(Asked::Run(Call { command: self.name, file, options, out, heads: on }))
    }
}

/// Takes the program's words apart.
pub fn asked(words: &[String]) -> Result<Asked, Failure> {
    let names = COMMANDS.map(|command| command.name).join(", ");
    let wrong = |words: String| {
        Failure::Usage(format!(
            "annotate: {words}; the commands are {names}\nannotate --help says more"
        ))
    };
    let (first, rest) = words.split_first().ok_or_else(|| wrong("a command is missing".into()))?;
    match first.as_str() {
        "--help" | "-h" => return Ok(Asked::Text(HELP)),
        "--version" => return Ok(Asked::Text(VERSION)),
        _ => (),
    }
    let command = COMMANDS.iter().find(|command| command.name == first);
    command.ok_or_else(|| wrong(format!("`{first}` is no command")))?.call(rest)
}
