//! The commands.

use crate::chart::Chart;
use crate::failure::Failure;
use crate::input::{self, Input};
use crate::output::{print, write};
use crate::scene::Scene;
use crate::usage::{self, Asked, Call};
use crate::view::View;
use crate::{describe, draw, explain, hex, sheet};
use lfj::Refusal;
use std::io::{self, IsTerminal};

/// The heads of a run whose number is not named.
const HEADS: usize = 2;

/// Does what the words ask for: the exit status.
pub fn run(words: &[String]) -> Result<u8, Failure> {
    let call = match usage::asked(words)? {
        Asked::Text(text) => return print(text.as_bytes()).map(|()| 0),
        Asked::Run(call) => call,
    };
    let input = input::read(&call.file)?;
    match call.command {
        "sheet" => print_sheet(&call, &input),
        "explain" => print_explanation(input),
        "draw" => write_picture(&call, input),
        "dispatch" => write_chart(&call, &input),
        "record" => print_record(&call, &input),
        _ => print_description(&call, &input),
    }
}

impl Call {
    fn has(&self, option: &str) -> bool {
        self.options.iter().any(|given| given == option)
    }

    /// The record of this call is refused.
    fn refused(&self, record: &[u8], refusal: Refusal) -> Failure {
        let source = if self.file == "-" { "standard input" } else { &self.file };
        Failure::Refused(format!("{source}: {}", refusal.words(record)))
    }
}

/// The exit status for a record: 1 if it is refused.
fn status(record: &[u8]) -> u8 {
    lfj::read(record).is_err() as u8
}

fn print_sheet(call: &Call, input: &Input) -> Result<u8, Failure> {
    let mut text = Vec::new();
    if call.has("--names") {
        let names = input.names.iter().enumerate();
        text.extend(names.flat_map(|(number, name)| format!("# v{number} {name}\n").into_bytes()));
    }
    text.extend(sheet::sheet(&input.record));
    print(&text)?;
    Ok(status(&input.record))
}

fn view(input: Input) -> View {
    View::new(&input.name, input.record, input.names)
}

fn print_explanation(input: Input) -> Result<u8, Failure> {
    let view = view(input);
    print(explain::explain(&view).as_bytes())?;
    Ok(status(&view.record))
}

fn write_picture(call: &Call, input: Input) -> Result<u8, Failure> {
    let view = view(input);
    let scene = Scene::of(&view).map_err(|refusal| call.refused(&view.record, refusal))?;
    let picture = if call.has("--text") { draw::text(&scene) } else { draw::svg(&scene) };
    write(call.out.as_deref(), picture.as_bytes())?;
    Ok(0)
}

fn write_chart(call: &Call, input: &Input) -> Result<u8, Failure> {
    let chart = Chart::of(&input.name, &input.record, call.heads.unwrap_or(HEADS));
    let chart = chart.map_err(|refusal| call.refused(&input.record, refusal))?;
    let picture =
        if call.has("--text") { draw::chart::text(&chart) } else { draw::chart::svg(&chart) };
    write(call.out.as_deref(), picture.as_bytes())?;
    Ok(0)
}

fn print_record(call: &Call, input: &Input) -> Result<u8, Failure> {
    if call.has("--hex") || io::stdout().is_terminal() {
        print((hex::hex(&input.record) + "\n").as_bytes())?;
    } else {
        print(&input.record)?;
    }
    Ok(0)
}

fn print_description(call: &Call, input: &Input) -> Result<u8, Failure> {
    let clause = lfj::Clause::of(&input.record);
    let clause = clause.map_err(|refusal| call.refused(&input.record, refusal))?;
    print(describe::write(&clause).as_bytes())?;
    Ok(0)
}
