//! Writes the conformance kit's cases anew: one file a group, into the folder named.

use compare::about;
use std::path::Path;
use std::process::ExitCode;

const HELP: &str = "\
usage: kit-cases FOLDER
Writes the conformance kit's cases into the folder, one file a group.
";

fn main() -> ExitCode {
    let words = about::words("kit-cases", HELP);
    let [folder] = &words[..] else {
        eprint!("{HELP}");
        return ExitCode::from(2);
    };
    let mut all = 0;
    for file in compare::kit::files() {
        let path = Path::new(folder).join(format!("{}.txt", file.name));
        if let Err(error) = std::fs::write(&path, file.text) {
            eprintln!("{}: {error}", path.display());
            return ExitCode::FAILURE;
        }
        println!("{:>6} {}", file.cases, file.name);
        all += file.cases;
    }
    println!("{all:>6} cases");
    ExitCode::SUCCESS
}
