//! What each program here says of itself.

use std::io::Write;
use std::process::exit;

/// The words that the program is called with. `--help` and `--version` are answered, and end it.
pub fn words(name: &str, help: &str) -> Vec<String> {
    let words: Vec<String> = std::env::args().skip(1).collect();
    for word in &words {
        let text = match word.as_str() {
            "-h" | "--help" => help.to_string(),
            "--version" => format!("{name} {}\n", env!("CARGO_PKG_VERSION")),
            _ => continue,
        };
        match std::io::stdout().write_all(text.as_bytes()) {
            Ok(()) => exit(0),
            Err(error) => {
                eprintln!("{name}: {error}");
                exit(2);
            }
        }
    }
    words
}
