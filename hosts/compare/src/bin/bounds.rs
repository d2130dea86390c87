//! Holds counts of instructions against their bounds, or writes new bounds. Run by `hosts/instructions`.
//!
//! Usage: bounds COUNTS [BOUNDS]

use std::process::ExitCode;
use std::{env, fs};

fn run(files: &[String]) -> Result<Vec<String>, String> {
    let read = |file: &String| fs::read_to_string(file).map_err(|error| format!("{file}: {error}"));
    match files {
        [counts] => {
            print!("{}", compare::bounds::write(&read(counts)?)?);
            Ok(Vec::new())
        }
        [counts, bounds] => {
            let counts = read(counts)?;
            let (table, wrong) = compare::bounds::check(&counts, &read(bounds)?)?;
            print!("{table}\n{}", compare::bounds::by_word(&counts, &compare::texts::of_words())?);
            Ok(wrong)
        }
        _ => Err("usage: bounds COUNTS [BOUNDS]".to_string()),
    }
}

fn main() -> ExitCode {
    let files: Vec<String> = env::args().skip(1).collect();
    let wrong = run(&files).unwrap_or_else(|error| vec![error]);
    wrong.iter().for_each(|what| eprintln!("{what}"));
    if wrong.is_empty() {
        ExitCode::SUCCESS
    } else {
        ExitCode::FAILURE
    }
}
