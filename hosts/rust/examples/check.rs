//! Says of each file whether it is IDL: prints `FILE:byte: what is wrong` for each that is not.
//!
//! Usage: check FILE...

mod common;

use std::env;
use std::io::{self, Write};
use std::path::PathBuf;
use std::process::ExitCode;

fn main() -> io::Result<ExitCode> {
    let mut all_accepted = true;
    for file in env::args_os().skip(1).map(PathBuf::from) {
        let wrong = match common::file_bytes(&file) {
            Ok(text) => what_is_wrong(&text),
            Err(error) => Some((0, error.to_string())),
        };
        if let Some((place, message)) = wrong {
            writeln!(io::stdout(), "{}:{place}: {message}", file.display())?;
            all_accepted = false;
        }
    }
    Ok(if all_accepted { ExitCode::SUCCESS } else { ExitCode::FAILURE })
}

fn what_is_wrong(text: &[u8]) -> Option<(usize, String)> {
    let (mut tokens, mut tree) = common::tables(text);
    let reply = idl::read(text, &mut tokens, &mut tree, idl::DEPTH_CEILING);
    (!reply.is_accepted()).then(|| common::what_is_wrong(text, reply))
}
