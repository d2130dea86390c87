//! Reads a file and prints its tokens and its tree, indented; or `FILE:byte: what is wrong`.
//!
//! Usage: tree FILE

mod common;

use idl::Reply;
use std::env;
use std::io::{self, Write};
use std::path::PathBuf;
use std::process::ExitCode;

fn main() -> io::Result<ExitCode> {
    let file = PathBuf::from(env::args_os().nth(1).unwrap_or_default());
    let text = match common::file_bytes(&file) {
        Ok(text) => text,
        Err(error) => {
            eprintln!("{}: {error}\nusage: tree FILE", file.display());
            return Ok(ExitCode::from(2));
        }
    };
    let (mut tokens, mut tree) = common::tables(&text);
    match idl::read(&text, &mut tokens, &mut tree, idl::DEPTH_CEILING) {
        Reply::Accepted { tokens: count, records } => {
            print_tokens(&text, &tokens, count)?;
            print_tree(&text, &tokens, &tree, records)?;
            Ok(ExitCode::SUCCESS)
        }
        refusal => {
            let (place, message) = common::what_is_wrong(&text, refusal);
            writeln!(io::stdout(), "{}:{place}: {message}", file.display())?;
            Ok(ExitCode::FAILURE)
        }
    }
}

fn print_tokens(text: &[u8], tokens: &[u32], count: usize) -> io::Result<()> {
    let mut out = io::stdout().lock();
    for (number, token) in idl::tokens(tokens, count).enumerate() {
        let name = idl::kind_name(token.kind).unwrap_or("?");
        let spelling = idl::spelling(text, tokens, number).escape_ascii().to_string();
        let class = if name == spelling { "" } else { name };
        writeln!(out, "{}", format!("{number}, byte {}: {spelling} {class}", token.first).trim_end())?;
    }
    Ok(())
}

/// A line is indented by at most so many levels, and shows at most so many tokens and so many bytes of each: a tree can
/// be as deep as its text is long.
const LEVELS_SHOWN: usize = 80;
const TOKENS_SHOWN: usize = 6;
const BYTES_SHOWN: usize = 40;

fn print_tree(text: &[u8], tokens: &[u32], tree: &[u32], count: usize) -> io::Result<()> {
    let mut out = io::stdout().lock();
    for (level, record) in idl::outline(tree, count) {
        let indent = "  ".repeat(level.min(LEVELS_SHOWN));
        let name = idl::rule_name(record.rule).unwrap_or("?");
        writeln!(out, "{indent}{name}: {}", beginning(text, tokens, record))?;
    }
    Ok(())
}

/// The first few tokens of a record.
fn beginning(text: &[u8], tokens: &[u32], record: idl::Record) -> String {
    let word = |token| {
        let spelling = idl::spelling(text, tokens, token);
        spelling.get(..BYTES_SHOWN).unwrap_or(spelling).escape_ascii().to_string()
    };
    let span = record.first..record.end;
    let mut words: Vec<String> = span.clone().take(TOKENS_SHOWN).map(word).collect();
    if span.len() > TOKENS_SHOWN {
        words.push("...".to_string());
    }
    words.join(" ")
}
