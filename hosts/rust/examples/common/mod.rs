//! What the examples share: the bytes of a file, tables with room for any text, and what is said of a refused one.

use idl::{Reply, TEXT_CEILING, TOKEN_NUMBERS, TREE_NUMBERS};
use std::fs::File;
use std::io::{self, Read};
use std::path::Path;

/// The bytes of a file, at most one more than the reader takes.
pub fn file_bytes(file: &Path) -> io::Result<Vec<u8>> {
    let mut bytes = Vec::new();
    File::open(file)?.take(TEXT_CEILING as u64 + 1).read_to_end(&mut bytes)?;
    Ok(bytes)
}

/// A token table and a tree table. A token takes a byte at least, and a tree has at most two records a token.
pub fn tables(text: &[u8]) -> (Vec<u32>, Vec<u32>) {
    (vec![0; TOKEN_NUMBERS * text.len()], vec![0; TREE_NUMBERS * 2 * text.len()])
}

/// Where a refused text is wrong, and what is wrong there.
pub fn what_is_wrong(text: &[u8], refusal: Reply) -> (usize, String) {
    let message = match refusal {
        Reply::Grammar { place, .. } if place == text.len() => Some("the text ends too early".to_string()),
        Reply::KeywordCase { place, kind } => keyword_case(text, place, kind),
        _ => None,
    };
    (refusal.place().unwrap_or(0), message.unwrap_or_else(|| refusal.to_string()))
}

/// What is said of a keyword in another case. The tables are zero then, but the word is as long as the keyword.
fn keyword_case(text: &[u8], place: usize, kind: u32) -> Option<String> {
    let keyword = idl::keyword(kind)?;
    let word = text.get(place..)?.get(..keyword.len())?.escape_ascii();
    Some(format!("'{word}' differs only in case from the keyword '{keyword}'; write '_{word}' to use it as a name"))
}
