//! An ordinary reader of CORBA IDL, written from the papers for speed and clarity.
//!
//! It gives the replies, places, counts and records of the proved reader, shares no code with it, and is what that
//! one is compared with.
//!
//! ```
//! let mut tokens = [0; 9];
//! let mut tree = [0; 16];
//! let reply = ordinary::read(b"native A;", &mut tokens, &mut tree, 1);
//! assert_eq!(reply, ordinary::Reply { number: 0, place: 9, tokens: 3, records: 4 });
//! assert_eq!(tree[..4], [51, 1, 2, 1]);
//! assert_eq!(ordinary::spelling(b"native A;", &tokens, 1), b"A");
//! ```

#![forbid(unsafe_code)]

mod block;
mod class;
pub mod keyword;
mod kind;
pub mod number;
mod parse;
mod rule;
mod scan;

use parse::{Parser, Stop};

/// The longest text, in bytes.
pub const TEXT_CEILING: usize = 1_048_576;
/// The largest depth setting.
pub const DEPTH_CEILING: u32 = 200;
/// The numbers of a token record.
pub const TOKEN_NUMBERS: usize = 3;
/// The numbers of a tree record.
pub const TREE_NUMBERS: usize = 4;

/// A reply: its number, a place in bytes, a count of tokens and a count of tree records. For a keyword in another case
/// the count of tokens is the keyword's kind.
#[derive(Clone, Copy, Debug, PartialEq, Eq)]
pub struct Reply {
    pub number: u32,
    pub place: u32,
    pub tokens: u32,
    pub records: u32,
}

impl Reply {
    fn new(number: u32, place: usize, tokens: usize, records: usize) -> Self {
        Reply { number, place: place as u32, tokens: tokens as u32, records: records as u32 }
    }

    fn bad_call() -> Self {
        Reply::new(number::BAD_CALL, 0, 0, 0)
    }
}

/// Reads a whole text into the two tables.
pub fn read(text: &[u8], tokens: &mut [u32], tree: &mut [u32], depth: u32) -> Reply {
    if text.len() > TEXT_CEILING || !depth_is_good(depth) {
        return Reply::bad_call();
    }
    let mut reply = scan_reply(text, tokens);
    if reply.number == number::ACCEPTED {
        reply = parse_reply(&tokens[..TOKEN_NUMBERS * reply.tokens as usize], text.len(), tree, depth);
    }
    if reply.number != number::ACCEPTED {
        tokens.fill(0);
        tree.fill(0);
    }
    reply
}

/// Reads the tokens of a text alone.
pub fn read_tokens(text: &[u8], tokens: &mut [u32]) -> Reply {
    if text.len() > TEXT_CEILING {
        return Reply::bad_call();
    }
    let reply = scan_reply(text, tokens);
    if reply.number != number::ACCEPTED {
        tokens.fill(0);
    }
    reply
}

/// Makes the tree alone, from the first `token_count` records of a token table.
pub fn read_tree(tokens: &[u32], token_count: usize, text_length: usize, tree: &mut [u32], depth: u32) -> Reply {
    let count_is_good = token_count <= tokens.len() / TOKEN_NUMBERS && token_count <= text_length;
    if text_length > TEXT_CEILING || !depth_is_good(depth) || !count_is_good {
        return Reply::bad_call();
    }
    let reply = parse_reply(&tokens[..TOKEN_NUMBERS * token_count], text_length, tree, depth);
    if reply.number != number::ACCEPTED {
        tree.fill(0);
    }
    reply
}

/// The bytes of one token; none if the table has no such record or its span leaves the text.
pub fn spelling<'a>(text: &'a [u8], tokens: &[u32], record: usize) -> &'a [u8] {
    match tokens.chunks_exact(TOKEN_NUMBERS).nth(record) {
        Some(&[_, first, length]) => text.get(first as usize..first as usize + length as usize).unwrap_or(&[]),
        _ => &[],
    }
}

fn depth_is_good(depth: u32) -> bool {
    (1..=DEPTH_CEILING).contains(&depth)
}

/// The reply of the token part; the table is left as it was filled.
fn scan_reply(text: &[u8], tokens: &mut [u32]) -> Reply {
    match scan::scan(text, tokens) {
        Err(fault) => Reply::new(fault.number, fault.place, fault.keyword as usize, 0),
        Ok(count) if count > tokens.len() / TOKEN_NUMBERS => Reply::new(number::TOKEN_TABLE_FULL, text.len(), count, 0),
        Ok(count) => Reply::new(number::ACCEPTED, text.len(), count, 0),
    }
}

/// The reply of the tree part on these token records, all of them; the table is left as it was filled.
fn parse_reply(tokens: &[u32], text_length: usize, tree: &mut [u32], depth: u32) -> Reply {
    let count = tokens.len() / TOKEN_NUMBERS;
    let room = tree.len() / TREE_NUMBERS;
    let mut parser = Parser::new(tokens, tree, depth);
    let parsed = parser.specification();
    let records = parser.records();
    let place = tokens.get(TOKEN_NUMBERS * parser.at() + 1).map_or(text_length, |&start| start as usize);
    match parsed {
        Err(Stop::Grammar) => Reply::new(number::GRAMMAR, place, count, 0),
        Err(Stop::TooDeep) => Reply::new(number::TOO_DEEP, place, count, 0),
        Ok(()) if records > room => Reply::new(number::TREE_TABLE_FULL, text_length, count, records),
        Ok(()) => Reply::new(number::ACCEPTED, text_length, count, records),
    }
}
