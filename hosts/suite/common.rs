//! What the tests share: a call with ample tables, and a refusal of both parts.

use super::reader::number::{ACCEPTED, BAD_CALL};
use super::reader::{read, read_tokens, Reply, DEPTH_CEILING, TOKEN_NUMBERS, TREE_NUMBERS};

/// The bit in which the two cases of a letter differ.
pub const CASE: u8 = b'a' ^ b'A';

/// Number, place and the two counts of a reply.
pub type Numbers = (u32, u32, u32, u32);

/// The numbers of the reply to a bad call.
pub const REFUSED_CALL: Numbers = (BAD_CALL, 0, 0, 0);

pub struct Outcome {
    pub reply: Reply,
    pub tokens: Vec<u32>,
    pub tree: Vec<u32>,
}

impl Outcome {
    pub fn numbers(&self) -> Numbers {
        numbers_of(self.reply)
    }

    /// The kinds of the tokens of an accepted text.
    pub fn kinds(&self) -> Vec<u32> {
        self.tokens.chunks(TOKEN_NUMBERS).take(self.reply.tokens as usize).map(|record| record[0]).collect()
    }

    /// The tree records of an accepted text.
    pub fn records(&self) -> Vec<[u32; TREE_NUMBERS]> {
        let records = self.tree.chunks(TREE_NUMBERS).take(self.reply.records as usize);
        records.map(|record| [record[0], record[1], record[2], record[3]]).collect()
    }
}

pub fn numbers_of(reply: Reply) -> Numbers {
    (reply.number, reply.place, reply.tokens, reply.records)
}

/// The outcome of a text at the largest depth setting.
pub fn outcome(text: &[u8]) -> Outcome {
    outcome_at(text, DEPTH_CEILING)
}

/// The outcome of a text at this depth setting. A token takes a byte, and a tree has at most two records a token.
pub fn outcome_at(text: &[u8], depth: u32) -> Outcome {
    let mut tokens = vec![0; TOKEN_NUMBERS * text.len()];
    let mut tree = vec![0; 2 * TREE_NUMBERS * text.len()];
    let reply = read(text, &mut tokens, &mut tree, depth);
    Outcome { reply, tokens, tree }
}

/// What a table holds before a call.
pub const FILLER: u32 = 7;

/// Demands this refusal of the token part and of the whole reader, and zeros in their tables, which have these lengths.
pub fn assert_refused_into([tokens_length, tree_length]: [usize; 2], text: &[u8], wanted: Numbers) {
    let (mut alone, mut tokens) = (vec![FILLER; tokens_length], vec![FILLER; tokens_length]);
    let mut tree = vec![FILLER; tree_length];
    let part = read_tokens(text, &mut alone);
    let whole = read(text, &mut tokens, &mut tree, DEPTH_CEILING);
    assert_eq!([part, whole].map(numbers_of), [wanted; 2], "{}", text.escape_ascii());
    assert!([alone, tokens, tree].concat().iter().all(|&number| number == 0), "{}", text.escape_ascii());
}

/// The same with ample tables.
pub fn assert_refused(text: &[u8], wanted: Numbers) {
    assert_refused_into([TOKEN_NUMBERS * text.len(), 2 * TREE_NUMBERS * text.len()], text, wanted);
}

/// The kinds of the tokens of a text, or the numbers of its refusal.
pub fn tokens(text: &[u8]) -> Result<Vec<u32>, Numbers> {
    let mut table = vec![0; TOKEN_NUMBERS * text.len()];
    let reply = read_tokens(text, &mut table);
    match reply.number {
        ACCEPTED => Ok(table.chunks(TOKEN_NUMBERS).take(reply.tokens as usize).map(|record| record[0]).collect()),
        _ => Err(numbers_of(reply)),
    }
}
