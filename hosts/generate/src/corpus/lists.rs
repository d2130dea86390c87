//! Lists of words of one sort, to count by the word. The token part accepts them; the grammar derives none of them.

use super::fill;
use super::names::{constant_name, member_name, short_name, type_name};
use crate::kind::Kinds;
use crate::random::Random;
use crate::text::LETTERS;

/// A sort of words: its name, and what picks one, given the keywords.
pub struct WordList {
    pub name: &'static str,
    word: fn(&[&str], &mut Random) -> String,
}

pub const WORD_LISTS: [WordList; 3] = [
    WordList { name: "identifiers", word: identifier },
    WordList { name: "keywords", word: keyword },
    WordList { name: "near", word: near_keyword },
];

/// How many words stand on a line, about.
const WORDS_A_LINE: usize = 8;

impl WordList {
    /// A list of at most this many bytes, and of not many fewer. Behind each word stands a space or a line end.
    pub fn text(&self, kinds: &Kinds, size: usize, seed: u64) -> Vec<u8> {
        let keywords: Vec<&str> = kinds.keywords().collect();
        let mut text = Vec::new();
        fill(&mut text, size, seed, |random| {
            let end = if random.once_in(WORDS_A_LINE) { "\n" } else { " " };
            (self.word)(&keywords, random) + end
        });
        text
    }
}

/// A name as people write them.
fn identifier(_: &[&str], random: &mut Random) -> String {
    match random.below(4) {
        0 => type_name(random),
        1 => member_name(random),
        2 => constant_name(random),
        _ => short_name(random),
    }
}

fn keyword(keywords: &[&str], random: &mut Random) -> String {
    random.pick(keywords).to_string()
}

/// An identifier that is a keyword but for its last letter, so that they are compared to the end.
fn near_keyword(keywords: &[&str], random: &mut Random) -> String {
    loop {
        let mut word = keyword(keywords, random);
        word.pop();
        word.push(char::from(*random.pick(LETTERS)));
        if !keywords.iter().any(|keyword| keyword.eq_ignore_ascii_case(&word)) {
            return word;
        }
    }
}
