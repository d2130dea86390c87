//! Texts of the kinds that people write, to time and count by. They are made from the templates here and not from the
//! rules as data, so that a text stays as it is when the rules change. Only lists of words take keywords from there.

mod corba;
mod data;
mod joined;
mod lists;
mod names;
mod space;
mod strings;
mod words;

use crate::random::Random;
pub use lists::{WordList, WORD_LISTS};

/// A kind of text: what stands at its start, some part of it with its line end, and what stands at its end.
pub struct Corpus {
    pub name: &'static str,
    opening: &'static str,
    part: fn(&mut Random) -> String,
    closing: &'static str,
}

pub const CORPORA: [Corpus; 6] =
    [corba::CORPUS, data::CORPUS, words::CORPUS, space::CORPUS, strings::CORPUS, joined::CORPUS];

/// A file as people ship them: the messages of a counter-top scanner.
pub const SCANNER: &[u8] = include_bytes!("../../../samples/scanner.idl");

/// The size and the seed of the texts that instructions are counted on.
pub const COUNTED_SIZE: usize = 100 << 10;
pub const COUNTED_SEED: u64 = 1;

/// After so many parts that have no room, a text ends.
const TRIALS: usize = 100;

impl Corpus {
    /// A text of at most this many bytes, and of not many fewer; `size` is 1024 or more. Each seed gives another text.
    pub fn text(&self, size: usize, seed: u64) -> Vec<u8> {
        let mut text = latin_1(self.opening);
        fill(&mut text, size - self.closing.len(), seed, self.part);
        text.extend(latin_1(self.closing));
        text
    }
}

/// Adds parts to a text, up to this many bytes together, and to not many fewer.
fn fill(text: &mut Vec<u8>, size: usize, seed: u64, part: impl Fn(&mut Random) -> String) {
    let mut random = Random::new(seed);
    let mut trials = 0;
    while trials < TRIALS {
        let part = latin_1(&part(&mut random));
        if text.len() + part.len() <= size {
            text.extend(part);
        } else {
            trials += 1;
        }
    }
}

/// The bytes of these characters in ISO Latin-1, IDL's character set.
fn latin_1(text: &str) -> Vec<u8> {
    text.chars().map(|character| u8::try_from(character).expect("a Latin-1 character")).collect()
}

/// So many parts: `least` at least and `most` at most.
fn parts(random: &mut Random, least: usize, most: usize, part: impl Fn(&mut Random) -> String) -> Vec<String> {
    (0..least + random.below(most - least + 1)).map(|_| part(random)).collect()
}

/// So many parts, one after the other.
fn some(random: &mut Random, least: usize, most: usize, part: impl Fn(&mut Random) -> String) -> String {
    parts(random, least, most, part).concat()
}

/// So many parts with commas between them.
fn list(random: &mut Random, least: usize, most: usize, part: impl Fn(&mut Random) -> String) -> String {
    parts(random, least, most, part).join(", ")
}
