//! Many string constants with long bodies, some with escapes. Letters outside ASCII are escapes in strings, and stand as
//! they are in comments.

use super::names::constant_name;
use super::{some, Corpus};
use crate::random::Random;

pub const CORPUS: Corpus = Corpus { name: "strings", opening: "module Texts {\n", part: definition, closing: "};\n" };

fn definition(random: &mut Random) -> String {
    let name = constant_name(random);
    let number = random.below(1000);
    match random.below(8) {
        0 => format!("    // {}\n", some(random, 1, 6, remark)),
        1..=2 => format!("    const wstring {name}_{number} = L\"{}\";\n", some(random, 1, 30, wide_piece)),
        _ => format!("    const string {name}_{number} = \"{}\";\n", some(random, 1, 30, piece)),
    }
}

fn remark(random: &mut Random) -> String {
    match random.below(2) {
        0 => random.pick(&FOREIGN).to_string(),
        _ => random.pick(&PLAIN).to_string(),
    }
}

pub fn piece(random: &mut Random) -> String {
    match random.below(16) {
        0 => random.pick(&ESCAPES).to_string(),
        1 => escaped(*random.pick(&FOREIGN)),
        _ => random.pick(&PLAIN).to_string(),
    }
}

/// The text with its letters outside ASCII as escapes.
fn escaped(text: &str) -> String {
    let character = |letter: char| match letter.is_ascii() {
        true => letter.to_string(),
        false => format!("\\x{:02x}", letter as u32),
    };
    text.chars().map(character).collect()
}

fn wide_piece(random: &mut Random) -> String {
    match random.below(16) {
        0 => format!("\\u{:04x}", 0x100 + random.below(0x2000)),
        _ => piece(random),
    }
}

const PLAIN: [&str; 12] = [
    "the shelf ",
    "is empty, ",
    "scan the label ",
    "once more ",
    "please; ",
    "item ",
    "was not found ",
    "in the price list ",
    "(see the manual) ",
    "and call ",
    "extension 4711. ",
    "It's ",
];

const ESCAPES: [&str; 6] = ["\\n", "\\t", "\\\"quoted\\\" ", "C:\\\\scans ", "\\x1b", "\\033"];

const FOREIGN: [&str; 6] = ["Größe ", "prix réduit ", "año ", "Änderung ", "façade ", "© "];
