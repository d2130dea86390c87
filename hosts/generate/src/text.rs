//! From kinds of token to bytes: random spellings and what stands between them.

use crate::grammar::Grammar;
use crate::kind;
use crate::random::Random;

/// What stands between tokens: a space or line end, or anything that is blank and sometimes nothing.
#[derive(Clone, Copy, PartialEq, Eq)]
pub enum Layout {
    Tidy,
    Wild,
}

/// A text with these kinds of token.
pub fn spell(kinds: &[u32], grammar: &Grammar, layout: Layout, random: &mut Random) -> Vec<u8> {
    let mut text = Vec::new();
    let mut before: Vec<u8> = Vec::new();
    for &kind in kinds {
        let token = token(kind, grammar, random);
        match layout {
            Layout::Tidy => text.extend(tidy_gap(&before, random)),
            Layout::Wild => text.extend(wild_gap(&before, &token, random)),
        }
        text.extend(&token);
        before = token;
    }
    if layout == Layout::Wild && random.once_in(3) {
        text.extend(blank(random));
    }
    text
}

fn tidy_gap(before: &[u8], random: &mut Random) -> Vec<u8> {
    match before {
        b"" => Vec::new(),
        b";" | b"{" if random.once_in(12) => b"\n    // What follows is kept as it was agreed.\n    ".to_vec(),
        b";" | b"{" => b"\n    ".to_vec(),
        _ => b" ".to_vec(),
    }
}

fn wild_gap(before: &[u8], token: &[u8], random: &mut Random) -> Vec<u8> {
    if may_touch(before, token) && !random.once_in(3) {
        return Vec::new();
    }
    let mut gap = match before {
        b"/" => b" ".to_vec(),
        _ => blank(random),
    };
    while random.once_in(4) {
        gap.extend(blank(random));
    }
    gap
}

/// Whether the two tokens stay two with nothing between them: the first is closed by a quote, or one is a mark, and if
/// both are they share no byte.
fn may_touch(before: &[u8], token: &[u8]) -> bool {
    let is_mark = |byte: &u8| byte.is_ascii_punctuation() && !b"_.'\"".contains(byte);
    match (before.last(), token.first()) {
        (Some(b'\'' | b'"'), _) => true,
        (Some(last), Some(first)) if is_mark(last) && is_mark(first) => last != first && *last != b'/',
        (Some(last), Some(first)) => is_mark(last) || is_mark(first),
        _ => true,
    }
}

fn blank(random: &mut Random) -> Vec<u8> {
    let blanks: [&[u8]; 12] = [
        b" ",
        b" ",
        b" ",
        b"\n",
        b"\t",
        b"\r\n",
        b"\x0b",
        b"\x0c",
        b"/**/",
        b"/* a \" ' \\ \xff */",
        b"// b /* \n",
        b"/***/",
    ];
    random.pick(&blanks).to_vec()
}

/// A spelling of this kind.
fn token(kind: u32, grammar: &Grammar, random: &mut Random) -> Vec<u8> {
    if let Some(spelling) = grammar.kinds.spelling(kind) {
        return spelling.as_bytes().to_vec();
    }
    match kind {
        kind::IDENTIFIER => identifier(grammar, random),
        kind::INTEGER => integer(random),
        kind::FLOATING => floating(random),
        kind::FIXED => fixed(random),
        kind::CHARACTER => [b"'".to_vec(), character(random, b'\'', false), b"'".to_vec()].concat(),
        kind::WIDE_CHARACTER => [b"L'".to_vec(), character(random, b'\'', true), b"'".to_vec()].concat(),
        kind::STRING => [b"\"".to_vec(), characters(random, false), b"\"".to_vec()].concat(),
        kind::WIDE_STRING => [b"L\"".to_vec(), characters(random, true), b"\"".to_vec()].concat(),
        _ => panic!("no token is of kind {kind}"),
    }
}

fn some(alphabet: &[u8], least: usize, most: usize, random: &mut Random) -> Vec<u8> {
    let length = least + random.below(most - least + 1);
    (0..length).map(|_| *random.pick(alphabet)).collect()
}

pub const LETTERS: &[u8] = b"abcdefghijklmnopqrstuvwxyzABCDEFGHIJKLMNOPQRSTUVWXYZ";
const WORD: &[u8] = b"abcdefghijklmnopqrstuvwxyzABCDEFGHIJKLMNOPQRSTUVWXYZ0123456789_";
const DIGITS: &[u8] = b"0123456789";
const OCTAL: &[u8] = b"01234567";
const HEX: &[u8] = b"0123456789abcdefABCDEF";

fn identifier(grammar: &Grammar, random: &mut Random) -> Vec<u8> {
    let keywords: Vec<&str> = grammar.kinds.keywords().collect();
    let keyword = random.pick(&keywords).as_bytes();
    match random.below(12) {
        0 => return [b"_", keyword].concat(),
        1 => return [keyword, b"s"].concat(),
        2 => return [b"_".to_vec(), some(LETTERS, 1, 3, random)].concat(),
        _ => {}
    }
    let word = [some(LETTERS, 1, 1, random), some(WORD, 0, 11, random)].concat();
    let is_keyword = keywords.iter().any(|keyword| word.eq_ignore_ascii_case(keyword.as_bytes()));
    if is_keyword {
        return [word, b"_".to_vec()].concat();
    }
    word
}

fn integer(random: &mut Random) -> Vec<u8> {
    match random.below(4) {
        0 => [b"0".to_vec(), some(OCTAL, 0, 6, random)].concat(),
        1 => [b"0x".to_vec(), some(HEX, 1, 8, random)].concat(),
        2 => [b"0X".to_vec(), some(HEX, 1, 2, random)].concat(),
        _ => [some(&DIGITS[1..], 1, 1, random), some(DIGITS, 0, 8, random)].concat(),
    }
}

/// Digits with a point, at least one digit on one side.
fn pointed(random: &mut Random) -> Vec<u8> {
    let (left, right) = *random.pick(&[(0, 1), (1, 0), (1, 1)]);
    [some(DIGITS, left, 4, random), b".".to_vec(), some(DIGITS, right, 4, random)].concat()
}

fn floating(random: &mut Random) -> Vec<u8> {
    let sign = *random.pick(&[&b""[..], b"+", b"-"]);
    let exponent = [some(b"eE", 1, 1, random), sign.to_vec(), some(DIGITS, 1, 3, random)].concat();
    match random.below(3) {
        0 => pointed(random),
        1 => [pointed(random), exponent].concat(),
        _ => [some(DIGITS, 1, 4, random), exponent].concat(),
    }
}

fn fixed(random: &mut Random) -> Vec<u8> {
    let digits = if random.once_in(2) { pointed(random) } else { some(DIGITS, 1, 5, random) };
    [digits, some(b"dD", 1, 1, random)].concat()
}

/// One character of a literal, never character zero; an escape by number has all its digits.
fn character(random: &mut Random, quote: u8, wide: bool) -> Vec<u8> {
    match random.below(8) {
        0 => [b'\\', *random.pick(b"ntvbrfa\\?'\"")].to_vec(),
        1 => [b"\\".to_vec(), some(b"123", 1, 1, random), some(OCTAL, 2, 2, random)].concat(),
        2 => [b"\\x".to_vec(), some(&HEX[1..], 2, 2, random)].concat(),
        3 if wide => [b"\\u".to_vec(), some(&HEX[1..], 4, 4, random)].concat(),
        _ => {
            let byte = b' ' + random.below(95) as u8;
            vec![if byte == quote || byte == b'\\' { b' ' } else { byte }]
        }
    }
}

fn characters(random: &mut Random, wide: bool) -> Vec<u8> {
    let count = random.below(8);
    (0..count).flat_map(|_| character(random, b'"', wide)).collect()
}
