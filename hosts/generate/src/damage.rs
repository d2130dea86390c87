//! Damage to texts and token lists.

use crate::kind::{self, FIRST_KEYWORD, LAST_MARK, STRINGS, WIDE_STRING};
use crate::random::Random;

/// Lexemes and beginnings of lexemes that readers get wrong.
const TRICKY: [&[u8]; 68] = [
    b"08",
    b"018",
    b"09e1",
    b"08.5",
    b"08d",
    b"0",
    b"0x",
    b"0xg",
    b"0X1f",
    b"0x1.",
    b"1e",
    b"1.e",
    b"1e+",
    b"1e5d",
    b"1d5",
    b"1.2.3",
    b".",
    b"..",
    b".5",
    b"5.",
    b".5d",
    b".d",
    b".e1",
    b"''",
    b"'ab'",
    b"'a",
    b"'a\\",
    b"'a\\x",
    b"'\\u1'",
    b"L'\\u1'",
    b"L'\\u'",
    b"'\\0'",
    b"\"\\0\"",
    b"\"\\x0",
    b"L\"\\u0",
    b"\"\\400\"",
    b"'\\377'",
    b"'\\8'",
    b"'\\X1'",
    b"L'\\U1'",
    b"'\"'",
    b"\"'\"",
    b"'''",
    b"'\\''",
    b"aL\"x\"",
    b"_L'x'",
    b"L",
    b"_",
    b"_1",
    b"__a",
    b"/*/",
    b"/*",
    b"//",
    b"/**/",
    b"*/",
    b"\\",
    b"#",
    b"Interface",
    b"STRING",
    b"true",
    b"object",
    b"\x80",
    b"\x9f",
    b"'\xa0'",
    b"L\"\\xa0\xa0\"",
    b"\"~\x7f",
    b"//\xff",
    b"::::",
];

/// Bytes that change what a text means.
const TELLING: &[u8] = b"\"'\\L/*_.0189xXuUeEdD+-:<>(){}[];, \t\n\r\0\x7f\x80\x9f\xa0\xff#@a";

/// Damages a text once.
pub fn damage_text(text: &mut Vec<u8>, random: &mut Random) {
    let place = random.below(text.len() + 1);
    match random.below(9) {
        0 => text.truncate(place),
        1 => text.insert(place, *random.pick(TELLING)),
        2 => text.insert(place, random.byte()),
        3 => drop(text.splice(place..place, random.pick(&TRICKY).iter().copied())),
        4 => change_case(text, place),
        _ if place == text.len() => text.push(*random.pick(TELLING)),
        5 => text[place] ^= 1 << random.below(8),
        6 => drop(text.remove(place)),
        7 => text[place] = *random.pick(TELLING),
        _ => {
            let end = (place + 1 + random.below(12)).min(text.len());
            drop(text.drain(place..end));
        }
    }
}

/// Changes the case of the first letter from this place on.
fn change_case(text: &mut [u8], place: usize) {
    if let Some(letter) = text[place..].iter_mut().find(|byte| byte.is_ascii_alphabetic()) {
        *letter ^= 32;
    }
}

/// Damages a list of kinds once.
pub fn damage_kinds(kinds: &mut Vec<u32>, random: &mut Random) {
    let place = random.below(kinds.len() + 1);
    let other = random.below(kinds.len() + 1);
    match random.below(7) {
        0 => kinds.truncate(place),
        1 => kinds.insert(place, any_kind(random)),
        2 if change_width(&mut kinds[place..]) => {}
        _ if place == kinds.len() || other == kinds.len() => kinds.push(any_kind(random)),
        3 => kinds.swap(place, other),
        4 => drop(kinds.remove(place)),
        5 => kinds[place] = kinds[other],
        _ => kinds[place] = any_kind(random),
    }
}

/// Makes the first string of these a wide one, or a narrow one if it is wide; says whether there is one.
fn change_width(kinds: &mut [u32]) -> bool {
    let string = kinds.iter_mut().find(|kind| STRINGS.contains(kind));
    string.map(|kind| *kind = STRINGS[0] + STRINGS[1] - *kind).is_some()
}

/// A kind that the token part gives.
pub fn any_kind(random: &mut Random) -> u32 {
    let kinds: Vec<u32> = kind::all().collect();
    *random.pick(&kinds)
}

/// A number that is no kind, often one that shares its low byte with a kind.
pub fn no_kind(random: &mut Random) -> u32 {
    match random.below(4) {
        0 => *random.pick(&[0, WIDE_STRING + 1, FIRST_KEYWORD - 1, LAST_MARK + 1, 127, u32::MAX]),
        1 => any_kind(random) + 256,
        2 => any_kind(random) + 65536,
        _ => any_kind(random) | 1 << 31,
    }
}

/// Bytes with no plan behind them: any, or those that change what a text means.
pub fn raw_bytes(random: &mut Random) -> Vec<u8> {
    let length = random.below(40);
    match random.below(4) {
        0 => (0..length).map(|_| random.byte()).collect(),
        1 => (0..length / 2).flat_map(|_| random.pick(&TRICKY).to_vec()).collect(),
        _ => (0..length).map(|_| *random.pick(TELLING)).collect(),
    }
}
