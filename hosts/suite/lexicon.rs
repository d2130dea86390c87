//! The token part against the lexemes as tests on whole byte strings.

use super::common::{numbers_of, CASE};
use super::reader::number::ACCEPTED;
use super::reader::{read_tokens, TOKEN_NUMBERS};
use generate::lexicon;
use generate::text::LETTERS;
use generate::{Cases, Grammar, Random};

fn check(text: &[u8], grammar: &Grammar) {
    let mut table = vec![0; TOKEN_NUMBERS * text.len()];
    let reply = numbers_of(read_tokens(text, &mut table));
    match lexicon::tokens(text, &grammar.kinds) {
        Ok(tokens) => {
            let wanted = (ACCEPTED, text.len() as u32, tokens.len() as u32, 0);
            assert_eq!(reply, wanted, "{}", text.escape_ascii());
            assert_eq!(table[..TOKEN_NUMBERS * tokens.len()], tokens.concat(), "{}", text.escape_ascii());
        }
        Err((fault, place)) => {
            let (number, count) = fault.number_and_count();
            assert_eq!(reply, (number, place as u32, count, 0), "{}", text.escape_ascii());
        }
    }
}

/// Calls a check on every text of this length over these bytes.
fn each_text(bytes: &[u8], length: usize, text: &mut Vec<u8>, check: &dyn Fn(&[u8])) {
    if text.len() == length {
        return check(text);
    }
    for &byte in bytes {
        text.push(byte);
        each_text(bytes, length, text, check);
        text.pop();
    }
}

#[test]
fn agrees_on_every_text_of_four_bytes() {
    let grammar = Grammar::published();
    let bytes = b"\"'\\L/*_.079xuedi+:< \n\r\0\x80\xa0";
    for length in 0..=4 {
        each_text(bytes, length, &mut Vec::new(), &|text| check(text, &grammar));
    }
}

#[test]
fn agrees_on_every_number_of_six_bytes() {
    let grammar = Grammar::published();
    each_text(b"018.xed+ ", 6, &mut Vec::new(), &|text| check(text, &grammar));
}

#[test]
fn agrees_on_every_beginning_of_a_literal() {
    let grammar = Grammar::published();
    for open in ["'", "L\"", "\"\\", "L'\\"] {
        let check_after = |rest: &[u8]| check(&[open.as_bytes(), rest].concat(), &grammar);
        for length in 0..=5 {
            each_text(b"'\"\\x0u4n\n", length, &mut Vec::new(), &check_after);
        }
    }
}

#[test]
fn agrees_on_valid_and_damaged_texts() {
    let grammar = Grammar::published();
    let cases = Cases::new(&grammar);
    let mut random = Random::new(4);
    for _ in 0..4_000 {
        let text = cases.text(&mut random);
        if text.len() < 2_000 {
            check(&text, &grammar);
        }
    }
}

#[test]
fn agrees_on_every_single_byte_between_tokens_and_inside_literals() {
    let grammar = Grammar::published();
    for byte in 0..=255 {
        for (before, after) in
            [("a ", " b"), ("a", "b"), ("\"", "\""), ("L'", "'"), ("'\\", "'"), ("/*", "*/"), ("//", "")]
        {
            check(&[before.as_bytes(), &[byte], after.as_bytes()].concat(), &grammar);
        }
    }
}

#[test]
fn agrees_on_keywords_in_every_case() {
    let grammar = Grammar::published();
    for keyword in grammar.kinds.keywords() {
        for changed in 0..1 << keyword.len() {
            let other_case = |(place, byte)| if changed >> place & 1 == 0 { byte } else { byte ^ CASE };
            check(&keyword.bytes().enumerate().map(other_case).collect::<Vec<u8>>(), &grammar);
        }
    }
}

#[test]
fn agrees_on_words_near_keywords() {
    let grammar = Grammar::published();
    for keyword in grammar.kinds.keywords().map(str::as_bytes) {
        check(&keyword[1..], &grammar);
        for place in 0..keyword.len() {
            check(&keyword[..place], &grammar);
        }
        for byte in 0..=255 {
            check(&[&[byte], keyword].concat(), &grammar);
            check(&[keyword, &[byte]].concat(), &grammar);
            for place in 0..keyword.len() {
                check(&[&keyword[..place], &[byte], &keyword[place + 1..]].concat(), &grammar);
            }
        }
    }
}

#[test]
fn agrees_on_every_first_letter_with_every_length() {
    let grammar = Grammar::published();
    let longest = grammar.kinds.keywords().map(str::len).max().expect("keywords");
    for &letter in LETTERS {
        for rest in 0..=longest + 1 {
            check(&[vec![letter], vec![b'a'; rest]].concat(), &grammar);
        }
    }
}
