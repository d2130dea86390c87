//! A keyword in another case is refused with the keyword's kind: request A3.

use super::common::{assert_refused, assert_refused_into, numbers_of, outcome, tokens, CASE, FILLER, REFUSED_CALL};
use super::reader::number::{ACCEPTED, BAD_LITERAL, KEYWORD_CASE, NO_LEXEME, OPEN};
use super::reader::{read, read_tokens, DEPTH_CEILING, TEXT_CEILING, TOKEN_NUMBERS, TREE_NUMBERS};
use generate::kind::{IDENTIFIER, MARKS};
use generate::Grammar;

/// Demands that a text is refused for the keyword of this kind, in another case at this place.
fn assert_keyword_case(text: &str, place: usize, kind: u32) {
    assert_refused(text.as_bytes(), (KEYWORD_CASE, place as u32, kind, 0));
}

/// A keyword with the case of the letters changed whose places pass the test.
fn changed(keyword: &str, test: impl Fn(usize) -> bool) -> String {
    let letter = |(place, byte)| char::from(if test(place) { byte ^ CASE } else { byte });
    keyword.bytes().enumerate().map(letter).collect()
}

/// A keyword in capitals, in small letters, and with its first, its last or every second letter changed.
fn other_cases(keyword: &str) -> impl Iterator<Item = String> + '_ {
    let words = [
        keyword.to_ascii_uppercase(),
        keyword.to_ascii_lowercase(),
        changed(keyword, |place| place == 0),
        changed(keyword, |place| place == keyword.len() - 1),
        changed(keyword, |place| place % 2 == 1),
    ];
    words.into_iter().filter(move |word| word != keyword)
}

#[test]
fn every_keyword() {
    let kinds = Grammar::published().kinds;
    for keyword in kinds.keywords() {
        for word in other_cases(keyword) {
            assert_keyword_case(&word, 0, kinds.of(keyword));
            assert_keyword_case(&format!("module M {{ native {word}; }};"), 18, kinds.of(keyword));
        }
    }
}

#[test]
fn kinds_in_numbers() {
    let words = [
        ("false", 16),
        ("OBJECT", 17),
        ("object", 17),
        ("True", 18),
        ("valuebase", 19),
        ("Factory", 33),
        ("IN", 36),
        ("Local", 39),
        ("LONG", 40),
        ("WString", 63),
    ];
    for (word, kind) in words {
        assert_keyword_case(word, 0, kind);
    }
}

#[test]
fn words_that_are_none() {
    for word in Grammar::published().kinds.keywords().flat_map(other_cases) {
        assert_eq!(tokens(format!("_{word}").as_bytes()), Ok(vec![IDENTIFIER]), "{word}");
        assert_eq!(tokens(format!("{word}_ {word}1 {word}{word}").as_bytes()), Ok(vec![IDENTIFIER; 3]), "{word}");
    }
    assert_eq!(outcome(b"interface _Factory { };").numbers(), (ACCEPTED, 23, 5, 5));
}

#[test]
fn the_first_fault_stands() {
    let faults =
        [("@", NO_LEXEME, 0), ("\"a\n", OPEN, 0), ("/*", OPEN, 0), ("08", BAD_LITERAL, 0), ("LONG", KEYWORD_CASE, 40)];
    for (fault, number, count) in faults {
        assert_refused(format!("{fault} Factory").as_bytes(), (number, 0, count, 0));
        assert_keyword_case(&format!("Factory {fault}"), 0, 33);
    }
}

#[test]
fn between_marks_literals_and_comments() {
    for mark in MARKS.split(' ') {
        assert_keyword_case(&format!("{mark}Local{mark}"), mark.len(), 39);
    }
    let neighbours = [("'a'", "'b'"), ("L\"a\"", "\"b\""), ("/**/", "/**/"), ("//\n", "//"), ("", "@"), ("", "é")];
    for (before, after) in neighbours {
        assert_keyword_case(&format!("{before}Local{after}"), before.len(), 39);
    }
}

#[test]
fn at_every_distance_from_the_ends() {
    let word = "Truncatable";
    let most_before = TEXT_CEILING - word.len();
    let small = (0..20).flat_map(|before| (0..20).map(move |after| (before, after)));
    for (before, after) in small.chain([(most_before, 0), (most_before - 1, 1)]) {
        assert_keyword_case(&format!("{}{word}{}", " ".repeat(before), " ".repeat(after)), before, 56);
    }
}

#[test]
fn it_comes_before_the_grammar_the_depth_and_full_tables() {
    assert_keyword_case("} Interface", 2, 38);
    assert_keyword_case("interface interface LONG", 20, 40);
    let parentheses = "(".repeat(DEPTH_CEILING as usize + 1);
    assert_keyword_case(&format!("const long A = {parentheses}False"), 15 + parentheses.len(), 16);
    for lengths in (0..7).flat_map(|tokens| (0..5).map(move |tree| [tokens, tree])) {
        assert_refused_into(lengths, b"native A; native Local;", (KEYWORD_CASE, 17, 39, 0));
    }
}

#[test]
fn a_bad_call_comes_before_it() {
    let (mut tokens, mut tree) = ([FILLER; TOKEN_NUMBERS], [FILLER; TREE_NUMBERS]);
    let too_long = format!("Factory{}", " ".repeat(TEXT_CEILING));
    assert_eq!(numbers_of(read_tokens(too_long.as_bytes(), &mut tokens)), REFUSED_CALL);
    for (text, depth) in [("Factory", 0), ("Factory", DEPTH_CEILING + 1), (too_long.as_str(), DEPTH_CEILING)] {
        assert_eq!(numbers_of(read(text.as_bytes(), &mut tokens, &mut tree, depth)), REFUSED_CALL);
    }
    assert_eq!((tokens, tree), ([FILLER; TOKEN_NUMBERS], [FILLER; TREE_NUMBERS]));
}
