//! The comparison notices planted mistakes.

use compare::{plain, spellings, token_part, tree_part, whole_reader, Numbers, Outcome};
use generate::kind::{FIRST_KEYWORD, STRINGS, WIDE_STRING};
use generate::Grammar;
use ordinary::number::{ACCEPTED, BAD_CALL, BAD_LITERAL, KEYWORD_CASE, NO_LEXEME, TOKEN_TABLE_FULL, TREE_TABLE_FULL};
use ordinary::{read, read_tokens, read_tree, spelling, DEPTH_CEILING, TEXT_CEILING, TOKEN_NUMBERS, TREE_NUMBERS};
use std::ops::RangeInclusive;

const CASES: usize = 20_000;

fn assert_noticed(outcome: Outcome) {
    assert!(outcome.is_err(), "the comparison passed a reader with a mistake");
}

#[test]
fn nothing_planted() {
    assert!(token_part(1, CASES, |text, tokens| plain(read_tokens(text, tokens))).is_ok());
    let alone =
        |tokens: &[u32], count, length, tree: &mut [u32], depth| plain(read_tree(tokens, count, length, tree, depth));
    assert!(tree_part(1, CASES, alone).is_ok());
    assert!(whole_reader(1, CASES, |text, tokens, tree, depth| plain(read(text, tokens, tree, depth))).is_ok());
    assert!(spellings(1, CASES, spelling).is_ok());
}

#[test]
fn false_counts() {
    for number in [TOKEN_TABLE_FULL, TREE_TABLE_FULL] {
        let counted = |reply: Numbers| match reply {
            [found, place, tokens, 0] if found == number => [found, place, tokens + 1, 0],
            [found, place, tokens, records] if found == number => [found, place, tokens, records + 1],
            reply => reply,
        };
        assert_noticed(whole_reader(1, CASES, |text, tokens, tree, depth| {
            counted(plain(read(text, tokens, tree, depth)))
        }));
    }
}

#[test]
fn false_kinds_of_keywords_in_another_case() {
    // No kind, the next keyword's, and the keyword's place in the list.
    let mistakes: [fn(u32) -> u32; 3] = [|_| 0, |kind| kind + 1, |kind| kind - FIRST_KEYWORD];
    for mistake in mistakes {
        let named = |reply: Numbers| match reply {
            [KEYWORD_CASE, place, kind, records] => [KEYWORD_CASE, place, mistake(kind), records],
            reply => reply,
        };
        assert_noticed(token_part(1, CASES, |text, tokens| named(plain(read_tokens(text, tokens)))));
        assert_noticed(whole_reader(1, CASES, |text, tokens, tree, depth| {
            named(plain(read(text, tokens, tree, depth)))
        }));
    }
}

/// The tokens read with these bytes taken in literals: one that makes a literal bad becomes a letter.
fn taking(bytes: RangeInclusive<u8>, text: &[u8], tokens: &mut [u32]) -> Numbers {
    let (mut text, lent) = (text.to_vec(), tokens.to_vec());
    loop {
        tokens.copy_from_slice(&lent);
        let reply = plain(read_tokens(&text, tokens));
        let literal = if reply[0] == BAD_LITERAL { &mut text[reply[1] as usize..] } else { &mut [] };
        match literal.iter_mut().find(|byte| bytes.contains(byte)) {
            Some(byte) => *byte = b'a',
            None => return reply,
        }
    }
}

#[test]
fn high_bytes_taken_in_literals() {
    for bytes in [0xa0..=0xff, 0x7f..=0x9f] {
        assert_noticed(token_part(1, CASES, |text, tokens| taking(bytes.clone(), text, tokens)));
    }
}

#[test]
fn high_bytes_refused_in_comments() {
    assert_noticed(token_part(1, CASES, |text, tokens| {
        let reply = plain(read_tokens(text, tokens));
        match text.iter().position(|&byte| byte >= 0xa0) {
            Some(place) if reply[0] == ACCEPTED => {
                tokens.fill(0);
                [NO_LEXEME, place as u32, 0, 0]
            }
            _ => reply,
        }
    }));
}

#[test]
fn numbers_past_the_last_whole_record_kept() {
    assert_noticed(tree_part(1, CASES, |tokens, count, length, tree, depth| {
        let whole = tree.len() / TREE_NUMBERS * TREE_NUMBERS;
        plain(read_tree(tokens, count, length, &mut tree[..whole], depth))
    }));
    assert_noticed(token_part(1, CASES, |text, tokens| {
        let whole = tokens.len() / TOKEN_NUMBERS * TOKEN_NUMBERS;
        plain(read_tokens(text, &mut tokens[..whole]))
    }));
}

#[test]
fn numbers_after_the_last_record_cleared() {
    assert_noticed(token_part(1, CASES, |text, tokens| {
        tokens.fill(0);
        plain(read_tokens(text, tokens))
    }));
}

#[test]
fn tables_cleared_by_a_bad_call() {
    assert_noticed(whole_reader(1, CASES, |text, tokens, tree, depth| {
        let reply = plain(read(text, tokens, tree, depth));
        if reply[0] != ACCEPTED {
            tree.fill(0);
        }
        reply
    }));
}

#[test]
fn ceilings_off_by_one() {
    assert_noticed(whole_reader(1, CASES, |text, tokens, tree, depth| {
        plain(read(text, tokens, tree, if depth == DEPTH_CEILING + 1 { DEPTH_CEILING } else { depth }))
    }));
    assert_noticed(whole_reader(1, CASES, |text, tokens, tree, depth| {
        plain(read(text, tokens, tree, if depth == DEPTH_CEILING { DEPTH_CEILING - 1 } else { depth }))
    }));
    assert_noticed(token_part(1, CASES, |text, tokens| match text.len() {
        TEXT_CEILING => [BAD_CALL, 0, 0, 0],
        _ => plain(read_tokens(text, tokens)),
    }));
}

#[test]
fn the_depth_ceiling_before_it_was_raised() {
    const BEFORE: u32 = 64;
    assert_noticed(whole_reader(1, CASES, |text, tokens, tree, depth| {
        plain(read(text, tokens, tree, if depth > BEFORE { 0 } else { depth }))
    }));
    assert_noticed(tree_part(1, CASES, |tokens, count, length, tree, depth| {
        let setting = if depth > DEPTH_CEILING { depth } else { depth.min(BEFORE) };
        plain(read_tree(tokens, count, length, tree, setting))
    }));
}

#[test]
fn kinds_compared_by_their_low_part() {
    for mask in [0xff, 0xffff, 0x7fff_ffff] {
        assert_noticed(tree_part(1, CASES, |tokens, count, length, tree, depth| {
            let low = |(at, &number): (usize, &u32)| if at % TOKEN_NUMBERS == 0 { number & mask } else { number };
            let low: Vec<u32> = tokens.iter().enumerate().map(low).collect();
            plain(read_tree(&low, count, length, tree, depth))
        }));
    }
}

/// The token table with another kind for each string directly behind a string, from the kinds of both.
fn second_strings(tokens: &[u32], kind: fn(u32, u32) -> u32) -> Vec<u32> {
    let mut tokens = tokens.to_vec();
    for at in (TOKEN_NUMBERS..tokens.len()).step_by(TOKEN_NUMBERS) {
        let before = tokens[at - TOKEN_NUMBERS];
        if STRINGS.contains(&before) && STRINGS.contains(&tokens[at]) {
            tokens[at] = kind(before, tokens[at]);
        }
    }
    tokens
}

const NO_KIND: u32 = WIDE_STRING + 1;

#[test]
fn strings_not_joined() {
    assert_noticed(tree_part(1, CASES, |tokens, count, length, tree, depth| {
        let single = second_strings(tokens, |before, kind| if before == kind { NO_KIND } else { kind });
        plain(read_tree(&single, count, length, tree, depth))
    }));
}

#[test]
fn strings_of_both_kinds_joined() {
    assert_noticed(tree_part(1, CASES, |tokens, count, length, tree, depth| {
        let mixed = second_strings(tokens, |before, _| before);
        plain(read_tree(&mixed, count, length, tree, depth))
    }));
}

#[test]
fn a_literal_recorded_over_its_first_string() {
    let literal = Grammar::rule("literal");
    assert_noticed(tree_part(1, CASES, |tokens, count, length, tree, depth| {
        let reply = plain(read_tree(tokens, count, length, tree, depth));
        if reply[0] == ACCEPTED {
            let records = tree.chunks_exact_mut(TREE_NUMBERS).take(reply[3] as usize);
            records.filter(|record| record[0] == literal).for_each(|record| record[2] = record[1] + 1);
        }
        reply
    }));
}

#[test]
fn spans_that_leave_the_text_cut_short() {
    assert_noticed(spellings(1, CASES, |text, tokens, record| {
        let (first, length) = match tokens.chunks_exact(TOKEN_NUMBERS).nth(record) {
            Some(&[_, first, length]) => (first as usize, length as usize),
            _ => (0, 0),
        };
        let end = text.len();
        &text[end.min(first)..end.min(first + length)]
    }));
}
