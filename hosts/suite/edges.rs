//! Limits: short tables, the ceiling of the text, every rule and every kind.

use super::common::{numbers_of, outcome, REFUSED_CALL};
use super::reader::number::{ACCEPTED, TOKEN_TABLE_FULL, TREE_TABLE_FULL};
use super::reader::{read, DEPTH_CEILING, TEXT_CEILING, TOKEN_NUMBERS, TREE_NUMBERS};
use generate::kind;
use generate::sentence::Sentences;
use generate::text::{spell, Layout};
use generate::{Grammar, Random};
use std::collections::HashSet;

/// A text of three tokens and four tree records, and the numbers of the two tables that it needs.
const TEXT: &[u8] = b"native A;";
const TOKENS_NEEDED: usize = 3 * TOKEN_NUMBERS;
const TREE_NEEDED: usize = 4 * TREE_NUMBERS;

#[test]
fn tables_of_any_length() {
    let length = TEXT.len() as u32;
    for (tokens_length, tree_length) in (0..12).flat_map(|tokens| (0..20).map(move |tree| (tokens, tree))) {
        let (mut tokens, mut tree) = (vec![5; tokens_length], vec![6; tree_length]);
        let reply = read(TEXT, &mut tokens, &mut tree, 1);
        let wanted = match (tokens_length >= TOKENS_NEEDED, tree_length >= TREE_NEEDED) {
            (false, _) => (TOKEN_TABLE_FULL, length, 3, 0),
            (true, false) => (TREE_TABLE_FULL, length, 3, 4),
            (true, true) => (ACCEPTED, length, 3, 4),
        };
        assert_eq!(numbers_of(reply), wanted);
        if reply.number == ACCEPTED {
            assert!(tokens[TOKENS_NEEDED..].iter().all(|&number| number == 5));
            assert!(tree[TREE_NEEDED..].iter().all(|&number| number == 6));
        } else {
            assert!(tokens.iter().chain(&tree).all(|&number| number == 0));
        }
    }
}

#[test]
fn the_token_table_is_counted_before_the_grammar() {
    assert_eq!(read(b"a b c )", &mut [], &mut [], 1).tokens, 4);
}

#[test]
fn text_ceiling() {
    let mut text = TEXT.to_vec();
    text.resize(TEXT_CEILING, b' ');
    let (mut tokens, mut tree) = ([3; TOKENS_NEEDED + 1], [3; TREE_NEEDED + 1]);
    let reply = read(&text, &mut tokens, &mut tree, DEPTH_CEILING);
    assert_eq!((reply.number, reply.place), (ACCEPTED, TEXT_CEILING as u32));
    assert_eq!((tokens[TOKENS_NEEDED], tree[TREE_NEEDED]), (3, 3));
    text.push(b' ');
    let before = (tokens, tree);
    assert_eq!(numbers_of(read(&text, &mut tokens, &mut tree, DEPTH_CEILING)), REFUSED_CALL);
    assert_eq!((tokens, tree), before);
}

#[test]
fn every_rule_and_every_kind_is_reached() {
    let grammar = Grammar::published();
    let sentences = Sentences::new(&grammar);
    let mut random = Random::new(3);
    let (mut rules, mut kinds) = (HashSet::new(), HashSet::new());
    for _ in 0..2_000 {
        let list = sentences.kinds(&mut random, 60, 60);
        let text = spell(&list, &grammar, Layout::Wild, &mut random);
        let outcome = outcome(&text);
        assert_eq!(outcome.reply.number, ACCEPTED, "{}", text.escape_ascii());
        assert_eq!(outcome.kinds(), list, "{}", text.escape_ascii());
        kinds.extend(list);
        rules.extend(outcome.records().iter().map(|record| record[0]));
    }
    let is_recorded = |&rule: &usize| !grammar.rules[rule].is_one_rule();
    assert_eq!(rules, (1..grammar.rules.len()).filter(is_recorded).map(|rule| rule as u32).collect());
    assert_eq!(kinds, kind::all().collect());
}
