//! The names of kinds and rules are those of the grammar.

use generate::damage::no_kind;
use generate::kind::{self, FIRST_KEYWORD, LAST_MARK};
use generate::{believed, Grammar, Random};
use std::collections::HashMap;

/// Every number that a kind or rule has, and others: small ones, those with the low part of a kind, and any.
fn numbers() -> impl Iterator<Item = u32> {
    let mut random = Random::new(1);
    let other = move |_| [no_kind(&mut random), random.number() as u32];
    (0..1_000).chain((0..1_000).flat_map(other)).chain([u32::MAX])
}

#[test]
fn keywords_and_marks() {
    let kinds = Grammar::published().kinds;
    for kind in FIRST_KEYWORD..=LAST_MARK {
        assert_eq!(idl::kind_name(kind), kinds.spelling(kind));
    }
}

#[test]
fn exactly_the_keywords_have_a_spelling() {
    let spellings: HashMap<u32, &str> = believed::keywords().into_iter().collect();
    for number in numbers() {
        assert_eq!(idl::keyword(number), spellings.get(&number).copied(), "{number}");
    }
}

#[test]
fn rules() {
    for (rule, name) in Grammar::names().iter().enumerate() {
        assert_eq!(idl::rule_name(rule as u32 + 1), Some(name.as_str()));
    }
}

#[test]
fn other_numbers_have_no_name() {
    let rules = Grammar::names().len();
    for number in numbers() {
        assert_eq!(idl::kind_name(number).is_some(), kind::all().any(|kind| kind == number));
        assert_eq!(idl::rule_name(number).is_some(), (1..=rules).contains(&(number as usize)));
    }
}
