//! The texts that the readers are timed and counted on are accepted, and have the size and the words asked for.

use super::common::{outcome, tokens};
use super::reader::number::ACCEPTED;
use generate::corpus::{Corpus, CORPORA, COUNTED_SEED, COUNTED_SIZE, SCANNER, WORD_LISTS};
use generate::kind::{FIRST_KEYWORD, FIRST_MARK, IDENTIFIER};
use generate::Grammar;
use std::collections::HashSet;

fn check(corpus: &Corpus, size: usize, seed: u64) {
    let text = corpus.text(size, seed);
    let reply = outcome(&text).reply;
    assert_eq!(reply.number, ACCEPTED, "{} of {size}, seed {seed}: refused at {}", corpus.name, reply.place);
    let length = text.len();
    assert!(size - 100 < length && length <= size, "{} of {size}, seed {seed}: {length}", corpus.name);
}

#[test]
fn every_kind_of_text_is_accepted() {
    for corpus in &CORPORA {
        for size in [1 << 10, 1500, 4 << 10, 10_007, 100 << 10, 1 << 20] {
            check(corpus, size, 1);
        }
    }
}

#[test]
fn the_small_texts_of_a_kind_are_accepted_and_differ() {
    for corpus in &CORPORA {
        (1..=100).for_each(|seed| check(corpus, 1 << 10, seed));
        let texts: HashSet<Vec<u8>> = (1..=100).map(|seed| corpus.text(1 << 10, seed)).collect();
        assert_eq!(texts.len(), 100, "{}", corpus.name);
    }
}

#[test]
fn the_scanner_file_is_accepted() {
    let reply = outcome(SCANNER).reply;
    assert_eq!(reply.number, ACCEPTED, "refused at {}", reply.place);
}

/// The words of a list without their last letters.
fn stems<'a>(words: impl Iterator<Item = &'a [u8]>) -> HashSet<&'a [u8]> {
    words.map(|word| &word[..word.len() - 1]).collect()
}

#[test]
fn the_words_of_a_list_are_of_its_sort() {
    let grammar_kinds = Grammar::published().kinds;
    let [identifiers, keywords, near] = WORD_LISTS.map(|list| list.text(&grammar_kinds, COUNTED_SIZE, COUNTED_SEED));
    let kinds = |text: &[u8]| tokens(text).expect("tokens").into_iter().collect::<HashSet<u32>>();
    assert_eq!(kinds(&identifiers), HashSet::from([IDENTIFIER]));
    assert_eq!(kinds(&keywords), (FIRST_KEYWORD..FIRST_MARK).collect());
    assert_eq!(kinds(&near), HashSet::from([IDENTIFIER]));
    let near_words = near.split(u8::is_ascii_whitespace).filter(|word| !word.is_empty());
    assert_eq!(stems(near_words), stems(grammar_kinds.keywords().map(str::as_bytes)));
}
