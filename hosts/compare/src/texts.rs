//! The texts of words alone that instructions are counted on.

use generate::corpus::{WordList, COUNTED_SEED, COUNTED_SIZE, WORD_LISTS};
use generate::Grammar;

const LONG_WORD_SIZE: usize = 1_000_000;

/// These texts by name: lists, and one long word. Only the token part accepts them.
pub fn of_words() -> Vec<(&'static str, Vec<u8>)> {
    let kinds = Grammar::published().kinds;
    let list_text = |list: &WordList| (list.name, list.text(&kinds, COUNTED_SIZE, COUNTED_SEED));
    let mut texts: Vec<_> = WORD_LISTS.iter().map(list_text).collect();
    texts.push(("long-word", b"long_word_".iter().copied().cycle().take(LONG_WORD_SIZE).collect()));
    texts
}
