//! Calls each part of both readers once on each text, on words alone only the token part, and prints, in this order,
//! what it has called. Run by `hosts/instructions`, which counts the instructions of each call.

use compare::{plain, plain_proved, texts, tokens_needed, Numbers};
use generate::corpus::{CORPORA, COUNTED_SEED, COUNTED_SIZE, SCANNER};
use ordinary::{DEPTH_CEILING as DEPTH, TOKEN_NUMBERS, TREE_NUMBERS};

/// What is counted. It is found by its name, so it is never inlined.
#[no_mangle]
#[inline(never)]
pub fn counted_call(call: &mut dyn FnMut() -> Numbers) {
    assert_eq!(call()[0], ordinary::number::ACCEPTED);
}

fn count(text: &str, part: &str, mut theirs: impl FnMut() -> Numbers, mut ours: impl FnMut() -> Numbers) {
    counted_call(&mut theirs);
    println!("{text} {part} ordinary");
    counted_call(&mut ours);
    println!("{text} {part} proved");
}

/// Counts the token part and gives the table that it has filled.
fn count_tokens(name: &str, text: &[u8]) -> Vec<u32> {
    let mut tokens = vec![0; tokens_needed(text)];
    let mut other_tokens = tokens.clone();
    count(
        name,
        "tokens",
        || plain(ordinary::read_tokens(text, &mut tokens)),
        || plain_proved(idl::raw::read_tokens(text, &mut other_tokens)),
    );
    assert!(tokens == other_tokens, "{name}: the readers agree");
    tokens
}

fn count_parts(name: &str, text: &[u8]) {
    let length = text.len();
    let mut tokens = count_tokens(name, text);
    let count_of_tokens = tokens.len() / TOKEN_NUMBERS;
    let mut tree = vec![0; 2 * TREE_NUMBERS * count_of_tokens];
    let (mut other_tokens, mut other_tree) = (tokens.clone(), tree.clone());
    count(
        name,
        "tree",
        || plain(ordinary::read_tree(&tokens, count_of_tokens, length, &mut tree, DEPTH)),
        || plain_proved(idl::raw::read_tree(&other_tokens, count_of_tokens, length, &mut other_tree, DEPTH)),
    );
    count(
        name,
        "whole",
        || plain(ordinary::read(text, &mut tokens, &mut tree, DEPTH)),
        || plain_proved(idl::raw::read(text, &mut other_tokens, &mut other_tree, DEPTH)),
    );
}

fn main() {
    for corpus in &CORPORA {
        count_parts(corpus.name, &corpus.text(COUNTED_SIZE, COUNTED_SEED));
    }
    count_parts("scanner.idl", SCANNER);
    for (name, text) in texts::of_words() {
        count_tokens(name, &text);
    }
}
