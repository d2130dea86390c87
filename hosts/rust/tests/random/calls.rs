//! Calls of the reader with any tables and settings, and the outline of what they leave.

use crate::lent::{any_number, count, table};
use crate::outline::assert_as_described;
use generate::cases::{depth, TableCase};
use generate::damage::raw_bytes;
use generate::{Cases, Grammar, Random};
use idl::{Record, Reply, DEPTH_CEILING, TEXT_CEILING, TOKEN_NUMBERS, TREE_NUMBERS};
use std::cmp::Reverse;

/// Runs this many cases.
fn run(count: usize, case: impl Fn(&Cases, &mut Random)) {
    let grammar = Grammar::published();
    let cases = Cases::new(&grammar);
    let mut random = Random::new(1);
    (0..count).for_each(|_| case(&cases, &mut random));
}

fn any_depth(random: &mut Random) -> u32 {
    match random.below(4) {
        0 => any_number(random),
        _ => depth(random),
    }
}

fn is_good_call(text_length: usize, depth: u32) -> bool {
    text_length <= TEXT_CEILING && (1..=DEPTH_CEILING).contains(&depth)
}

/// Demands that a table is as the reply says: unchanged after the numbers of its records, unchanged, or zero.
fn assert_as_replied(reply: Reply, before: &[u32], after: &[u32], used: usize) {
    match reply {
        Reply::Accepted { .. } => assert_eq!(after[used..], before[used..]),
        Reply::BadCall => assert_eq!(after, before),
        _ => assert!(after.iter().all(|&number| number == 0)),
    }
}

/// The numbers of the token records and of the tree records that the reply counts.
fn used(reply: Reply) -> [usize; 2] {
    match reply {
        Reply::Accepted { tokens, records } => [TOKEN_NUMBERS * tokens, TREE_NUMBERS * records],
        _ => [0; 2],
    }
}

#[test]
fn token_part() {
    run(5_000, |cases, random| {
        let (text, before) = (cases.text(random), table(600, random));
        let mut tokens = before.clone();
        let reply = idl::read_tokens(&text, &mut tokens);
        assert_eq!(reply == Reply::BadCall, text.len() > TEXT_CEILING);
        assert_as_replied(reply, &before, &tokens, used(reply)[0]);
    });
}

#[test]
fn spelling() {
    run(20_000, |_, random| {
        let (text, tokens) = (raw_bytes(random), table(40, random));
        let record = count(tokens.len() / TOKEN_NUMBERS, random);
        let token = idl::tokens(&tokens, usize::MAX).nth(record);
        let part = token.and_then(|token| text.get(token.first..)?.get(..token.length));
        assert_eq!(idl::spelling(&text, &tokens, record), part.unwrap_or_default());
    });
}

#[test]
fn tree_part() {
    run(5_000, |cases, random| {
        let TableCase { mut tokens, mut token_count, mut text_length } = cases.table(random);
        if random.once_in(4) {
            tokens = table(200, random);
        }
        let capacity = tokens.len() / TOKEN_NUMBERS;
        if random.once_in(4) {
            token_count = count(capacity, random);
        }
        if random.once_in(4) {
            text_length = count(TEXT_CEILING, random);
        }
        let (depth, before) = (any_depth(random), table(800, random));
        let mut tree = before.clone();
        let reply = idl::read_tree(&tokens, token_count, text_length, &mut tree, depth);
        let is_good = is_good_call(text_length, depth) && token_count <= capacity.min(text_length);
        assert_eq!(reply == Reply::BadCall, !is_good);
        assert_as_replied(reply, &before, &tree, used(reply)[1]);
    });
}

#[test]
fn whole_reader() {
    run(5_000, |cases, random| {
        let (text, depth) = (cases.text(random), any_depth(random));
        let before = [table(600, random), table(800, random)];
        let [mut tokens, mut tree] = before.clone();
        let reply = idl::read(&text, &mut tokens, &mut tree, depth);
        assert_eq!(reply == Reply::BadCall, !is_good_call(text.len(), depth));
        assert_as_replied(reply, &before[0], &tokens, used(reply)[0]);
        assert_as_replied(reply, &before[1], &tree, used(reply)[1]);
    });
}

/// The tree records of a text, if it is accepted.
fn tree_of(text: &[u8]) -> Option<Vec<u32>> {
    let mut tokens = vec![0; TOKEN_NUMBERS * text.len()];
    let mut tree = vec![0; TREE_NUMBERS * 2 * text.len()];
    let reply = idl::read(text, &mut tokens, &mut tree, DEPTH_CEILING);
    tree.truncate(used(reply)[1]);
    reply.is_accepted().then_some(tree)
}

/// The tree records of an accepted text.
fn any_tree(cases: &Cases, random: &mut Random) -> Vec<u32> {
    loop {
        if let Some(tree) = tree_of(&cases.text(random)) {
            return tree;
        }
    }
}

#[test]
fn outline_of_an_accepted_text() {
    run(1_000, |cases, random| {
        let tree = any_tree(cases, random);
        let records: Vec<Record> = idl::records(&tree, usize::MAX).collect();
        // A subtree is the records from its start to its root, which is above the others.
        let start = |place: usize| place + 1 - records[place].size;
        let level = |place: usize| (place + 1..records.len()).filter(|&root| start(root) <= place).count();
        let mut places: Vec<usize> = (0..records.len()).collect();
        places.sort_by_key(|&place| (start(place), Reverse(place)));
        let wanted: Vec<(usize, Record)> = places.iter().map(|&place| (level(place), records[place])).collect();
        assert_eq!(idl::outline(&tree, usize::MAX), wanted);
    });
}

#[test]
fn outline_with_sizes_off_by_one() {
    run(1_000, |cases, random| {
        let mut tree = any_tree(cases, random);
        // The size is the last number of a record.
        for size in tree.iter_mut().skip(TREE_NUMBERS - 1).step_by(TREE_NUMBERS) {
            match random.below(10) {
                0 => *size -= 1,
                1 => *size += 1,
                _ => {}
            }
        }
        let count = count(tree.len() / TREE_NUMBERS, random);
        assert_as_described(&mut tree, count);
    });
}

#[test]
fn outline_of_a_deep_tree() {
    const SUMS: usize = 500_000;
    let text = format!("const long A = 1{};", "+1".repeat(SUMS));
    let tree = tree_of(text.as_bytes()).expect("it is accepted");
    // The first number is below each sum, the constant, its definition and the specification.
    let deepest = idl::outline(&tree, usize::MAX).iter().map(|(level, _)| *level).max();
    assert_eq!(deepest, Some(SUMS + 3));
}
