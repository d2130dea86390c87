//! The reader against the rules as data: acceptance, place of blame, tree, and the order of the replies.

use super::reader::number::{ACCEPTED, GRAMMAR, TOO_DEEP, TREE_TABLE_FULL};
use super::reader::{read_tree, Reply, DEPTH_CEILING, TREE_NUMBERS};
use generate::cases::{depth, table_length};
use generate::kind::{FIRST_KEYWORD, LAST_MARK};
use generate::nest::first_too_deep;
use generate::sentence::Sentences;
use generate::{Cases, Chart, Grammar, Meaning, Random};

/// The answer that the scope page gives to a call of the tree part, from the limitless meaning of the list.
fn answer(meaning: &Meaning, grammar: &Grammar, kinds: &[u32], room: usize, depth: u32) -> Reply {
    let reply = |number, token, records: usize| Reply {
        number,
        place: place_of(token),
        tokens: kinds.len() as u32,
        records: records as u32,
    };
    let blame = match meaning {
        Meaning::Blame(token) => *token,
        Meaning::Records(_) => kinds.len(),
    };
    if let Some(token) = first_too_deep(&kinds[..blame], depth, grammar) {
        return reply(TOO_DEEP, token, 0);
    }
    match meaning {
        Meaning::Blame(token) => reply(GRAMMAR, *token, 0),
        Meaning::Records(records) if records.len() > room => reply(TREE_TABLE_FULL, kinds.len(), records.len()),
        Meaning::Records(records) => reply(ACCEPTED, kinds.len(), records.len()),
    }
}

/// The place of a token; that of the end is the length of the text.
fn place_of(token: usize) -> u32 {
    5 * token as u32 + 1
}

fn table_of(kinds: &[u32]) -> Vec<u32> {
    kinds.iter().enumerate().flat_map(|(token, &kind)| [kind, place_of(token), 3]).collect()
}

/// Compares the reader with the rules on one list, with a tree table of some length.
fn check(kinds: &[u32], chart: &Chart, grammar: &Grammar, random: &mut Random) {
    let meaning = chart.meaning(kinds);
    let records = match &meaning {
        Meaning::Records(records) => records.concat(),
        Meaning::Blame(_) => Vec::new(),
    };
    let garbage: Vec<u32> = (0..table_length(records.len(), random)).map(|_| random.number() as u32).collect();
    let depth = depth(random).clamp(1, DEPTH_CEILING);
    let text_length = place_of(kinds.len()) as usize;
    let mut tree = garbage.clone();
    let reply = read_tree(&table_of(kinds), kinds.len(), text_length, &mut tree, depth);
    let wanted = answer(&meaning, grammar, kinds, tree.len() / TREE_NUMBERS, depth);
    assert_eq!(reply, wanted, "{kinds:?} with depth {depth}");
    let wanted_tree = match reply.number {
        ACCEPTED => [&records[..], &garbage[records.len()..]].concat(),
        _ => vec![0; garbage.len()],
    };
    assert_eq!(tree, wanted_tree, "{kinds:?}");
}

#[test]
fn agrees_on_valid_and_damaged_lists() {
    let grammar = Grammar::published();
    let chart = Chart::new(&grammar);
    let cases = Cases::new(&grammar);
    let mut random = Random::new(1);
    for _ in 0..20_000 {
        let kinds = cases.any_kinds(&mut random);
        if kinds.len() <= 80 {
            check(&kinds, &chart, &grammar, &mut random);
        }
    }
}

/// Follows every beginning of lists that use every rule by every kind.
#[test]
fn agrees_on_every_kind_after_every_beginning() {
    let grammar = Grammar::published();
    let chart = Chart::new(&grammar);
    let mut random = Random::new(2);
    // Numbers whose low part is a kind.
    let wrapped = [FIRST_KEYWORD + 256, grammar.kinds.of("const") + 65536, u32::MAX];
    for rule in 1..grammar.rules.len() {
        let kinds = list_that_uses(rule, &grammar, &chart, &mut random);
        for (length, continuations) in chart.continuations(&kinds).iter().enumerate() {
            for kind in (0..=LAST_MARK + 1).chain(wrapped) {
                let list = [&kinds[..length], &[kind]].concat();
                check_last(&list, continuations.contains(&kind));
            }
        }
    }
}

/// The last token of a list is blamed exactly if no derivable list goes on with it, and none before it is.
fn check_last(kinds: &[u32], goes_on: bool) {
    let end = place_of(kinds.len());
    let mut tree = vec![0; 2 * TREE_NUMBERS * kinds.len()];
    let reply = read_tree(&table_of(kinds), kinds.len(), end as usize, &mut tree, DEPTH_CEILING);
    let last = place_of(kinds.len() - 1);
    match reply.number {
        GRAMMAR => assert_eq!(reply.place, if goes_on { end } else { last }, "{kinds:?}"),
        number => assert_eq!((number, goes_on), (ACCEPTED, true), "{kinds:?}"),
    }
}

/// A valid list in whose tree a rule is recorded; for the rules that never are, any list.
fn list_that_uses(rule: usize, grammar: &Grammar, chart: &Chart, random: &mut Random) -> Vec<u32> {
    let sentences = Sentences::new(grammar);
    loop {
        let kinds = sentences.kinds(random, 25, 60);
        if kinds.len() > 80 {
            continue;
        }
        let records = match chart.meaning(&kinds) {
            Meaning::Records(records) => records,
            Meaning::Blame(token) => panic!("{kinds:?} is derived, and blamed at {token}"),
        };
        if grammar.rules[rule].is_one_rule() || records.iter().any(|record| record[0] == rule as u32) {
            return kinds;
        }
    }
}
