//! The random lists reach strings side by side.

use generate::chart::Record;
use generate::kind::STRINGS;
use generate::{Cases, Chart, Grammar, Meaning, Random};

/// Whether two strings, of one kind or of both, stand side by side.
fn has_neighbours(kinds: &[u32]) -> bool {
    kinds.windows(2).any(|pair| pair.iter().all(|kind| STRINGS.contains(kind)))
}

#[test]
fn in_literals_in_contexts_and_as_mixtures() {
    let grammar = Grammar::published();
    let (literal, context) = (Grammar::rule("literal"), Grammar::rule("context_expr"));
    let (chart, cases) = (Chart::new(&grammar), Cases::new(&grammar));
    let mut random = Random::new(1);
    let (mut literals, mut contexts, mut mixtures) = (0, 0, 0);
    for _ in 0..20_000 {
        let kinds = cases.any_kinds(&mut random);
        if kinds.len() > 80 {
            continue;
        }
        match chart.meaning(&kinds) {
            // No row of one kind is blamed at its second string.
            Meaning::Blame(token) if token > 0 => {
                mixtures += usize::from(has_neighbours(kinds.get(token - 1..=token).unwrap_or(&[])));
            }
            Meaning::Blame(_) => {}
            Meaning::Records(records) => {
                let span = |record: &Record| &kinds[record[1] as usize..record[2] as usize];
                let rows =
                    |rule| records.iter().filter(|record| record[0] == rule && has_neighbours(span(record))).count();
                literals += rows(literal);
                contexts += rows(context);
            }
        }
    }
    assert!(literals > 100 && contexts > 10 && mixtures > 10, "{literals} {contexts} {mixtures}");
}
