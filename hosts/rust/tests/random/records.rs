//! The records of any table, and replies of any numbers.

use crate::lent::{any_number, count, table};
use generate::Random;
use idl::raw::number::*;
use idl::{raw, Reply, TOKEN_NUMBERS, TREE_NUMBERS};

#[test]
fn records_are_the_numbers_of_the_table() {
    let mut random = Random::new(1);
    for _ in 0..20_000 {
        let table = table(60, &mut random);
        let count = count(table.len() / TREE_NUMBERS, &mut random);
        let tokens = idl::tokens(&table, count);
        let numbers: Vec<u32> =
            tokens.flat_map(|token| [token.kind, token.first as u32, token.length as u32]).collect();
        assert_eq!(numbers, table[..TOKEN_NUMBERS * count.min(table.len() / TOKEN_NUMBERS)]);
        let records = idl::records(&table, count);
        let numbers: Vec<u32> = records
            .flat_map(|record| [record.rule, record.first as u32, record.end as u32, record.size as u32])
            .collect();
        assert_eq!(numbers, table[..TREE_NUMBERS * count.min(table.len() / TREE_NUMBERS)]);
    }
}

#[test]
fn replies() {
    let mut random = Random::new(1);
    for _ in 0..20_000 {
        let number = if random.once_in(4) { any_number(&mut random) } else { random.below(12) as u32 };
        let place = any_number(&mut random);
        let plain = raw::Reply { number, place, tokens: any_number(&mut random), records: any_number(&mut random) };
        let reply = Reply::from(plain);
        assert_eq!(reply.is_accepted(), number == ACCEPTED);
        let blames_text = matches!(number, NO_LEXEME..=KEYWORD_CASE | GRAMMAR);
        assert_eq!(reply.blames_text(), blames_text);
        assert_eq!(reply.place(), (blames_text || number == TOO_DEEP).then_some(place as usize));
        assert_eq!(reply == Reply::Unknown(plain), number > TREE_TABLE_FULL);
        let kind = plain.tokens;
        assert_eq!(reply == Reply::KeywordCase { place: place as usize, kind }, number == KEYWORD_CASE);
        let said = reply.to_string();
        assert!(!said.is_empty());
        if number == KEYWORD_CASE {
            let named = idl::keyword(kind).map_or(kind.to_string(), |keyword| format!("'{keyword}'"));
            assert!(said.ends_with(&named), "{said}");
        }
    }
}
