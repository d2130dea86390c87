//! Neighbouring strings join: request A1.

use super::common::{numbers_of, outcome};
use super::reader::number::{ACCEPTED, GRAMMAR, TOKEN_TABLE_FULL, TREE_TABLE_FULL};
use super::reader::{read, read_tokens, read_tree, DEPTH_CEILING, TOKEN_NUMBERS, TREE_NUMBERS};
use generate::kind::WIDE_STRING;
use generate::Grammar;

const LITERAL: u32 = 39;
const CONTEXT: u32 = 94;

/// The records of this rule in the tree of an accepted text.
fn records(rule: u32, text: &str) -> Vec<[u32; TREE_NUMBERS]> {
    let outcome = outcome(text.as_bytes());
    assert_eq!(outcome.reply.number, ACCEPTED, "{text}");
    outcome.records().into_iter().filter(|record| record[0] == rule).collect()
}

/// The text is blamed where `blamed` stands in it for the first time, or at its end.
fn assert_blamed(text: &str, blamed: Option<&str>) {
    let place = blamed.map_or(text.len(), |token| text.find(token).expect("the token is there"));
    let tokens = read_tokens(text.as_bytes(), &mut vec![0; TOKEN_NUMBERS * text.len()]).tokens;
    assert_eq!(outcome(text.as_bytes()).numbers(), (GRAMMAR, place as u32, tokens, 0), "{text}");
}

/// So many strings of this spelling.
fn row(string: &str, count: usize) -> String {
    vec![string; count].join(" ")
}

/// A constant of so many strings.
fn constant(count: usize) -> String {
    format!("const string A = {};", row("\"a\"", count))
}

#[test]
fn one_record_over_a_row_of_any_length() {
    let [narrow_type, wide_type] = ["string_type", "wide_string_type"].map(Grammar::rule);
    let [declaration, definition, specification] = ["const_dcl", "definition", "specification"].map(Grammar::rule);
    for count in [1, 2, 3, 1000, 100_000] {
        let past = 4 + count as u32;
        let wide = format!("const wstring A = {};", row("L\"a\"", count));
        for (text, string_type) in [(constant(count), narrow_type), (wide, wide_type)] {
            let outcome = outcome(text.as_bytes());
            assert_eq!(outcome.numbers(), (ACCEPTED, text.len() as u32, past + 1, 5));
            let wanted = [
                [string_type, 1, 2, 1],
                [LITERAL, 4, past, 1],
                [declaration, 0, past, 3],
                [definition, 0, past + 1, 4],
                [specification, 0, past + 1, 5],
            ];
            assert_eq!(outcome.records(), wanted);
        }
    }
}

#[test]
fn the_tokens_stay_separate() {
    let outcome = outcome(br#"const wstring A = L"a" L"bc";"#);
    let semicolon = Grammar::published().kinds.of(";");
    let records = &outcome.tokens[4 * TOKEN_NUMBERS..7 * TOKEN_NUMBERS];
    assert_eq!(records, [WIDE_STRING, 18, 4, WIDE_STRING, 23, 5, semicolon, 28, 1]);
    assert_eq!(outcome.kinds()[4..], [WIDE_STRING, WIDE_STRING, semicolon]);
}

#[test]
fn joined_across_blanks_or_none() {
    let gaps = ["", " ", "\t", "\n", "\r\n", "/**/", "// \" a\n", " /* L\"b\" */\r// c\n\n"];
    for gap in gaps {
        assert_eq!(records(LITERAL, &format!("const string A = \"a\"{gap}\"b\";")), [[LITERAL, 4, 6, 1]]);
        assert_eq!(records(LITERAL, &format!("const wstring A = L\"a\"{gap}L\"b\";")), [[LITERAL, 4, 6, 1]]);
    }
}

#[test]
fn wherever_a_literal_stands() {
    assert_eq!(
        records(LITERAL, r#"const string A = "a" "b" + ("c" "d" "e") * L"f" L"g" - 1;"#),
        [[LITERAL, 4, 6, 1], [LITERAL, 8, 11, 1], [LITERAL, 13, 15, 1], [LITERAL, 16, 17, 1]]
    );
    assert_eq!(records(LITERAL, r#"typedef string<"a" "b"> T["c" "d"];"#), [[LITERAL, 3, 5, 1], [LITERAL, 8, 10, 1]]);
    assert_eq!(records(LITERAL, r#"union U switch(A) { case "a" "b": any c; };"#), [[LITERAL, 8, 10, 1]]);
}

#[test]
fn a_mixture_is_blamed_at_the_other_kind() {
    assert_blamed(r#"const string A = "a" L"b";"#, Some("L"));
    assert_blamed(r#"const string A = "a" "b" L"c" "d";"#, Some("L"));
    assert_blamed(r#"const string A = "a"L"b";"#, Some("L"));
    assert_blamed(r#"const wstring A = L"a" "b";"#, Some(r#""b""#));
    assert_blamed(r#"const wstring A = L"a" L"b" "c" L"d";"#, Some(r#""c""#));
    assert_blamed(r#"const wstring A = (L"a" "b");"#, Some(r#""b""#));
    assert_blamed(&constant(1000).replace(';', "L\"b\";"), Some("L"));
}

#[test]
fn other_literals_do_not_join() {
    assert_blamed("const char A = 'a' 'b';", Some("'b'"));
    assert_blamed("const wchar A = L'a' L'b';", Some("L'b'"));
    assert_blamed("const long A = 1 2;", Some("2"));
    assert_blamed("const string A = \"a\" 'b';", Some("'b'"));
    assert_blamed("const string A = 'a' \"b\";", Some("\"b\""));
    assert_blamed("const string A = \"a\" B;", Some("B"));
    assert_blamed("const boolean A = TRUE \"b\";", Some("\"b\""));
}

/// An operation with this context.
fn operation(strings: &str) -> String {
    format!("interface I {{ void f() context({strings}); }};")
}

#[test]
fn joined_in_a_context() {
    for (strings, past) in [
        (r#""a""#, 11),
        (r#""a" "b""#, 12),
        (r#""a" "b", "c""#, 14),
        (r#""a", "b" "c" "d", "e" "f""#, 18),
        ("\"a\"\"b\"/**/\"c\",// d\n\"e\"\n\"f\"", 16),
    ] {
        let text = operation(strings);
        assert_eq!(records(CONTEXT, &text), [[CONTEXT, 7, past, 1]], "{text}");
        assert_eq!(records(LITERAL, &text), [[0; TREE_NUMBERS]; 0], "{text}");
    }
    let thousand = row("\"a\"", 1000);
    assert_eq!(records(CONTEXT, &operation(&format!("{thousand}, {thousand}"))), [[CONTEXT, 7, 2011, 1]]);
}

#[test]
fn a_context_takes_narrow_strings_alone() {
    assert_blamed(&operation(r#"L"a" L"b""#), Some("L"));
    assert_blamed(&operation(r#""a" L"b""#), Some("L"));
    assert_blamed(&operation(r#""a" "b" L"c" "d""#), Some("L"));
    assert_blamed(&operation(r#""a", "b" L"c""#), Some("L"));
    assert_blamed(&operation(r#""a", L"b" "c""#), Some("L"));
    assert_blamed(&operation(r#""a" "b","#), Some(");"));
}

#[test]
fn a_row_at_the_end_of_the_text() {
    for strings in [r#""a""#, r#""a" "b""#, r#"L"a" L"b""#, "\"a\" \"b\" // c"] {
        assert_blamed(&format!("const string A = {strings}"), None);
    }
    assert_blamed(r#"interface I { void f() context("a" "b""#, None);
    assert_blamed(r#"interface I { void f() context("a", "b" "c""#, None);
    assert_blamed(constant(1000).trim_end_matches(';'), None);
}

#[test]
fn small_tables() {
    let text = constant(1000);
    let call = |tokens: usize, records: usize| {
        let (mut tokens, mut tree) = (vec![7; TOKEN_NUMBERS * tokens], vec![7; TREE_NUMBERS * records]);
        let reply = read(text.as_bytes(), &mut tokens, &mut tree, DEPTH_CEILING);
        assert_eq!(tokens.iter().chain(&tree).all(|&number| number == 0), reply.number != ACCEPTED);
        numbers_of(reply)
    };
    let length = text.len() as u32;
    assert_eq!(call(1004, 5), (TOKEN_TABLE_FULL, length, 1005, 0));
    assert_eq!(call(1005, 4), (TREE_TABLE_FULL, length, 1005, 5));
    assert_eq!(call(1005, 5), (ACCEPTED, length, 1005, 5));
}

/// The tree part reads a row as far as the count goes, though the table holds more of it.
#[test]
fn a_row_cut_by_the_count() {
    let text = constant(3).into_bytes();
    let mut tokens = vec![0; TOKEN_NUMBERS * 8];
    assert_eq!(read_tokens(&text, &mut tokens).tokens, 8);
    for count in 5..8 {
        let reply = read_tree(&tokens, count, text.len(), &mut [], DEPTH_CEILING);
        assert_eq!(numbers_of(reply), (GRAMMAR, text.len() as u32, count as u32, 0));
    }
    assert_eq!(read_tree(&tokens, 8, text.len(), &mut [], DEPTH_CEILING).records, 5);
}
