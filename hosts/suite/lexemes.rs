//! What the papers mean by a lexeme and a fault, where a reader could stumble.

use super::common::{numbers_of, tokens};
use super::reader::number::{ACCEPTED, BAD_CALL, BAD_LITERAL, KEYWORD_CASE, NO_LEXEME, OPEN, TOKEN_TABLE_FULL};
use super::reader::{read_tokens, spelling, TEXT_CEILING, TOKEN_NUMBERS};
use generate::kind::*;
use generate::Grammar;

/// The kind of a keyword or mark.
fn kind(spelling: &str) -> u32 {
    Grammar::published().kinds.of(spelling)
}

fn assert_tokens(text: &str, kinds: &[u32]) {
    assert_eq!(tokens(text.as_bytes()), Ok(kinds.to_vec()), "{text}");
}

fn assert_faults(texts: &[&[u8]], number: u32, place: u32) {
    for text in texts {
        assert_eq!(tokens(text), Err((number, place, 0, 0)), "{}", text.escape_ascii());
    }
}

#[test]
fn wide_literals() {
    assert_tokens("L'x' L\"x\" L", &[WIDE_CHARACTER, WIDE_STRING, IDENTIFIER]);
    assert_tokens("aL\"x\" _L'x'", &[IDENTIFIER, STRING, IDENTIFIER, CHARACTER]);
    assert_tokens("L 'x'", &[IDENTIFIER, CHARACTER]);
    assert_faults(&[b"L'", b"L\"", b"L\"\n\"", b"L'\r'"], OPEN, 0);
    assert_faults(&[b"L''", b"L'ab'", b"L\"\\q\""], BAD_LITERAL, 0);
}

#[test]
fn underscores() {
    assert_tokens("_a _L _interface _Interface _a1_", &[IDENTIFIER; 5]);
    assert_faults(&[b"_", b"_1", b"__a", b"_ a", b"_'a'"], NO_LEXEME, 0);
    let (text, mut table) = (b" _union", [0; 3]);
    read_tokens(text, &mut table);
    assert_eq!(table, [IDENTIFIER, 1, 6]);
}

#[test]
fn points() {
    assert_tokens(
        "1.2.3 1..2 0x1.5 1e5.3 1d.5",
        &[FLOATING, FLOATING, FLOATING, FLOATING, INTEGER, FLOATING, FLOATING, FLOATING, FIXED, FLOATING],
    );
    assert_faults(&[b".", b"..", b". 1", b".d", b".e1"], NO_LEXEME, 0);
    assert_faults(&[b"0x1.", b"1.2.", b"0x1.d", b"1e5."], NO_LEXEME, 3);
}

#[test]
fn numbers() {
    assert_tokens("0 07 19 0x0 0XfF", &[INTEGER; 5]);
    assert_tokens("08.5 09e1 1. .1 1.e3 .1E-3 1e+3 0e0", &[FLOATING; 8]);
    assert_tokens("08d 1D 1.d .1d 1.1D", &[FIXED; 5]);
    assert_tokens("1'a' 1-1 0x1d", &[INTEGER, CHARACTER, INTEGER, kind("-"), INTEGER, INTEGER]);
    let bad: [&[u8]; 15] = [
        b"1e", b"1.e", b"1e+", b"0x", b"0xg", b"1e5d", b"1d5", b"08", b"018", b"1a", b"1_", b"1L'a'", b"0x1g", b"1.5f",
        b"1dd",
    ];
    assert_faults(&bad, BAD_LITERAL, 0);
}

#[test]
fn escapes() {
    assert_tokens(r#"'\n' '\t' '\v' '\b' '\r' '\f' '\a' '\\' '\?' '\'' '\"'"#, &[CHARACTER; 11]);
    assert_tokens(
        r#"'\0' '\00' '\377' '\x0' '\xfF' L'\u0' L'\uFfFf' L'\u12'"#,
        &[CHARACTER, CHARACTER, CHARACTER, CHARACTER, CHARACTER, WIDE_CHARACTER, WIDE_CHARACTER, WIDE_CHARACTER],
    );
    assert_tokens(
        r#""\1" "\18" "\x1g" L"\u1g" "\1234" "" L"" "a'b""#,
        &[STRING, STRING, STRING, WIDE_STRING, STRING, STRING, WIDE_STRING, STRING],
    );
    assert_tokens(
        "'\"' \"'\" ' ' '~' '/' \"/*\" \"//\"",
        &[CHARACTER, STRING, CHARACTER, CHARACTER, CHARACTER, STRING, STRING],
    );
    let bad: [&[u8]; 13] = [
        br"'\8'",
        br"'\X1'",
        br"L'\U1'",
        br"'\400'",
        br"'\777'",
        br"'\u1'",
        br"'\q'",
        br"'\x'",
        br"'\xg'",
        br"L'\u'",
        br"'\N'",
        br"'\1111'",
        br"'\x111'",
    ];
    assert_faults(&bad, BAD_LITERAL, 0);
}

#[test]
fn open_and_bad_literals() {
    assert_faults(
        &[b"'", b"'a", b"\"", b"\"a", b"\"a\n\"", b"\"a\r\"", b"'\\", b"'\\\n", b"\"\\x", b"\"\\x\r"],
        OPEN,
        0,
    );
    assert_faults(&[b"'a\\", b"'a\\x", b"'a\\x\n'", b"L'\\u", b"L'a\\u", b"L\"\\u\n\""], OPEN, 0);
    assert_faults(&[b"'ab", b"'a\\n", b"'\\u", b"'a\\u", b"''", b"'a\\q", b"'ab'", b"'a\t"], BAD_LITERAL, 0);
    assert_faults(&[b"\"\t", b"\"\0", b"\"\x7f", b"\"\x9f", b"'\x80'", b"\"a\x0b\n"], BAD_LITERAL, 0);
    assert_faults(
        &[b"\"\\0", b"\"\\x0", b"L\"\\u0", b"\"\\00\"", b"\"\\000\"", b"\"\\x00\"", b"\"\\08\""],
        BAD_LITERAL,
        0,
    );
}

#[test]
fn bytes_of_no_lexeme() {
    assert_faults(&[b"#", b"@", b"\\", b"\0", b"!", b"$", b"?", b"`"], NO_LEXEME, 0);
    assert_eq!(tokens(b"/* \0 */ // \0"), Ok(vec![]));
}

#[test]
fn comments_and_white_space() {
    assert_tokens(
        "\t\n\x0b\x0c\r a/**/b/***/c//d\re//\nf/ *",
        &[IDENTIFIER, IDENTIFIER, IDENTIFIER, IDENTIFIER, IDENTIFIER, kind("/"), kind("*")],
    );
    assert_faults(&[b"/*", b"/*/", b"/* *", b"/**"], OPEN, 0);
    assert_eq!(tokens(b"/* /* */ */"), Ok(vec![kind("*"), kind("/")]));
    assert_faults(&[b"'a' /*/"], OPEN, 4);
}

#[test]
fn words() {
    // In byte order from the first keyword on.
    assert_tokens("FALSE const long wstring", &[16, 26, 40, 63]);
    assert_tokens("constx const_ con", &[IDENTIFIER; 3]);
    assert_tokens("import component getraises L", &[IDENTIFIER; 4]);
}

#[test]
fn long_words() {
    let mut table = [0; TOKEN_NUMBERS];
    for start in Grammar::published().kinds.keywords().chain(["no_keyword"]) {
        // The first two lengths have the low byte, and the low two bytes, of the start's.
        for length in [start.len() + (1 << 8), start.len() + (1 << 16), TEXT_CEILING] {
            let word = [start.as_bytes(), &vec![b'a'; length - start.len()]].concat();
            let reply = numbers_of(read_tokens(&word, &mut table));
            assert_eq!(reply, (ACCEPTED, length as u32, 1, 0), "{start}");
            assert_eq!(table, [IDENTIFIER, 0, length as u32], "{start}");
        }
    }
}

#[test]
fn marks() {
    let kinds: Vec<u32> = (FIRST_MARK..=LAST_MARK).collect();
    assert_tokens("; { } : , :: = ( ) < > [ ] | ^ & >> << + - * / % ~", &kinds);
    assert_tokens(":::>>><<<", &[kind("::"), kind(":"), kind(">>"), kind(">"), kind("<<"), kind("<")]);
}

#[test]
fn first_fault_by_start() {
    assert_eq!(tokens(b"'a' Interface 'ab'"), Err((KEYWORD_CASE, 4, kind("interface"), 0)));
    assert_faults(&[b"native A; /*"], OPEN, 10);
}

#[test]
fn spellings() {
    let text = b"native A;";
    let native = kind("native");
    let two = [native, 0, 6, IDENTIFIER, 7, 1];
    assert_eq!(spelling(text, &two, 1), b"A");
    assert_eq!(spelling(text, &two, 2), b"");
    assert_eq!(spelling(text, &two[..5], 1), b"");
    assert_eq!(spelling(text, &[native, 0, 9], 0), text);
    assert_eq!(spelling(text, &[native, 0, 10], 0), b"");
    assert_eq!(spelling(text, &[native, 9, 1], 0), b"");
    assert_eq!(spelling(text, &[native, u32::MAX, u32::MAX], 0), b"");
    assert_eq!(spelling(text, &[native, 8, u32::MAX], 0), b"");
}

#[test]
fn faults_come_before_a_full_table() {
    let mut tokens = [1; 2];
    assert_eq!(read_tokens(b"a b c 08", &mut tokens).number, BAD_LITERAL);
    assert_eq!(tokens, [0, 0]);
}

#[test]
fn as_many_tokens_as_bytes() {
    let text = vec![b';'; TEXT_CEILING];
    let mut tokens = vec![1; TOKEN_NUMBERS * TEXT_CEILING];
    assert_eq!(read_tokens(&text, &mut tokens).tokens as usize, TEXT_CEILING);
    assert_eq!(tokens[tokens.len() - TOKEN_NUMBERS..], [kind(";"), TEXT_CEILING as u32 - 1, 1]);
    assert_eq!(read_tokens(&text, &mut tokens[1..]).number, TOKEN_TABLE_FULL);
    assert!(tokens[1..].iter().all(|&number| number == 0));
}

#[test]
fn a_text_past_the_ceiling() {
    let mut tokens = [3; 4];
    let reply = read_tokens(&vec![b';'; TEXT_CEILING + 1], &mut tokens);
    assert_eq!(numbers_of(reply), (BAD_CALL, 0, 0, 0));
    assert_eq!(tokens, [3; 4]);
}

#[test]
fn token_tables_of_any_length() {
    let wanted = [kind("native"), 1, 6, IDENTIFIER, 8, 1, kind(";"), 9, 1, 5, 5, 5];
    for length in 0..12 {
        let mut tokens = vec![5; length];
        let reply = read_tokens(b" native A;", &mut tokens);
        let full = length < 3 * TOKEN_NUMBERS;
        assert_eq!(numbers_of(reply), (if full { TOKEN_TABLE_FULL } else { ACCEPTED }, 10, 3, 0));
        assert_eq!(tokens, if full { vec![0; length] } else { wanted[..length].to_vec() });
    }
}
