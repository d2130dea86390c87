//! Inside a literal stand bytes 32 to 126 and escapes: request A7.

use super::common::{assert_refused, assert_refused_into, tokens, Numbers};
use super::reader::number::{BAD_LITERAL, KEYWORD_CASE, NO_LEXEME, OPEN};
use super::reader::DEPTH_CEILING;
use generate::kind::{CHARACTER, IDENTIFIER, STRING, WIDE_CHARACTER, WIDE_STRING};

/// What stands before and behind the characters of a literal, and its kind.
type Quotes = (&'static [u8], &'static [u8], u32);

const CHARACTERS: [Quotes; 2] = [(b"'", b"'", CHARACTER), (b"L'", b"'", WIDE_CHARACTER)];
const STRINGS: [Quotes; 2] = [(b"\"", b"\"", STRING), (b"L\"", b"\"", WIDE_STRING)];

fn literals() -> impl Iterator<Item = Quotes> {
    CHARACTERS.into_iter().chain(STRINGS)
}

/// The bytes above those that stand for themselves.
fn high_bytes() -> impl Iterator<Item = u8> {
    b'~' + 1..=u8::MAX
}

/// More bytes than a reader takes at once.
const MANY: usize = 100;

fn bad_literal(place: usize) -> Numbers {
    (BAD_LITERAL, place as u32, 0, 0)
}

/// So many letters, with this byte in the place of one.
fn letters(count: usize, place: usize, byte: u8) -> Vec<u8> {
    let mut letters = vec![b'a'; count];
    letters[place] = byte;
    letters
}

#[test]
fn each_byte_alone_in_each_literal() {
    for (open, close, kind) in literals() {
        for byte in (0..=u8::MAX).filter(|byte| *byte != b'\\' && !close.contains(byte)) {
            let text = [open, &[byte], close].concat();
            match byte {
                b' '..=b'~' => assert_eq!(tokens(&text), Ok(vec![kind]), "{}", text.escape_ascii()),
                b'\n' | b'\r' => assert_refused(&text, (OPEN, 0, 0, 0)),
                _ => assert_refused(&text, bad_literal(0)),
            }
        }
    }
}

#[test]
fn each_high_byte_among_others() {
    for (byte, (open, close, _)) in high_bytes().flat_map(|byte| literals().map(move |literal| (byte, literal))) {
        let insides: [&[u8]; 8] =
            [&[byte, b'a'], &[b'a', byte], &[b'a', byte, b'b'], b"\\n", b"\\1", b"\\x1", b"\\", b"\\x"];
        for inside in insides {
            assert_refused(&[open, inside, &[byte], close].concat(), bad_literal(0));
            assert_refused(&[b"a ", open, inside, &[byte]].concat(), bad_literal(2));
        }
    }
}

#[test]
fn in_every_place_of_a_string() {
    for (open, close, kind) in STRINGS {
        for (count, place) in (1..MANY).flat_map(|count| (0..count).map(move |place| (count, place))) {
            let text = |byte| [open, &letters(count, place, byte), close].concat();
            assert_eq!(tokens(&text(b'~')), Ok(vec![kind]));
            [0x7f, 0x9f, 0xa0, 0xff].into_iter().for_each(|byte| assert_refused(&text(byte), bad_literal(0)));
        }
    }
}

#[test]
fn the_first_fault_by_byte() {
    for (open, close, _) in literals() {
        for line_end in [b"\n", b"\r"] {
            assert_refused(&[open, b"\xa0", line_end, close].concat(), bad_literal(0));
            assert_refused(&[open, line_end, b"\xa0", close].concat(), (OPEN, 0, 0, 0));
            assert_refused(&[open, b"\\", line_end, b"\xa0", close].concat(), (OPEN, 0, 0, 0));
        }
        assert_refused(&[open, b"\xa0"].concat(), bad_literal(0));
    }
}

#[test]
fn escapes_reach_every_high_byte() {
    for byte in high_bytes() {
        let narrow = [format!("\\{byte:o}"), format!("\\x{byte:x}"), format!("\\x{byte:X}")];
        for (inside, (open, close, kind)) in
            narrow.iter().flat_map(|inside| literals().map(move |literal| (inside, literal)))
        {
            assert_eq!(tokens(&[open, inside.as_bytes(), close].concat()), Ok(vec![kind]), "{inside}");
        }
        let wide = format!("L'\\u{byte:x}' L\"\\u{byte:04x}\"");
        assert_eq!(tokens(wide.as_bytes()), Ok(vec![WIDE_CHARACTER, WIDE_STRING]), "{wide}");
    }
}

#[test]
fn comments_hold_every_high_byte() {
    for byte in high_bytes() {
        for place in 0..MANY {
            let inside = letters(MANY, place, byte);
            assert_eq!(tokens(&[b"//", &inside[..], b"\na/*", &inside[..], b"*/b"].concat()), Ok(vec![IDENTIFIER; 2]));
        }
        assert_eq!(tokens(&[b"// '", &[byte][..], b"' \"", &[byte]].concat()), Ok(vec![]));
        assert_refused(&[b"/*", &[byte][..]].concat(), (OPEN, 0, 0, 0));
    }
}

#[test]
fn no_lexeme_starts_with_a_high_byte() {
    for byte in high_bytes() {
        assert_refused(&[byte], (NO_LEXEME, 0, 0, 0));
        assert_refused(&[b"a ", &[byte][..], b" b"].concat(), (NO_LEXEME, 2, 0, 0));
        assert_refused(&[b"'a'", &[byte][..], b"\"b\""].concat(), (NO_LEXEME, 3, 0, 0));
    }
}

#[test]
fn the_first_fault_by_lexeme() {
    let faults: [(&[u8], Numbers); 4] = [
        (b"@", (NO_LEXEME, 0, 0, 0)),
        (b"\"a\n", (OPEN, 0, 0, 0)),
        (b"08", bad_literal(0)),
        (b"Local", (KEYWORD_CASE, 0, 39, 0)),
    ];
    for (open, close, _) in literals() {
        let literal = [open, b"\xff", close].concat();
        for (fault, wanted) in faults {
            assert_refused(&[fault, b" ", &literal].concat(), wanted);
            assert_refused(&[&literal[..], b" ", fault].concat(), bad_literal(0));
        }
        assert_refused(&[b"/* ", &literal[..]].concat(), (OPEN, 0, 0, 0));
    }
}

#[test]
fn it_comes_before_the_grammar_the_depth_and_full_tables() {
    assert_refused(b"} \"\xa0\"", bad_literal(2));
    assert_refused(b"const string A = \"a\" L\"\xa0\";", bad_literal(21));
    let parentheses = vec![b'('; DEPTH_CEILING as usize + 1];
    assert_refused(&[b"const char A = ", &parentheses[..], b"'\xff'"].concat(), bad_literal(15 + parentheses.len()));
    for lengths in (0..7).flat_map(|tokens| (0..5).map(move |tree| [tokens, tree])) {
        assert_refused_into(lengths, b"native A; native L'\xa0'", bad_literal(17));
    }
}
