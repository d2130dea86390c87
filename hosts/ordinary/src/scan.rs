//! From bytes to tokens.

use crate::block;
use crate::class::{is_graphic, Class, CLASSES, IS_PLAIN};
use crate::keyword::{self, Spelling};
use crate::kind;
use crate::number;
use crate::TOKEN_NUMBERS;

/// The first fault of a text: the number of its reply, the place it blames, and a keyword's kind.
#[derive(Clone, Copy, Debug, PartialEq, Eq)]
pub struct Fault {
    pub number: u32,
    pub place: usize,
    /// The kind of the keyword that stands there in another case; 0 for every other fault.
    pub keyword: u32,
}

impl Fault {
    fn new(number: u32, place: usize) -> Self {
        Fault { number, place, keyword: 0 }
    }
}

/// A lexeme's kind and the place one past its last byte.
type Lexeme = Result<(u32, usize), Fault>;

/// Writes the token records that have room and counts all tokens, or finds the first fault.
pub fn scan(text: &[u8], tokens: &mut [u32]) -> Result<usize, Fault> {
    let mut records = tokens.chunks_exact_mut(TOKEN_NUMBERS);
    let mut count = 0;
    let mut at = 0;
    loop {
        let first = match text.get(at) {
            Some(&first) => first,
            None => return Ok(count),
        };
        let (kind, end) = match CLASSES[first as usize] {
            Class::Blank => {
                at = skip(text, at + 1, is_blank);
                continue;
            }
            Class::Letter => word(text, at, first)?,
            Class::Mark(kind) => (u32::from(kind), at + 1),
            Class::Pair(_, twice) if text.get(at + 1) == Some(&first) => (u32::from(twice), at + 2),
            Class::Pair(once, _) => (u32::from(once), at + 1),
            Class::Slash => match text.get(at + 1) {
                Some(b'/') => {
                    at = skip(text, at + 2, |byte| byte != b'\n' && byte != b'\r');
                    continue;
                }
                Some(b'*') => {
                    at = comment_end(text, at)?;
                    continue;
                }
                _ => (kind::SLASH, at + 1),
            },
            Class::Underscore => escaped_identifier(text, at)?,
            Class::Digit => numeral(text, at)?,
            Class::Point if text.get(at + 1).map_or(false, u8::is_ascii_digit) => numeral(text, at)?,
            Class::Quote => quoted(text, at, at)?,
            Class::Point | Class::None => return Err(no_lexeme(at)),
        };
        if let Some(record) = records.next() {
            record.copy_from_slice(&[kind, at as u32, (end - at) as u32]);
        }
        count += 1;
        at = end;
    }
}

fn is_blank(byte: u8) -> bool {
    CLASSES[byte as usize] == Class::Blank
}

/// The place after the comment that starts here with `/*`.
fn comment_end(text: &[u8], start: usize) -> Result<usize, Fault> {
    let body = start + 2;
    match text[body..].windows(2).position(|pair| pair == b"*/") {
        Some(length) => Ok(body + length + 2),
        None => Err(open_at_end(start)),
    }
}

/// The first place from `start` on whose byte fails the test, or the end.
fn skip(text: &[u8], start: usize, test: impl Fn(u8) -> bool) -> usize {
    let mut at = start;
    while at < text.len() && test(text[at]) {
        at += 1;
    }
    at
}

fn is_word_byte(byte: u8) -> bool {
    byte.is_ascii_alphanumeric() || byte == b'_'
}

/// A word, or a wide literal.
#[inline]
fn word(text: &[u8], start: usize, first: u8) -> Lexeme {
    let block = block::at(text, start);
    let length = block::word_bytes(block);
    if length < block::SIZE {
        if first == b'L' && length == 1 && matches!(text.get(start + 1), Some(b'\'' | b'"')) {
            return quoted(text, start, start + 1);
        }
        return spelled(Spelling { first: block::head(block, length), second: 0 }, start, start + length);
    }
    let second = block::at(text, start + block::SIZE);
    let length = block::word_bytes(second);
    let end = start + block::SIZE + length;
    if length < block::SIZE {
        return spelled(Spelling { first: block, second: block::head(second, length) }, start, end);
    }
    Ok((kind::IDENTIFIER, block::word_end(text, end)))
}

/// A word as it is spelled.
#[inline]
fn spelled(spelling: Spelling, start: usize, end: usize) -> Lexeme {
    match keyword::kind_of(spelling, end - start) {
        Ok(kind) => Ok((kind, end)),
        Err(keyword) => Err(Fault { number: number::KEYWORD_CASE, place: start, keyword }),
    }
}

fn escaped_identifier(text: &[u8], start: usize) -> Lexeme {
    match text.get(start + 1) {
        Some(byte) if byte.is_ascii_alphabetic() => Ok((kind::IDENTIFIER, block::word_end(text, start + 2))),
        _ => Err(no_lexeme(start)),
    }
}

/// An integer, floating or fixed literal; `start` is at a digit, or at a point before a digit.
fn numeral(text: &[u8], start: usize) -> Lexeme {
    let (kind, end) = hexadecimal(text, start).unwrap_or_else(|| decimal(text, start));
    if text.get(end).map_or(false, |&byte| is_word_byte(byte)) {
        return Err(bad_literal(start));
    }
    Ok((kind, end))
}

fn hexadecimal(text: &[u8], start: usize) -> Option<(u32, usize)> {
    let digits = match text[start..] {
        [b'0', b'x' | b'X', ..] => start + 2,
        _ => return None,
    };
    let end = skip(text, digits, |byte| byte.is_ascii_hexdigit());
    (digits < end).then_some((kind::INTEGER, end))
}

fn decimal(text: &[u8], start: usize) -> (u32, usize) {
    let is_digit = |byte: u8| byte.is_ascii_digit();
    let whole = skip(text, start, is_digit);
    let has_point = text.get(whole) == Some(&b'.');
    let mantissa = if has_point { skip(text, whole + 1, is_digit) } else { whole };
    match text.get(mantissa) {
        Some(b'd' | b'D') => return (kind::FIXED_POINT, mantissa + 1),
        Some(b'e' | b'E') => {
            if let Some(end) = exponent_end(text, mantissa + 1) {
                return (kind::FLOATING, end);
            }
        }
        _ => {}
    }
    match (has_point, text[start]) {
        (true, _) => (kind::FLOATING, mantissa),
        (false, b'0') => (kind::INTEGER, skip(text, start, |byte| matches!(byte, b'0'..=b'7'))),
        (false, _) => (kind::INTEGER, whole),
    }
}

/// The end of an exponent's optional sign and digits, if there are digits.
fn exponent_end(text: &[u8], start: usize) -> Option<usize> {
    let digits = match text.get(start) {
        Some(b'+' | b'-') => start + 1,
        _ => start,
    };
    let end = skip(text, digits, |byte| byte.is_ascii_digit());
    (digits < end).then_some(end)
}

/// A character or string literal that starts at `start` and whose opening quote is at `open`.
fn quoted(text: &[u8], start: usize, open: usize) -> Lexeme {
    let wide = start < open;
    let quote = text[open];
    let is_string = quote == b'"';
    let mut at = open + 1;
    let mut characters = 0;
    loop {
        if is_string {
            at = skip(text, at, |byte| IS_PLAIN[byte as usize]);
        }
        let byte = match text.get(at) {
            None | Some(b'\n' | b'\r') => return Err(open_at_end(start)),
            Some(&byte) => byte,
        };
        if byte == quote {
            break;
        }
        let character = character(text, at, byte, wide).map_err(|number| Fault::new(number, start))?;
        if is_string && character.zero || !is_string && characters == 1 {
            return Err(bad_literal(start));
        }
        characters += 1;
        at = character.end;
    }
    match (is_string, wide) {
        (false, _) if characters == 0 => Err(bad_literal(start)),
        (false, false) => Ok((kind::CHARACTER, at + 1)),
        (false, true) => Ok((kind::WIDE_CHARACTER, at + 1)),
        (true, false) => Ok((kind::STRING_LITERAL, at + 1)),
        (true, true) => Ok((kind::WIDE_STRING, at + 1)),
    }
}

/// One character of a literal: where it ends and whether it is character zero.
struct Character {
    end: usize,
    zero: bool,
}

fn character(text: &[u8], at: usize, byte: u8, wide: bool) -> Result<Character, u32> {
    match byte {
        b'\\' => escape(text, at + 1, wide),
        _ if is_graphic(byte) => Ok(Character { end: at + 1, zero: false }),
        _ => Err(number::BAD_LITERAL),
    }
}

/// The escape whose backslash stands before `at`.
fn escape(text: &[u8], at: usize, wide: bool) -> Result<Character, u32> {
    match text.get(at) {
        None | Some(b'\n' | b'\r') => Err(number::OPEN),
        Some(b'n' | b't' | b'v' | b'b' | b'r' | b'f' | b'a' | b'\\' | b'?' | b'\'' | b'"') => {
            Ok(Character { end: at + 1, zero: false })
        }
        Some(b'0'..=b'7') => numbered(text, at, 3, 8),
        Some(b'x') => numbered(text, at + 1, 2, 16),
        Some(b'u') if wide => numbered(text, at + 1, 4, 16),
        _ => Err(number::BAD_LITERAL),
    }
}

/// A character given by its number: as many digits as stand there, at most `limit`.
fn numbered(text: &[u8], start: usize, limit: usize, radix: u32) -> Result<Character, u32> {
    let mut value = 0;
    let mut end = start;
    for &byte in text[start..].iter().take(limit) {
        match (byte as char).to_digit(radix) {
            Some(digit) => value = value * radix + digit,
            None => break,
        }
        end += 1;
    }
    if end == start {
        let cut_short = matches!(text.get(end), None | Some(b'\n' | b'\r'));
        return Err(if cut_short { number::OPEN } else { number::BAD_LITERAL });
    }
    if radix == 8 && value > 0o377 {
        return Err(number::BAD_LITERAL);
    }
    Ok(Character { end, zero: value == 0 })
}

fn no_lexeme(place: usize) -> Fault {
    Fault::new(number::NO_LEXEME, place)
}

fn open_at_end(place: usize) -> Fault {
    Fault::new(number::OPEN, place)
}

fn bad_literal(place: usize) -> Fault {
    Fault::new(number::BAD_LITERAL, place)
}
