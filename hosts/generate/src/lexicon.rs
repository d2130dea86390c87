//! A slow token part to judge the fast ones: what each lexeme is, as a test on whole byte strings, and the longest
//! one taken by trying every length.

use crate::cases::TOKEN_NUMBERS;
use crate::kind::{self, Kinds, MARKS};

/// What is wrong with a text.
#[derive(Clone, Copy)]
pub enum Fault {
    NoLexeme,
    Open,
    BadLiteral,
    /// The keyword of this kind, in another case.
    KeywordCase(u32),
}

impl Fault {
    /// The number of its reply, and the first count.
    pub fn number_and_count(self) -> (u32, u32) {
        match self {
            Fault::NoLexeme => (2, 0),
            Fault::Open => (3, 0),
            Fault::BadLiteral => (4, 0),
            Fault::KeywordCase(kind) => (5, kind),
        }
    }
}

/// The token records of a text, or its first fault and the place of it.
pub type Tokens = Result<Vec<[u32; TOKEN_NUMBERS]>, (Fault, usize)>;

/// No word, number or mark is tried that is longer than this.
const LONGEST: usize = 100;

/// What a whole byte string is.
#[derive(Clone, Copy, PartialEq, Eq)]
enum Class {
    Word,
    Escaped,
    Number(u32),
    Mark(u32),
}

/// The tokens of a text, by the kinds of a grammar.
pub fn tokens(text: &[u8], kinds: &Kinds) -> Tokens {
    let mut tokens = Vec::new();
    let mut at = 0;
    while at < text.len() {
        let rest = &text[at..];
        if let Some(length) = blank_length(rest).map_err(|fault| (fault, at))? {
            at += length;
            continue;
        }
        let (kind, length) = lexeme(rest, kinds).map_err(|fault| (fault, at))?;
        tokens.push([kind, at as u32, length as u32]);
        at += length;
    }
    Ok(tokens)
}

/// The length of the white space or comment that the bytes begin with, if they do.
fn blank_length(rest: &[u8]) -> Result<Option<usize>, Fault> {
    if b"\t\n\x0b\x0c\r ".contains(&rest[0]) {
        return Ok(Some(1));
    }
    if rest.starts_with(b"//") {
        let end = rest.iter().position(|&byte| byte == b'\n' || byte == b'\r');
        return Ok(Some(end.unwrap_or(rest.len())));
    }
    if rest.starts_with(b"/*") {
        let ends = |end: &usize| rest[..*end].ends_with(b"*/");
        return (4..=rest.len()).find(ends).map(Some).ok_or(Fault::Open);
    }
    Ok(None)
}

fn lexeme(rest: &[u8], kinds: &Kinds) -> Result<(u32, usize), Fault> {
    for prefix in [&b"L"[..], b""] {
        let after = rest.strip_prefix(prefix).unwrap_or(b"");
        if after.starts_with(b"'") || after.starts_with(b"\"") {
            let wide = !prefix.is_empty();
            let length = literal_length(&after[1..], after[0], wide)?;
            let kind = match (after[0], wide) {
                (b'"', false) => kind::STRING,
                (b'"', true) => kind::WIDE_STRING,
                (_, false) => kind::CHARACTER,
                (_, true) => kind::WIDE_CHARACTER,
            };
            return Ok((kind, prefix.len() + length + 1));
        }
    }
    let bound = rest.iter().position(|byte| byte.is_ascii_whitespace()).unwrap_or(rest.len());
    let longest = (1..=bound.min(LONGEST)).rev().find_map(|length| Some((class(&rest[..length], kinds)?, length)));
    let (class, length) = longest.ok_or(Fault::NoLexeme)?;
    let next = rest.get(length).copied().unwrap_or(b' ');
    match class {
        Class::Mark(kind) => Ok((kind, length)),
        Class::Escaped => Ok((kind::IDENTIFIER, length)),
        Class::Number(_) if is_word_byte(next) => Err(Fault::BadLiteral),
        Class::Number(kind) => Ok((kind, length)),
        Class::Word => Ok((word_kind(&rest[..length], kinds)?, length)),
    }
}

fn word_kind(word: &[u8], kinds: &Kinds) -> Result<u32, Fault> {
    let same = kinds.keywords().find(|keyword| keyword.as_bytes() == word);
    let similar = kinds.keywords().find(|keyword| keyword.as_bytes().eq_ignore_ascii_case(word));
    match (same, similar) {
        (Some(keyword), _) => Ok(kinds.of(keyword)),
        (None, Some(keyword)) => Err(Fault::KeywordCase(kinds.of(keyword))),
        (None, None) => Ok(kind::IDENTIFIER),
    }
}

fn class(bytes: &[u8], kinds: &Kinds) -> Option<Class> {
    if is_word(bytes) {
        return Some(Class::Word);
    }
    if bytes.strip_prefix(b"_").map_or(false, is_word) {
        return Some(Class::Escaped);
    }
    let numbers =
        [(kind::INTEGER, is_integer(bytes)), (kind::FLOATING, is_floating(bytes)), (kind::FIXED, is_fixed(bytes))];
    if let Some((kind, _)) = numbers.into_iter().find(|&(_, is)| is) {
        return Some(Class::Number(kind));
    }
    let spelling = std::str::from_utf8(bytes).ok()?;
    MARKS.split(' ').any(|mark| mark == spelling).then(|| Class::Mark(kinds.of(spelling)))
}

fn is_word_byte(byte: u8) -> bool {
    byte.is_ascii_alphanumeric() || byte == b'_'
}

fn is_word(bytes: &[u8]) -> bool {
    bytes.first().map_or(false, u8::is_ascii_alphabetic) && bytes.iter().all(|&byte| is_word_byte(byte))
}

fn all_digits(bytes: &[u8], radix: u32) -> bool {
    bytes.iter().all(|&byte| char::from(byte).is_digit(radix))
}

fn is_integer(bytes: &[u8]) -> bool {
    match bytes {
        [b'0', b'x' | b'X', digits @ ..] => !digits.is_empty() && all_digits(digits, 16),
        [b'0', digits @ ..] => all_digits(digits, 8),
        digits => !digits.is_empty() && all_digits(digits, 10),
    }
}

/// Decimal digits with at most one point, not the point alone; and whether there is a point.
fn decimal_digits(bytes: &[u8]) -> Option<bool> {
    let sides: Vec<&[u8]> = bytes.split(|&byte| byte == b'.').collect();
    let digits = sides.concat();
    (sides.len() <= 2 && !digits.is_empty() && all_digits(&digits, 10)).then_some(sides.len() == 2)
}

fn is_floating(bytes: &[u8]) -> bool {
    match bytes.iter().position(|byte| byte.eq_ignore_ascii_case(&b'e')) {
        None => decimal_digits(bytes) == Some(true),
        Some(place) => {
            let exponent = match &bytes[place + 1..] {
                [b'+' | b'-', digits @ ..] => digits,
                digits => digits,
            };
            decimal_digits(&bytes[..place]).is_some() && !exponent.is_empty() && all_digits(exponent, 10)
        }
    }
}

fn is_fixed(bytes: &[u8]) -> bool {
    match bytes {
        [digits @ .., b'd' | b'D'] => decimal_digits(digits).is_some(),
        _ => false,
    }
}

/// A piece of a literal: a character with its number if an escape gives it, an end, or a fault.
enum Piece {
    Character { length: usize, number: Option<u32> },
    Close,
    Fault(Fault),
}

/// The length of a literal from behind its opening quote, closing quote included.
fn literal_length(inside: &[u8], quote: u8, wide: bool) -> Result<usize, Fault> {
    let is_string = quote == b'"';
    let mut length = 0;
    let mut characters = 0;
    loop {
        match piece(&inside[length..], quote, wide) {
            Piece::Fault(fault) => return Err(fault),
            Piece::Close if !is_string && characters != 1 => return Err(Fault::BadLiteral),
            Piece::Close => return Ok(length + 1),
            Piece::Character { .. } if !is_string && characters == 1 => return Err(Fault::BadLiteral),
            Piece::Character { number: Some(0), .. } if is_string => return Err(Fault::BadLiteral),
            Piece::Character { length: more, .. } => length += more,
        }
        characters += 1;
    }
}

fn piece(rest: &[u8], quote: u8, wide: bool) -> Piece {
    match rest {
        [] | [b'\n' | b'\r', ..] => Piece::Fault(Fault::Open),
        [b'\\', escaped @ ..] => escape(escaped, wide),
        [byte, ..] if *byte == quote => Piece::Close,
        [b' '..=b'~', ..] => Piece::Character { length: 1, number: None },
        _ => Piece::Fault(Fault::BadLiteral),
    }
}

/// The escape with these bytes after its backslash.
fn escape(escaped: &[u8], wide: bool) -> Piece {
    let (mark_length, most, radix) = match escaped {
        [] | [b'\n' | b'\r', ..] => return Piece::Fault(Fault::Open),
        [byte, ..] if b"ntvbrfa\\?'\"".contains(byte) => return Piece::Character { length: 2, number: None },
        [b'0'..=b'7', ..] => (0, 3, 8),
        [b'x', ..] => (1, 2, 16),
        [b'u', ..] if wide => (1, 4, 16),
        _ => return Piece::Fault(Fault::BadLiteral),
    };
    let digits = &escaped[mark_length..];
    let count = (0..=most.min(digits.len())).rev().find(|&count| all_digits(&digits[..count], radix)).unwrap_or(0);
    if count == 0 {
        let cut_short = matches!(digits, [] | [b'\n' | b'\r', ..]);
        return Piece::Fault(if cut_short { Fault::Open } else { Fault::BadLiteral });
    }
    let spelling: String = digits[..count].iter().map(|&byte| char::from(byte)).collect();
    match u32::from_str_radix(&spelling, radix) {
        Ok(number) if radix == 8 && number > 0o377 => Piece::Fault(Fault::BadLiteral),
        Ok(number) => Piece::Character { length: 1 + mark_length + count, number: Some(number) },
        Err(_) => Piece::Fault(Fault::BadLiteral),
    }
}
