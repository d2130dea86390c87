//! Tables over the bytes: what a lexeme can be by its first byte, and what stands for itself in a string.

use crate::kind;

#[derive(Clone, Copy, PartialEq, Eq)]
pub enum Class {
    /// White space.
    Blank,
    /// A word, or for `L` a wide literal.
    Letter,
    /// An identifier that is no keyword.
    Underscore,
    Digit,
    /// A floating or fixed literal.
    Point,
    /// A character or string literal.
    Quote,
    /// A comment or a mark.
    Slash,
    /// A mark of one byte.
    Mark(u8),
    /// A mark of this byte alone, or one of this byte twice.
    Pair(u8, u8),
    /// No lexeme.
    None,
}

pub static CLASSES: [Class; 256] = classes();

const fn classes() -> [Class; 256] {
    let mut found = [Class::None; 256];
    let mut byte = 0;
    while byte < found.len() {
        found[byte] = class(byte as u8);
        byte += 1;
    }
    found
}

const fn class(byte: u8) -> Class {
    match byte {
        b'\t'..=b'\r' | b' ' => Class::Blank,
        b'A'..=b'Z' | b'a'..=b'z' => Class::Letter,
        b'_' => Class::Underscore,
        b'0'..=b'9' => Class::Digit,
        b'.' => Class::Point,
        b'\'' | b'"' => Class::Quote,
        b'/' => Class::Slash,
        b':' => Class::Pair(kind::COLON as u8, kind::SCOPE as u8),
        b'<' => Class::Pair(kind::LESS as u8, kind::SHIFT_LEFT as u8),
        b'>' => Class::Pair(kind::GREATER as u8, kind::SHIFT_RIGHT as u8),
        b';' => Class::Mark(kind::SEMICOLON as u8),
        b'{' => Class::Mark(kind::LEFT_BRACE as u8),
        b'}' => Class::Mark(kind::RIGHT_BRACE as u8),
        b',' => Class::Mark(kind::COMMA as u8),
        b'=' => Class::Mark(kind::EQUALS as u8),
        b'(' => Class::Mark(kind::LEFT_PARENTHESIS as u8),
        b')' => Class::Mark(kind::RIGHT_PARENTHESIS as u8),
        b'[' => Class::Mark(kind::LEFT_BRACKET as u8),
        b']' => Class::Mark(kind::RIGHT_BRACKET as u8),
        b'|' => Class::Mark(kind::BAR as u8),
        b'^' => Class::Mark(kind::CARET as u8),
        b'&' => Class::Mark(kind::AMPERSAND as u8),
        b'+' => Class::Mark(kind::PLUS as u8),
        b'-' => Class::Mark(kind::MINUS as u8),
        b'*' => Class::Mark(kind::STAR as u8),
        b'%' => Class::Mark(kind::PERCENT as u8),
        b'~' => Class::Mark(kind::TILDE as u8),
        _ => Class::None,
    }
}

/// Whether a byte is a character that a literal may hold: ASCII without its control characters.
pub const fn is_graphic(byte: u8) -> bool {
    matches!(byte, b' '..=b'~')
}

/// Whether a byte stands for itself in a string.
pub static IS_PLAIN: [bool; 256] = plain_bytes();

const fn plain_bytes() -> [bool; 256] {
    let mut plain = [false; 256];
    let mut byte = 0;
    while byte < plain.len() {
        plain[byte] = is_graphic(byte as u8) && !matches!(byte as u8, b'"' | b'\\');
        byte += 1;
    }
    plain
}
