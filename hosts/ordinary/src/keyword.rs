//! Which words are keywords.

use crate::block;
use crate::kind;

/// The keywords in byte order of their spelling, which is the order of their kinds.
pub const KEYWORDS: [&str; 48] = [
    "FALSE",
    "Object",
    "TRUE",
    "ValueBase",
    "abstract",
    "any",
    "attribute",
    "boolean",
    "case",
    "char",
    "const",
    "context",
    "custom",
    "default",
    "double",
    "enum",
    "exception",
    "factory",
    "fixed",
    "float",
    "in",
    "inout",
    "interface",
    "local",
    "long",
    "module",
    "native",
    "octet",
    "oneway",
    "out",
    "private",
    "public",
    "raises",
    "readonly",
    "sequence",
    "short",
    "string",
    "struct",
    "supports",
    "switch",
    "truncatable",
    "typedef",
    "union",
    "unsigned",
    "valuetype",
    "void",
    "wchar",
    "wstring",
];

/// A word of fewer than sixteen bytes as two blocks, with zeros after its last byte.
#[derive(Clone, Copy)]
pub struct Spelling {
    pub first: u64,
    pub second: u64,
}

#[derive(Clone, Copy)]
struct Keyword {
    spelling: Spelling,
    /// The index of another keyword of the same length and first letter.
    next: u8,
}

/// The length of the longest keyword.
const LONGEST: usize = 11;
/// Letters are numbered by their low five bits, which leave case aside.
const LETTERS: usize = 32;
/// Stands for the index of no keyword.
const NONE: u8 = KEYWORDS.len() as u8;

struct Index {
    /// For a length and the number of a first letter, the index of a keyword.
    first: [[u8; LETTERS]; LONGEST + 1],
    keywords: [Keyword; KEYWORDS.len()],
}

static INDEX: Index = index();

const fn index() -> Index {
    let mut first = [[NONE; LETTERS]; LONGEST + 1];
    let mut keywords = [Keyword { spelling: Spelling { first: 0, second: 0 }, next: NONE }; KEYWORDS.len()];
    let mut place = 0;
    while place < KEYWORDS.len() {
        let word = KEYWORDS[place].as_bytes();
        let letter = letter(word[0]);
        keywords[place] = Keyword { spelling: spelling(word), next: first[word.len()][letter] };
        first[word.len()][letter] = place as u8;
        place += 1;
    }
    Index { first, keywords }
}

#[inline]
const fn letter(byte: u8) -> usize {
    byte as usize % LETTERS
}

const fn spelling(word: &[u8]) -> Spelling {
    let mut blocks = [[0; block::SIZE]; 2];
    let mut place = 0;
    while place < word.len() {
        blocks[place / block::SIZE][place % block::SIZE] = word[place];
        place += 1;
    }
    Spelling { first: u64::from_le_bytes(blocks[0]), second: u64::from_le_bytes(blocks[1]) }
}

/// The kind of a word of this length, or else that of the keyword from which it differs only in the case of letters.
#[inline]
pub fn kind_of(word: Spelling, length: usize) -> Result<u32, u32> {
    if length > LONGEST {
        return Ok(kind::IDENTIFIER);
    }
    let mut index = INDEX.first[length][letter(word.first as u8)];
    while let Some(keyword) = INDEX.keywords.get(index as usize) {
        let kind = kind::FIRST_KEYWORD + u32::from(index);
        let differing = (word.first ^ keyword.spelling.first) | (word.second ^ keyword.spelling.second);
        if differing == 0 {
            return Ok(kind);
        }
        if block::small(differing) == block::small(0) {
            return Err(kind);
        }
        index = keyword.next;
    }
    Ok(kind::IDENTIFIER)
}
