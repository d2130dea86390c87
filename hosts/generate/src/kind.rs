//! The kinds of token by spelling, straight from the scope page.

pub const IDENTIFIER: u32 = 1;
pub const INTEGER: u32 = 2;
pub const FLOATING: u32 = 3;
pub const FIXED: u32 = 4;
pub const CHARACTER: u32 = 5;
pub const WIDE_CHARACTER: u32 = 6;
pub const STRING: u32 = 7;
pub const WIDE_STRING: u32 = 8;
pub const FIRST_KEYWORD: u32 = 16;
pub const FIRST_MARK: u32 = 64;
pub const LAST_MARK: u32 = 87;

/// Every kind that the token part gives.
pub fn all() -> impl Iterator<Item = u32> {
    (IDENTIFIER..=WIDE_STRING).chain(FIRST_KEYWORD..=LAST_MARK)
}

/// The classes of token that the grammar names as nonterminals, in the order of their kinds.
pub const CLASSES: [&str; 8] = [
    "identifier",
    "integer_literal",
    "floating_pt_literal",
    "fixed_pt_literal",
    "character_literal",
    "wide_character_literal",
    "string_literal",
    "wide_string_literal",
];

/// The marks in the order of their kinds.
pub const MARKS: &str = "; { } : , :: = ( ) < > [ ] | ^ & >> << + - * / % ~";

/// The kinds of strings, narrow and wide.
pub const STRINGS: [u32; 2] = [STRING, WIDE_STRING];

/// The kinds of the marks that open and close, one pair a place.
pub const OPENING: [&str; 4] = ["(", "{", "[", "<"];
pub const CLOSING: [&str; 4] = [")", "}", "]", ">"];

/// The spelling of each keyword and mark with its kind.
pub struct Kinds {
    spellings: Vec<(String, u32)>,
}

impl Kinds {
    /// From the alphabetic terminals of a grammar, in any order and possibly repeated.
    pub fn new(mut keywords: Vec<String>) -> Self {
        keywords.sort();
        keywords.dedup();
        let keywords = keywords.into_iter().zip(FIRST_KEYWORD..);
        let marks = MARKS.split(' ').map(String::from).zip(FIRST_MARK..);
        Kinds { spellings: keywords.chain(marks).collect() }
    }

    pub fn of(&self, spelling: &str) -> u32 {
        let found = self.spellings.iter().find(|(known, _)| known == spelling);
        found.unwrap_or_else(|| panic!("no terminal is spelled {spelling}")).1
    }

    /// The spelling of a keyword or mark.
    pub fn spelling(&self, kind: u32) -> Option<&str> {
        self.spellings.iter().find(|&&(_, known)| known == kind).map(|(spelling, _)| spelling.as_str())
    }

    pub fn keywords(&self) -> impl Iterator<Item = &str> {
        self.spellings.iter().filter(|&&(_, kind)| kind < FIRST_MARK).map(|(spelling, _)| spelling.as_str())
    }
}
