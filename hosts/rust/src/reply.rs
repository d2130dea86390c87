//! What the reader says, by name.

use crate::raw::{self, number};
use crate::table::keyword;
use std::fmt;

/// A reply. Places are in bytes from the start of the text.
#[derive(Clone, Copy, Debug, PartialEq, Eq)]
pub enum Reply {
    /// The text is accepted, and the tables hold this many records at their front.
    Accepted { tokens: usize, records: usize },
    /// The text is too long, or the depth setting is outside 1 to [`crate::DEPTH_CEILING`]. The tables are as they were.
    BadCall,
    /// No lexeme starts here.
    NoLexeme { place: usize },
    /// A comment that starts here is open at the end, or a literal is open at the end of its line.
    Open { place: usize },
    /// The literal that starts here is bad. Bytes outside 32 to 126 make a character or string literal so; escapes reach
    /// their values.
    BadLiteral { place: usize },
    /// The word that starts here differs from the keyword of this kind only in the case of letters. It is as long as
    /// the keyword, which [`crate::keyword`] spells.
    KeywordCase { place: usize, kind: u32 },
    /// The token table has too little room for this many tokens.
    TokenTableFull { tokens: usize },
    /// No text goes on with the token that starts here; or the text ends too early, and this is its length.
    Grammar { place: usize, tokens: usize },
    /// The opening mark that starts here would take the depth past the setting.
    TooDeep { place: usize, tokens: usize },
    /// The tree table has too little room for this many records.
    TreeTableFull { tokens: usize, records: usize },
    /// A number that has no name here, as another library than the one beside this wrapper could give.
    Unknown(raw::Reply),
}

impl Reply {
    pub fn is_accepted(&self) -> bool {
        matches!(self, Reply::Accepted { .. })
    }

    /// Whether the text itself is wrong, and not what was lent or set.
    pub fn blames_text(&self) -> bool {
        use Reply::*;
        matches!(self, NoLexeme { .. } | Open { .. } | BadLiteral { .. } | KeywordCase { .. } | Grammar { .. })
    }

    /// The place of a refusal that points into the text.
    pub fn place(&self) -> Option<usize> {
        use Reply::*;
        match *self {
            NoLexeme { place } | Open { place } | BadLiteral { place } | KeywordCase { place, .. } => Some(place),
            Grammar { place, .. } | TooDeep { place, .. } => Some(place),
            Accepted { .. } | BadCall | TokenTableFull { .. } | TreeTableFull { .. } | Unknown(_) => None,
        }
    }
}

impl From<raw::Reply> for Reply {
    fn from(reply: raw::Reply) -> Self {
        let place = reply.place as usize;
        let tokens = reply.tokens as usize;
        let records = reply.records as usize;
        match reply.number {
            number::ACCEPTED => Reply::Accepted { tokens, records },
            number::BAD_CALL => Reply::BadCall,
            number::NO_LEXEME => Reply::NoLexeme { place },
            number::OPEN => Reply::Open { place },
            number::BAD_LITERAL => Reply::BadLiteral { place },
            number::KEYWORD_CASE => Reply::KeywordCase { place, kind: reply.tokens },
            number::TOKEN_TABLE_FULL => Reply::TokenTableFull { tokens },
            number::GRAMMAR => Reply::Grammar { place, tokens },
            number::TOO_DEEP => Reply::TooDeep { place, tokens },
            number::TREE_TABLE_FULL => Reply::TreeTableFull { tokens, records },
            _ => Reply::Unknown(reply),
        }
    }
}

impl fmt::Display for Reply {
    fn fmt(&self, formatter: &mut fmt::Formatter) -> fmt::Result {
        match self {
            Reply::Accepted { tokens, records } => write!(formatter, "accepted: {tokens} tokens, {records} records"),
            Reply::BadCall => write!(formatter, "the text is too long or the depth setting out of range"),
            Reply::NoLexeme { .. } => write!(formatter, "no token starts here"),
            Reply::Open { .. } => write!(formatter, "this comment or literal is not closed"),
            Reply::BadLiteral { .. } => write!(formatter, "this literal is bad"),
            Reply::KeywordCase { kind, .. } => match keyword(*kind) {
                Some(keyword) => write!(formatter, "this differs only in case from the keyword '{keyword}'"),
                None => write!(formatter, "this is a keyword in another case, of the unknown kind {kind}"),
            },
            Reply::TokenTableFull { tokens } => write!(formatter, "the token table has no room for {tokens} tokens"),
            Reply::Grammar { .. } => write!(formatter, "no definition goes on like this"),
            Reply::TooDeep { .. } => write!(formatter, "this is nested too deep"),
            Reply::TreeTableFull { records, .. } => {
                write!(formatter, "the tree table has no room for {records} records")
            }
            Reply::Unknown(reply) => write!(formatter, "the reply has the unknown number {}", reply.number),
        }
    }
}
