//! The numbers of the replies.

pub const ACCEPTED: u32 = 0;
pub const BAD_CALL: u32 = 1;
pub const NO_LEXEME: u32 = 2;
pub const OPEN: u32 = 3;
pub const BAD_LITERAL: u32 = 4;
pub const KEYWORD_CASE: u32 = 5;
pub const TOKEN_TABLE_FULL: u32 = 6;
pub const GRAMMAR: u32 = 7;
pub const TOO_DEEP: u32 = 8;
pub const TREE_TABLE_FULL: u32 = 9;
