//! The library's entries on plain numbers and lent slices.

mod entries {
    use super::Reply;

    #[repr(C)]
    pub struct Span {
        pub first: u32,
        pub length: u32,
    }

    extern "C" {
        pub fn idl_read_tokens(text: *const u8, text_len: usize, tokens: *mut u32, tokens_len: usize) -> Reply;
        pub fn idl_spelling(
            text: *const u8,
            text_len: usize,
            tokens: *const u32,
            tokens_len: usize,
            record: usize,
        ) -> Span;
        pub fn idl_read_tree(
            tokens: *const u32,
            tokens_len: usize,
            token_count: usize,
            text_len: usize,
            tree: *mut u32,
            tree_len: usize,
            depth: u32,
        ) -> Reply;
        pub fn idl_read(
            text: *const u8,
            text_len: usize,
            tokens: *mut u32,
            tokens_len: usize,
            tree: *mut u32,
            tree_len: usize,
            depth: u32,
        ) -> Reply;
    }
}

/// The longest text, in bytes.
pub const TEXT_CEILING: usize = 1_048_576;
/// The largest depth setting; the smallest is 1.
pub const DEPTH_CEILING: u32 = 200;
/// The stack that a call needs at most at that setting, in KB of 1,024 bytes.
pub const STACK_KB: usize = 141;
/// The numbers of a token record.
pub const TOKEN_NUMBERS: usize = 3;
/// The numbers of a tree record.
pub const TREE_NUMBERS: usize = 4;

/// What the number of a reply says.
pub mod number {
    pub const ACCEPTED: u32 = 0;
    pub const BAD_CALL: u32 = 1;
    pub const NO_LEXEME: u32 = 2;
    pub const OPEN: u32 = 3;
    pub const BAD_LITERAL: u32 = 4;
    pub const KEYWORD_CASE: u32 = 5;
    pub const TOKEN_TABLE_FULL: u32 = 6;
    pub const GRAMMAR: u32 = 7;
    pub const TOO_DEEP: u32 = 8;
    pub const TREE_TABLE_FULL: u32 = 9;
}

/// A reply as four numbers; [`crate::Reply`] names its cases.
#[repr(C)]
#[derive(Clone, Copy, Debug, PartialEq, Eq)]
pub struct Reply {
    pub number: u32,
    pub place: u32,
    pub tokens: u32,
    pub records: u32,
}

/// Reads the tokens of a text.
pub fn read_tokens(text: &[u8], tokens: &mut [u32]) -> Reply {
    // SAFETY: each pointer is good for its length, and the mutable table overlaps nothing.
    unsafe { entries::idl_read_tokens(text.as_ptr(), text.len(), tokens.as_mut_ptr(), tokens.len()) }
}

/// The bytes of one token, empty for a bad record.
pub fn spelling<'a>(text: &'a [u8], tokens: &[u32], record: usize) -> &'a [u8] {
    // SAFETY: each pointer is good for its length.
    let span = unsafe { entries::idl_spelling(text.as_ptr(), text.len(), tokens.as_ptr(), tokens.len(), record) };
    let rest = text.get(span.first as usize..).unwrap_or_default();
    rest.get(..span.length as usize).unwrap_or_default()
}

/// Makes the tree from the first `token_count` records of a token table.
pub fn read_tree(tokens: &[u32], token_count: usize, text_length: usize, tree: &mut [u32], depth: u32) -> Reply {
    let (tree, tree_length) = (tree.as_mut_ptr(), tree.len());
    // SAFETY: each pointer is good for its length, and the mutable table overlaps nothing.
    unsafe { entries::idl_read_tree(tokens.as_ptr(), tokens.len(), token_count, text_length, tree, tree_length, depth) }
}

/// Reads a whole text into the two tables.
pub fn read(text: &[u8], tokens: &mut [u32], tree: &mut [u32], depth: u32) -> Reply {
    let (tokens, tokens_length) = (tokens.as_mut_ptr(), tokens.len());
    let (tree, tree_length) = (tree.as_mut_ptr(), tree.len());
    // SAFETY: each pointer is good for its length, and the mutable tables overlap nothing.
    unsafe { entries::idl_read(text.as_ptr(), text.len(), tokens, tokens_length, tree, tree_length, depth) }
}
