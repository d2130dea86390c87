//! A proved reader of CORBA IDL.
//!
//! A call lends the text, a token table and a tree table: slices of 32-bit numbers, three to a token record (kind,
//! first byte, length in bytes) and four to a tree record (rule, first token, one past the last token, records in its
//! subtree with itself). An accepted text leaves its records at the front of the tables and what stands after them
//! unchanged. A refusal sets every number of the lent tables to zero, but for [`Reply::BadCall`], which changes
//! nothing. The reader takes no memory besides, only stack: at most [`STACK_KB`] KB.
//!
//! Every function here ends and none panics, whatever table, count or text it is given.
//!
//! ```
//! let text = b"native A;";
//! let mut tokens = [0; idl::TOKEN_NUMBERS * 9];
//! let mut tree = [0; idl::TREE_NUMBERS * 18];
//! let reply = idl::read(text, &mut tokens, &mut tree, idl::DEPTH_CEILING);
//! assert_eq!(reply, idl::Reply::Accepted { tokens: 3, records: 4 });
//!
//! for (level, record) in idl::outline(&tree, 4) {
//!     println!("{level} {}", idl::rule_name(record.rule).unwrap_or("?"));
//! }
//! ```

pub mod raw;
mod reply;
mod table;

pub use raw::{spelling, DEPTH_CEILING, STACK_KB, TEXT_CEILING, TOKEN_NUMBERS, TREE_NUMBERS};
pub use reply::Reply;
pub use table::{keyword, kind_name, outline, records, rule_name, tokens, Record, Token};

/// Reads the tokens of a text. An accepted text is one without a fault, whatever the grammar would say.
///
/// ```
/// let mut tokens = [0; 6];
/// assert_eq!(idl::read_tokens(b"a ::", &mut tokens), idl::Reply::Accepted { tokens: 2, records: 0 });
/// assert_eq!(tokens, [1, 0, 1, 69, 2, 2]);
/// assert_eq!(idl::spelling(b"a ::", &tokens, 1), b"::");
/// assert_eq!(idl::read_tokens(b"a 08", &mut tokens), idl::Reply::BadLiteral { place: 2 });
/// assert_eq!(tokens, [0; 6]);
/// ```
pub fn read_tokens(text: &[u8], tokens: &mut [u32]) -> Reply {
    raw::read_tokens(text, tokens).into()
}

/// Makes the tree from the first `token_count` records of a token table, for a text of this length.
///
/// A count above the table's records or above the text length is [`Reply::BadCall`].
///
/// ```
/// let tokens = [42, 0, 6, 1, 7, 1, 64, 8, 1];
/// let mut tree = [0; 16];
/// assert_eq!(idl::read_tree(&tokens, 3, 9, &mut tree, 1), idl::Reply::Accepted { tokens: 3, records: 4 });
/// assert_eq!(tree[..4], [51, 1, 2, 1]);
/// assert_eq!(idl::read_tree(&tokens, 2, 9, &mut tree, 1), idl::Reply::Grammar { place: 9, tokens: 2 });
/// ```
pub fn read_tree(tokens: &[u32], token_count: usize, text_length: usize, tree: &mut [u32], depth: u32) -> Reply {
    raw::read_tree(tokens, token_count, text_length, tree, depth).into()
}

/// Reads a whole text into the two tables; `depth` bounds the nesting and is 1 to [`DEPTH_CEILING`].
///
/// ```
/// let text = b"interface Factory { };";
/// let reply = idl::read(text, &mut [0; 30], &mut [0; 40], idl::DEPTH_CEILING);
/// assert_eq!(reply, idl::Reply::KeywordCase { place: 10, kind: 33 });
/// assert_eq!(reply.to_string(), "this differs only in case from the keyword 'factory'");
/// assert!(reply.blames_text());
///
/// let reply = idl::read(b"native A;", &mut [0; 30], &mut [0; 4], idl::DEPTH_CEILING);
/// assert_eq!(reply, idl::Reply::TreeTableFull { tokens: 3, records: 4 });
/// assert!(!reply.blames_text());
/// ```
pub fn read(text: &[u8], tokens: &mut [u32], tree: &mut [u32], depth: u32) -> Reply {
    raw::read(text, tokens, tree, depth).into()
}
