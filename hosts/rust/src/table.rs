//! The records of filled tables, and what their numbers are called.

use crate::raw::{TOKEN_NUMBERS, TREE_NUMBERS};
use std::iter;

/// A token: its kind, its first byte and its length in bytes.
#[derive(Clone, Copy, Debug, PartialEq, Eq)]
pub struct Token {
    pub kind: u32,
    pub first: usize,
    pub length: usize,
}

/// A use of a rule: its number, its first token, one past its last token, and the records in its subtree with itself.
#[derive(Clone, Copy, Debug, PartialEq, Eq)]
pub struct Record {
    pub rule: u32,
    pub first: usize,
    pub end: usize,
    pub size: usize,
}

/// The first `count` tokens of a token table.
///
/// ```
/// let table = [42, 0, 6, 1, 7, 1, 64, 8, 1];
/// let kinds: Vec<u32> = idl::tokens(&table, 3).map(|token| token.kind).collect();
/// assert_eq!(kinds, [42, 1, 64]);
/// ```
pub fn tokens(table: &[u32], count: usize) -> impl Iterator<Item = Token> + '_ {
    let token = |numbers: &[u32]| Token { kind: numbers[0], first: numbers[1] as usize, length: numbers[2] as usize };
    table.chunks_exact(TOKEN_NUMBERS).take(count).map(token)
}

/// The first `count` records of a tree table, children before their parent.
///
/// ```
/// let table = [51, 1, 2, 1, 42, 0, 2, 2, 2, 0, 3, 3, 1, 0, 3, 4];
/// let rules: Vec<u32> = idl::records(&table, 4).map(|record| record.rule).collect();
/// assert_eq!(rules, [51, 42, 2, 1]);
/// ```
pub fn records(table: &[u32], count: usize) -> impl Iterator<Item = Record> + '_ {
    let record = |numbers: &[u32]| Record {
        rule: numbers[0],
        first: numbers[1] as usize,
        end: numbers[2] as usize,
        size: numbers[3] as usize,
    };
    table.chunks_exact(TREE_NUMBERS).take(count).map(record)
}

/// The first `count` records of a tree table from the root down, each with the number of records above it.
///
/// Each of them comes once, whatever numbers the table holds: a size of 0 is read as 1, and one that reaches past the
/// start of the record above, or of the table, as reaching up to that start.
///
/// ```
/// let table = [51, 1, 2, 1, 42, 0, 2, 2, 2, 0, 3, 3, 1, 0, 3, 4];
/// let rules: Vec<_> = idl::outline(&table, 4).iter().map(|(level, record)| (*level, record.rule)).collect();
/// assert_eq!(rules, [(0, 1), (1, 2), (2, 42), (3, 51)]);
/// ```
pub fn outline(table: &[u32], count: usize) -> Vec<(usize, Record)> {
    let records: Vec<Record> = records(table, count).collect();
    let mut outline = Vec::with_capacity(records.len());
    let mut waiting: Vec<_> = subtrees(&records).map(|subtree| (0, subtree)).collect();
    while let Some((level, (root, below))) = waiting.pop() {
        outline.push((level, *root));
        waiting.extend(subtrees(below).map(|subtree| (level + 1, subtree)));
    }
    outline
}

/// The subtrees that stand side by side in these records, the last one first: its root, and the records below that.
fn subtrees(mut records: &[Record]) -> impl Iterator<Item = (&Record, &[Record])> {
    iter::from_fn(move || {
        let (root, before) = records.split_last()?;
        let size = root.size.clamp(1, records.len());
        let (left, below) = before.split_at(records.len() - size);
        records = left;
        Some((root, below))
    })
}

/// The kinds from 1 on.
const CLASSES: [&str; 8] = [
    "identifier",
    "integer literal",
    "floating literal",
    "fixed literal",
    "character literal",
    "wide character literal",
    "string literal",
    "wide string literal",
];

/// The spelling of the keyword of this kind; none for any other kind.
///
/// ```
/// assert_eq!(idl::keyword(33), Some("factory"));
/// assert_eq!(idl::keyword(1), None);
/// assert_eq!(idl::keyword(64), None);
/// ```
pub fn keyword(kind: u32) -> Option<&'static str> {
    KEYWORDS.split_whitespace().nth(kind.checked_sub(FIRST_KEYWORD)? as usize)
}

/// What a kind of token is called; keywords and marks are called as they are spelled.
///
/// ```
/// assert_eq!(idl::kind_name(26), Some("const"));
/// assert_eq!(idl::kind_name(69), Some("::"));
/// assert_eq!(idl::kind_name(9), None);
/// ```
pub fn kind_name(kind: u32) -> Option<&'static str> {
    match kind {
        FIRST_MARK.. => MARKS.split_whitespace().nth((kind - FIRST_MARK) as usize),
        FIRST_KEYWORD.. => keyword(kind),
        _ => CLASSES.get((kind as usize).checked_sub(1)?).copied(),
    }
}

const FIRST_KEYWORD: u32 = 16;
const FIRST_MARK: u32 = 64;

const KEYWORDS: &str = "FALSE Object TRUE ValueBase abstract any attribute boolean case char const context custom
    default double enum exception factory fixed float in inout interface local long module native octet oneway out
    private public raises readonly sequence short string struct supports switch truncatable typedef union unsigned
    valuetype void wchar wstring";

const MARKS: &str = "; { } : , :: = ( ) < > [ ] | ^ & >> << + - * / % ~";

/// What a rule of the grammar is called.
///
/// ```
/// assert_eq!(idl::rule_name(1), Some("specification"));
/// assert_eq!(idl::rule_name(99), Some("constr_forward_decl"));
/// assert_eq!(idl::rule_name(100), None);
/// ```
pub fn rule_name(rule: u32) -> Option<&'static str> {
    RULES.split_whitespace().nth((rule as usize).checked_sub(1)?)
}

const RULES: &str = "specification definition module interface interface_dcl forward_dcl interface_header
    interface_body export interface_inheritance_spec interface_name scoped_name value value_forward_dcl value_box_dcl
    value_abs_dcl value_dcl value_header value_inheritance_spec value_name value_element state_member init_dcl
    init_param_decls init_param_decl init_param_attribute const_dcl const_type const_exp or_expr xor_expr and_expr
    shift_expr add_expr mult_expr unary_expr unary_operator primary_expr literal boolean_literal positive_int_const
    type_dcl type_declarator type_spec simple_type_spec base_type_spec template_type_spec constr_type_spec declarators
    declarator simple_declarator complex_declarator floating_pt_type integer_type signed_int signed_short_int
    signed_long_int signed_longlong_int unsigned_int unsigned_short_int unsigned_long_int unsigned_longlong_int
    char_type wide_char_type boolean_type octet_type any_type object_type struct_type member_list member union_type
    switch_type_spec switch_body case case_label element_spec enum_type enumerator sequence_type string_type
    wide_string_type array_declarator fixed_array_size attr_dcl except_dcl op_dcl op_attribute op_type_spec
    parameter_dcls param_dcl param_attribute raises_expr context_expr param_type_spec fixed_pt_type
    fixed_pt_const_type value_base_type constr_forward_decl";
