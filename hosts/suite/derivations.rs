//! What the papers mean by a derivation and its records, where a reader could stumble.

use super::common::{numbers_of, outcome, outcome_at, REFUSED_CALL};
use super::reader::number::{ACCEPTED, BAD_CALL, GRAMMAR, TOO_DEEP, TREE_TABLE_FULL};
use super::reader::{read_tree, DEPTH_CEILING, TEXT_CEILING, TREE_NUMBERS};
use generate::kind::IDENTIFIER;
use generate::Grammar;

fn blamed(text: &str) -> (u32, u32) {
    let reply = outcome(text.as_bytes()).reply;
    (reply.number, reply.place)
}

/// Demands that the records of a text of one definition are of these rules.
fn assert_rules(text: &str, wanted: &str) {
    let outcome = outcome(text.as_bytes());
    assert_eq!(outcome.reply.number, ACCEPTED, "{text}");
    let names = Grammar::names();
    let rules: Vec<&str> = outcome.records().iter().map(|record| names[record[0] as usize - 1].as_str()).collect();
    let wanted: Vec<&str> = wanted.split_whitespace().chain(["definition", "specification"]).collect();
    assert_eq!(rules, wanted, "{text}");
}

#[test]
fn shifts_neither_open_nor_close() {
    assert_eq!(blamed("typedef sequence<string<1>> T;"), (GRAMMAR, 29));
    assert_eq!(outcome_at(b"const long A = (1 << 2 >> 3);", 1).reply.number, ACCEPTED);
}

#[test]
fn recorded_as_used() {
    assert_rules("struct A { long b; };", "signed_long_int simple_declarator member struct_type");
    assert_rules(
        "struct A { any b; any c; };",
        "any_type simple_declarator member any_type simple_declarator member member_list struct_type",
    );
    assert_rules(
        "typedef A::B c, d[TRUE];",
        "scoped_name scoped_name
         simple_declarator boolean_literal fixed_array_size array_declarator declarators type_declarator type_dcl",
    );
    assert_rules(
        "interface I { void f(); A g(in ::B c); };",
        "interface_header op_type_spec parameter_dcls op_dcl export
         scoped_name param_attribute scoped_name simple_declarator param_dcl parameter_dcls op_dcl export
         interface_body interface_dcl",
    );
    assert_rules("abstract valuetype A { };", "value_abs_dcl");
    assert_rules("interface I { };", "interface_header interface_body interface_dcl");
    assert_rules(
        "valuetype V supports A, B { factory f(in any a); };",
        "scoped_name scoped_name value_inheritance_spec value_header
         init_param_attribute any_type simple_declarator init_param_decl init_dcl value_dcl",
    );
    assert_rules(
        "union U switch(A) { default: any a; };",
        "scoped_name case_label any_type simple_declarator element_spec case union_type",
    );
}

#[test]
fn empty_interface_body() {
    let records = outcome(b"interface I { };").records();
    assert!(records.contains(&[Grammar::rule("interface_body"), 3, 3, 1]));
}

#[test]
fn only_the_alternatives_of_the_rule() {
    assert_eq!(blamed("union U switch(octet) { };"), (GRAMMAR, 15));
    assert_eq!(blamed("union U switch(wchar) { };"), (GRAMMAR, 15));
    assert_eq!(blamed("union U switch(long double) { };"), (GRAMMAR, 20));
    assert_eq!(blamed("const fixed<1,2> A = 1;"), (GRAMMAR, 11));
    assert_eq!(blamed("const any A = 1;"), (GRAMMAR, 6));
    assert_eq!(blamed("typedef struct A B;"), (GRAMMAR, 17));
    assert_eq!(blamed("custom valuetype V;"), (GRAMMAR, 18));
    assert_eq!(blamed("valuetype V { factory f() raises(A); };"), (GRAMMAR, 26));
    assert_eq!(blamed("interface I { void f() context(L\"a\"); };"), (GRAMMAR, 31));
    assert_eq!(blamed("abstract struct A;"), (GRAMMAR, 9));
}

#[test]
fn blame_wins_over_depth_at_one_token() {
    assert_eq!(blamed("("), (GRAMMAR, 0));
    assert_eq!(outcome_at(b"const long A = (1(", 1).numbers(), (GRAMMAR, 17, 7, 0));
    assert_eq!(outcome_at(b"const long A = ((1(", 1).numbers(), (TOO_DEEP, 16, 8, 0));
}

#[test]
fn the_tree_part_alone() {
    const FILLER: u32 = 9;
    let call = |tokens: &[u32], count, length, depth| {
        let mut tree = [FILLER; TREE_NUMBERS];
        let reply = read_tree(tokens, count, length, &mut tree, depth);
        assert_eq!(tree, [if reply.number == BAD_CALL { FILLER } else { 0 }; TREE_NUMBERS]);
        numbers_of(reply)
    };
    let kinds = Grammar::published().kinds;
    let (native, semicolon) = (kinds.of("native"), kinds.of(";"));
    let deep = DEPTH_CEILING;
    assert_eq!(call(&[], 0, 5, deep), (GRAMMAR, 5, 0, 0));
    assert_eq!(call(&[native, 77, 1], 1, 5, deep), (GRAMMAR, 5, 1, 0));
    assert_eq!(call(&[IDENTIFIER, 77, 1], 1, 5, deep), (GRAMMAR, 77, 1, 0));
    assert_eq!(call(&[native + 256, u32::MAX, 1], 1, 5, deep), (GRAMMAR, u32::MAX, 1, 0));
    let whole = [native, 0, 1, IDENTIFIER, 0, 1, semicolon, 0, 1];
    assert_eq!(call(&whole, 3, 3, deep), (TREE_TABLE_FULL, 3, 3, 4));
    assert_eq!(call(&[native, 77], 1, 5, deep), REFUSED_CALL);
    assert_eq!(call(&[native, 77, 1], 1, 0, deep), REFUSED_CALL);
    assert_eq!(call(&[native, 77, 1], 1, TEXT_CEILING + 1, deep), REFUSED_CALL);
    assert_eq!(call(&[native, 77, 1], 1, TEXT_CEILING, deep), (GRAMMAR, TEXT_CEILING as u32, 1, 0));
    assert_eq!(call(&[native, 77, 1], 1, 5, DEPTH_CEILING + 1), REFUSED_CALL);
    assert_eq!(call(&[native, 77, 1], 1, 5, 0), REFUSED_CALL);
}
