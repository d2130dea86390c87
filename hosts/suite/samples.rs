//! The sample texts of the scope page, their tree records in its numbers, and the errors that other readers have made.

use super::common::{numbers_of, outcome, outcome_at};
use super::reader::number::{
    ACCEPTED, BAD_LITERAL, GRAMMAR, KEYWORD_CASE, OPEN, TOKEN_TABLE_FULL, TOO_DEEP, TREE_TABLE_FULL,
};
use super::reader::{read, DEPTH_CEILING, TOKEN_NUMBERS, TREE_NUMBERS};

fn assert_accepted(text: &str, tokens: u32, records: u32) {
    assert_eq!(outcome(text.as_bytes()).numbers(), (ACCEPTED, text.len() as u32, tokens, records), "{text}");
}

fn assert_blamed(text: &str, place: u32) {
    let (number, found, _, records) = outcome(text.as_bytes()).numbers();
    assert_eq!((number, found, records), (GRAMMAR, place, 0), "{text}");
}

fn assert_fault(text: &str, number: u32, place: u32) {
    assert_eq!(outcome(text.as_bytes()).numbers(), (number, place, 0, 0), "{text}");
}

const SHIFT: &str = "const long A = 1 << 8 + 4;";

#[test]
fn empty() {
    assert_blamed("", 0);
}

#[test]
fn native() {
    assert_accepted("native A;", 3, 4);
    let records = outcome(b"native A;").records();
    assert_eq!(records, [[51, 1, 2, 1], [42, 0, 2, 2], [2, 0, 3, 3], [1, 0, 3, 4]]);
}

#[test]
fn shift_binds_looser_than_addition() {
    assert_accepted(SHIFT, 10, 9);
    let wanted = [
        [57, 1, 2, 1],
        [39, 4, 5, 1],
        [39, 6, 7, 1],
        [39, 8, 9, 1],
        [34, 6, 9, 3],
        [33, 4, 9, 5],
        [27, 0, 9, 7],
        [2, 0, 10, 8],
        [1, 0, 10, 9],
    ];
    assert_eq!(outcome(SHIFT.as_bytes()).records(), wanted);
}

#[test]
fn shift_with_small_tables() {
    let call = |tokens: usize, records: usize| {
        let (mut tokens, mut tree) = (vec![7; TOKEN_NUMBERS * tokens], vec![7; TREE_NUMBERS * records]);
        let reply = read(SHIFT.as_bytes(), &mut tokens, &mut tree, DEPTH_CEILING);
        assert_eq!(tokens.iter().all(|&number| number == 0), reply.number != ACCEPTED);
        assert_eq!(tree.iter().all(|&number| number == 0), reply.number != ACCEPTED);
        numbers_of(reply)
    };
    assert_eq!(call(10, 8), (TREE_TABLE_FULL, 26, 10, 9));
    assert_eq!(call(9, 9), (TOKEN_TABLE_FULL, 26, 10, 0));
    assert_eq!(call(10, 9), (ACCEPTED, 26, 10, 9));
}

#[test]
fn two_signs() {
    assert_blamed("const long A = - -1;", 17);
    assert_blamed("const long A = ~-1;", 16);
}

#[test]
fn two_closing_marks_are_a_shift() {
    assert_blamed("typedef sequence<sequence<long>> T;", 30);
}

#[test]
fn empty_bodies() {
    assert_blamed("struct A { };", 11);
    assert_accepted("exception A { };", 5, 3);
}

#[test]
fn trailing_comma() {
    assert_blamed("enum E { A, };", 12);
}

#[test]
fn forward_interface_with_a_base() {
    assert_blamed("interface A : B;", 15);
}

#[test]
fn keyword_in_another_case() {
    assert_eq!(outcome(b"interface Factory { };").numbers(), (KEYWORD_CASE, 10, 33, 0));
    assert_accepted("interface _factory { };", 5, 5);
}

#[test]
fn depth_of_parentheses() {
    let text = b"const long A = ((1));";
    assert_eq!(outcome_at(text, 1).numbers(), (TOO_DEEP, 16, 10, 0));
    assert_eq!(outcome_at(text, 2).reply.number, ACCEPTED);
}

#[test]
fn faults() {
    assert_fault("const long A = 08;", BAD_LITERAL, 15);
    assert_fault("const string A = \"\\0\";", BAD_LITERAL, 17);
    assert_fault("/* x", OPEN, 0);
}

#[test]
fn sequence_as_result_or_parameter() {
    assert_blamed("interface I { sequence<long> f(); };", 14);
    assert_blamed("interface I { void f(in sequence<long> a); };", 24);
}

#[test]
fn place_of_blame_before_a_list() {
    assert_blamed("enum E { 1, A };", 9);
    assert_blamed("struct A { long 1, b; };", 16);
    assert_blamed("interface I { void f(long a, in long b); };", 21);
    assert_blamed("interface I { void f() raises(1, A); };", 30);
}

#[test]
fn empty_value_leaves_no_record_of_inheritance() {
    assert_accepted("valuetype V { };", 5, 4);
    let records = outcome(b"valuetype V { };").records();
    assert_eq!(records, [[18, 0, 2, 1], [17, 0, 4, 2], [2, 0, 5, 3], [1, 0, 5, 4]]);
}
