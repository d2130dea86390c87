//! The check of instruction counts can fail, and fails for the right reason.

use compare::bounds::{by_word, check, write};

const COUNTS: &str = "corba tokens ordinary 500000
corba tokens proved 1000000
corba whole ordinary 800000
corba whole proved 1200000
";

/// What is wrong when the bound of the token part is this one.
fn wrong(tokens_bound: u64) -> Vec<String> {
    check(COUNTS, &format!("# A remark.\ncorba tokens {tokens_bound}\ncorba whole 1236000\n")).expect("lines").1
}

#[test]
fn new_bounds_hold() {
    let bounds = write(COUNTS).expect("lines");
    assert_eq!(bounds, "corba tokens 1030000\ncorba whole 1236000\n");
    let (table, wrong) = check(COUNTS, &bounds).expect("lines");
    assert!(table.contains("| corba | tokens | 500000 | 1000000 | 2.00 | 1030000 |"), "{table}");
    assert!(wrong.is_empty(), "{wrong:?}");
}

#[test]
fn a_count_above_its_bound_fails() {
    assert_eq!(wrong(1_000_000), [""; 0]);
    assert_eq!(wrong(999_999), ["corba tokens: 1000000 is above the bound 999999"]);
    assert_eq!(wrong(950_000).len(), 1);
}

#[test]
fn a_count_far_below_its_bound_fails() {
    assert_eq!(wrong(1_111_111), [""; 0]);
    assert_eq!(wrong(1_112_000).len(), 1);
    assert!(wrong(2_000_000)[0].ends_with("lower the bound"));
}

#[test]
fn a_count_without_bound_fails_and_a_bound_without_count() {
    let found = check(COUNTS, "corba tokens 1030000\ndata whole 7\n").expect("lines").1;
    assert_eq!(found, ["corba whole: no bound", "data whole: a bound, but no count"]);
}

#[test]
fn lines_that_cannot_be_read_fail() {
    assert!(check(COUNTS, "corba tokens\n").is_err());
    assert!(check(COUNTS, "corba tokens 1\ncorba tokens 1\n").is_err());
    assert!(check("corba tokens proved \n", "corba tokens 1\n").is_err());
    assert!(check("", "").is_err());
    assert!(write("").is_err());
}

#[test]
fn counts_by_the_word_and_by_the_byte() {
    let text = |words: &str| ("corba", words.as_bytes().to_vec());
    let row = |words: &str| by_word(COUNTS, &[text(words)]).expect("lines").lines().last().map(String::from);
    assert_eq!(row("a bc\nd \n ef "), Some("| corba | 4 | 12 | word | 125000.00 | 250000.00 |".to_string()));
    assert_eq!(row("words"), Some("| corba | 1 | 5 | byte | 100000.00 | 200000.00 |".to_string()));
    assert!(by_word(COUNTS, &[text("words"), ("data", b"words".to_vec())]).is_err());
    assert!(by_word("corba tokens proved 1\n", &[text("words")]).is_err());
}
