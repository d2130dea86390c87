//! What the proofs believe, read from their definitions.

const KINDS: &str = include_str!("../../../crates/kinds/specs/Kinds.antt");

/// What stands behind the first place of these words.
fn after(words: &str) -> &'static str {
    KINDS.split_once(words).unwrap_or_else(|| panic!("no definition has {words:?}")).1
}

/// The keywords with their kinds, in the order of the definitions.
pub fn keywords() -> Vec<(u32, &'static str)> {
    let first = after("\nfirst_keyword = ").lines().next().and_then(|line| line.parse().ok());
    let (list, _) = after("\nkeywords =\n").split_once("[]").expect("the list ends");
    let spellings = list.split('"').skip(1).step_by(2);
    (first.expect("a kind")..).zip(spellings).collect()
}
