//! The grammar that the proofs believe is the published one, repaired and amended, rule by rule and by its keywords.

use generate::kind::{FIRST_KEYWORD, FIRST_MARK};
use generate::{believed, Grammar};

const BELIEVED: &str = include_str!("../../../crates/grammar/specs/Idl.antt");

/// The rules between `published =` and the end of its list, written as the papers write them.
fn as_in_the_papers(text: &str) -> String {
    let rules = text.split("published =\n").nth(1).expect("the list of rules begins");
    let rules = rules.split("\n    []").next().expect("the list of rules ends");
    rules.lines().map(|line| line_as_in_the_papers(line.trim())).collect::<Vec<_>>().join("\n")
}

fn line_as_in_the_papers(line: &str) -> String {
    if let Some(comment) = line.strip_prefix("-- ") {
        return comment.split(' ').next().unwrap_or("").to_string();
    }
    let line = line.strip_suffix(") ∷").unwrap_or(line);
    let line = match line.strip_prefix("(\"").and_then(|rule| rule.split_once("\" ::= ")) {
        Some((name, side)) => format!("<{name}> ::= {side}"),
        None => line.to_string(),
    };
    let notation = [("< \"", "<"), ("\" >", ">"), ("` ", ""), ("▸", " "), ("∣", "|"), ("⟦", "["), ("⟧", "]")];
    notation.iter().fold(line, |line, (theirs, papers)| line.replace(theirs, papers))
}

#[test]
fn the_believed_rules_are_the_published_ones() {
    let believed = Grammar::read(&as_in_the_papers(BELIEVED));
    let published = Grammar::published();
    assert_eq!(believed.rules.len(), 100);
    for (rule, side) in published.rules.iter().enumerate() {
        assert_eq!(&believed.rules[rule], side, "rule {rule}");
    }
}

#[test]
fn the_believed_keywords_are_the_published_ones() {
    let kinds = Grammar::published().kinds;
    let published: Vec<(u32, &str)> = kinds.keywords().map(|keyword| (kinds.of(keyword), keyword)).collect();
    assert_eq!(published.len(), (FIRST_MARK - FIRST_KEYWORD) as usize);
    assert_eq!(believed::keywords(), published);
}
