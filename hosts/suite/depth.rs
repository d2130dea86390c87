//! Depth: of each opening mark, and of texts nested in every way, around the ceiling of the setting.

use super::common::{numbers_of, outcome, outcome_at, Numbers, FILLER, REFUSED_CALL};
use super::reader::number::{ACCEPTED, TOO_DEEP};
use super::reader::{read, read_tokens, read_tree, DEPTH_CEILING, TOKEN_NUMBERS, TREE_NUMBERS};
use generate::nest::{first_too_deep, NESTS};
use generate::text::{spell, Layout};
use generate::{Grammar, Random};

/// The ceiling that the papers give.
const CEILING: u32 = 200;
const DEPTHS: [u32; 4] = [150, 199, 200, 201];
const SETTINGS: [u32; 4] = [64, 200, 201, u32::MAX];

/// The rule of the whole.
const SPECIFICATION: u32 = 1;

/// A text, the kinds of its tokens, and its token table.
struct Text {
    bytes: Vec<u8>,
    kinds: Vec<u32>,
    tokens: Vec<u32>,
}

impl Text {
    fn new(kinds: Vec<u32>, grammar: &Grammar) -> Self {
        let bytes = spell(&kinds, grammar, Layout::Tidy, &mut Random::new(1));
        let mut tokens = vec![0; TOKEN_NUMBERS * kinds.len()];
        assert_eq!(read_tokens(&bytes, &mut tokens).number, ACCEPTED);
        Text { bytes, kinds, tokens }
    }

    /// The numbers of the reply that both parts owe to a setting, but for the records of an accepted text.
    fn wanted(&self, setting: u32, grammar: &Grammar) -> Numbers {
        let count = self.kinds.len() as u32;
        if !(1..=CEILING).contains(&setting) {
            return REFUSED_CALL;
        }
        match first_too_deep(&self.kinds, setting, grammar) {
            Some(token) => (TOO_DEEP, self.tokens[TOKEN_NUMBERS * token + 1], count, 0),
            None => (ACCEPTED, self.bytes.len() as u32, count, 0),
        }
    }

    /// Demands that reply of both parts, and what it says of their tables: the last record of a tree is the whole text.
    /// Gives the tree table.
    fn read(&self, setting: u32, grammar: &Grammar) -> Vec<u32> {
        let wanted = self.wanted(setting, grammar);
        let room = 2 * TREE_NUMBERS * self.kinds.len();
        let (mut alone, mut tree) = (vec![FILLER; room], vec![FILLER; room]);
        let mut tokens = vec![FILLER; self.tokens.len()];
        let part = read_tree(&self.tokens, self.kinds.len(), self.bytes.len(), &mut alone, setting);
        let whole = read(&self.bytes, &mut tokens, &mut tree, setting);
        assert_eq!((part, &alone), (whole, &tree));
        let records = if wanted.0 == ACCEPTED { whole.records } else { 0 };
        assert_eq!(numbers_of(whole), (wanted.0, wanted.1, wanted.2, records));
        match wanted.0 {
            ACCEPTED => {
                assert_eq!(tokens, self.tokens);
                let (filled, rest) = tree.split_at(TREE_NUMBERS * records as usize);
                assert!(filled.ends_with(&[SPECIFICATION, 0, wanted.2, records]));
                assert!(rest.iter().all(|&number| number == FILLER));
            }
            TOO_DEEP => assert!([&tokens[..], &tree].concat().iter().all(|&number| number == 0)),
            _ => assert!([&tokens[..], &tree].concat().iter().all(|&number| number == FILLER)),
        }
        tree
    }
}

/// Runs a test on each way to nest, to this depth exactly.
fn for_each_way(depth: u32, test: impl Fn(&Text, &Grammar)) {
    let grammar = Grammar::published();
    for nest in &NESTS {
        let text = Text::new(nest.kinds(depth as usize, &grammar), &grammar);
        assert_eq!(first_too_deep(&text.kinds, depth, &grammar), None, "{}", nest.name);
        assert!(first_too_deep(&text.kinds, depth - 1, &grammar).is_some(), "{}", nest.name);
        test(&text, &grammar);
    }
}

#[test]
fn the_ceiling_is_that_of_the_papers() {
    assert_eq!(DEPTH_CEILING, CEILING);
}

#[test]
fn texts_around_the_ceiling_at_settings_around_it() {
    for depth in DEPTHS {
        for_each_way(depth, |text, grammar| {
            for setting in SETTINGS {
                text.read(setting, grammar);
            }
        });
    }
}

#[test]
fn an_acceptance_stays_at_every_larger_setting() {
    for_each_way(DEPTHS[0], |text, grammar| {
        let tree = text.read(DEPTHS[0], grammar);
        assert!((DEPTHS[0]..=CEILING).all(|setting| text.read(setting, grammar) == tree));
    });
}

#[test]
fn a_refusal_for_depth_moves_on_with_the_setting() {
    for_each_way(CEILING + 1, |text, grammar| {
        let place = |setting| text.wanted(setting, grammar).1;
        assert!((1..CEILING).all(|setting| place(setting) < place(setting + 1)));
        (1..=CEILING).for_each(|setting| {
            text.read(setting, grammar);
        });
    });
}

/// A constant with so many parentheses around it.
fn nested(depth: u32) -> Vec<u8> {
    let marks = |mark: &str| mark.repeat(depth as usize);
    format!("const long A = {}1{};", marks("("), marks(")")).into_bytes()
}

#[test]
fn depth_ceiling() {
    assert_eq!(outcome(&nested(DEPTH_CEILING)).reply.number, ACCEPTED);
    let tokens = 6 + 2 * (DEPTH_CEILING + 1);
    assert_eq!(outcome(&nested(DEPTH_CEILING + 1)).numbers(), (TOO_DEEP, 15 + DEPTH_CEILING, tokens, 0));
    assert_eq!(outcome_at(&nested(1), 0).numbers(), REFUSED_CALL);
    assert_eq!(outcome_at(&nested(1), DEPTH_CEILING + 1).numbers(), REFUSED_CALL);
    assert_eq!(outcome_at(&nested(1), u32::MAX).numbers(), REFUSED_CALL);
    assert_eq!(outcome_at(&nested(1), 1).reply.number, ACCEPTED);
    assert_eq!(outcome_at(&nested(2), 1).reply.number, TOO_DEEP);
}

#[test]
fn depth_of_each_opening_mark() {
    let deep = [
        "module M { interface I { }; };",
        "struct S { any a[1]; };",
        "typedef sequence<string<1>, 2> T;",
        "interface I { void f(); };",
        "union U switch(enum E { A }) { default: any a; };",
    ];
    for text in deep {
        let refused = outcome_at(text.as_bytes(), 1).reply;
        let second = text.match_indices(['(', '{', '[', '<']).nth(1).expect("it opens twice").0;
        assert_eq!((refused.number, refused.place), (TOO_DEEP, second as u32), "{text}");
        assert_ne!(outcome_at(text.as_bytes(), 2).reply.number, TOO_DEEP, "{text}");
    }
}
