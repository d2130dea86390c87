//! Random derivable token lists.

use crate::grammar::{Grammar, Side};
use crate::random::Random;

/// Expands the rules at random; when the tokens planned are spent, each choice takes its shortest side.
pub struct Sentences<'a> {
    grammar: &'a Grammar,
    /// The fewest tokens of each rule.
    fewest: Vec<usize>,
}

/// More than any rule's fewest tokens.
const UNKNOWN: usize = 1000;
const DEFINITION: usize = 2;
/// The rules of the binary operators, whose second side is left-recursive.
const OPERATORS: std::ops::RangeInclusive<usize> = 30..=35;

impl<'a> Sentences<'a> {
    pub fn new(grammar: &'a Grammar) -> Self {
        let mut fewest = vec![UNKNOWN; grammar.rules.len()];
        loop {
            let next: Vec<usize> = grammar.rules.iter().map(|side| fewest_tokens(side, &fewest)).collect();
            if next == fewest {
                return Sentences { grammar, fewest };
            }
            fewest = next;
        }
    }

    /// A list of definitions, about `size` tokens together and each of at most about `part`.
    pub fn kinds(&self, random: &mut Random, size: usize, part: usize) -> Vec<u32> {
        let mut kinds = Vec::new();
        while kinds.is_empty() || kinds.len() < size {
            let mut planned = kinds.len() + random.below(part) + 1;
            planned = planned.min(size);
            self.expand_rule(DEFINITION, random, planned, &mut kinds);
        }
        kinds
    }

    fn expand_rule(&self, rule: usize, random: &mut Random, planned: usize, kinds: &mut Vec<u32>) {
        let side = &self.grammar.rules[rule];
        match side {
            Side::Choice(sides) if OPERATORS.contains(&rule) && !random.once_in(6) => {
                self.expand(&sides[0], random, planned, kinds)
            }
            _ => self.expand(side, random, planned, kinds),
        }
    }

    fn expand(&self, side: &Side, random: &mut Random, planned: usize, kinds: &mut Vec<u32>) {
        let spent = kinds.len() >= planned;
        match side {
            Side::Token(kind) => kinds.push(*kind),
            Side::Rule(rule) => self.expand_rule(*rule, random, planned, kinds),
            Side::Sequence(sides) => sides.iter().for_each(|side| self.expand(side, random, planned, kinds)),
            Side::Choice(sides) if spent => {
                let shortest = sides.iter().min_by_key(|side| fewest_tokens(side, &self.fewest));
                self.expand(shortest.expect("a choice has sides"), random, planned, kinds);
            }
            Side::Choice(sides) => self.expand(random.pick(sides), random, planned, kinds),
            Side::Optional(side) => {
                if !spent && random.once_in(2) {
                    self.expand(side, random, planned, kinds);
                }
            }
            Side::ZeroOrMore(side) => self.repeat(side, random, planned, kinds),
            Side::OneOrMore(side) => {
                self.expand(side, random, planned, kinds);
                self.repeat(side, random, planned, kinds);
            }
        }
    }

    fn repeat(&self, side: &Side, random: &mut Random, planned: usize, kinds: &mut Vec<u32>) {
        while kinds.len() < planned && !random.once_in(3) {
            self.expand(side, random, planned, kinds);
        }
    }
}

fn fewest_tokens(side: &Side, fewest: &[usize]) -> usize {
    match side {
        Side::Token(_) => 1,
        Side::Rule(rule) => fewest[*rule],
        Side::Sequence(sides) => sides.iter().map(|side| fewest_tokens(side, fewest)).sum::<usize>().min(UNKNOWN),
        Side::Choice(sides) => sides.iter().map(|side| fewest_tokens(side, fewest)).min().unwrap_or(UNKNOWN),
        Side::Optional(_) | Side::ZeroOrMore(_) => 0,
        Side::OneOrMore(side) => fewest_tokens(side, fewest),
    }
}
