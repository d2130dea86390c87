//! From tokens to the tree, by recursive descent with one token of lookahead.
//!
//! A token is taken only where some derivation continues with it, so the token at which a parser stops is the first
//! one that no derivable list continues with. Numbers in comments are rules of the grammar.

mod definition;
mod expression;
mod types;
mod value;

use crate::kind::COMMA;
use crate::{TOKEN_NUMBERS, TREE_NUMBERS};

/// Why a parser stopped before the current token.
#[derive(Clone, Copy, Debug, PartialEq, Eq)]
pub enum Stop {
    /// No derivable list goes on with this token.
    Grammar,
    /// This opening mark would take the depth past the setting.
    TooDeep,
}

type Parsed = Result<(), Stop>;

/// The start of a use of a rule: its first token, and the records that stand before its own.
#[derive(Clone, Copy)]
struct Node {
    first: u32,
    before: u32,
}

/// No token: stands for the kind after the last token.
const END: u32 = 0;

pub struct Parser<'a> {
    tokens: &'a [u32],
    tree: &'a mut [u32],
    /// The number of the current token, and its kind.
    at: u32,
    kind: u32,
    depth_left: u32,
    records: u32,
}

impl<'a> Parser<'a> {
    /// A parser of these token records, all of them.
    pub fn new(tokens: &'a [u32], tree: &'a mut [u32], depth: u32) -> Self {
        let kind = tokens.first().copied().unwrap_or(END);
        Parser { tokens, tree, at: 0, kind, depth_left: depth, records: 0 }
    }

    /// The number of the current token: where the parser stopped.
    pub fn at(&self) -> usize {
        self.at as usize
    }

    /// The records of the tree so far, counted also where there was no room.
    pub fn records(&self) -> usize {
        self.records as usize
    }

    fn at_end(&self) -> bool {
        TOKEN_NUMBERS * self.at() >= self.tokens.len()
    }

    fn take(&mut self) {
        self.at += 1;
        self.kind = self.tokens.get(TOKEN_NUMBERS * self.at()).copied().unwrap_or(END);
    }

    fn expect(&mut self, kind: u32) -> Parsed {
        if self.kind != kind {
            return Err(Stop::Grammar);
        }
        self.take();
        Ok(())
    }

    /// Takes the token if it is of this kind.
    fn accept(&mut self, kind: u32) -> bool {
        let found = self.kind == kind;
        if found {
            self.take();
        }
        found
    }

    fn open(&mut self, kind: u32) -> Parsed {
        if self.kind != kind {
            return Err(Stop::Grammar);
        }
        if self.depth_left == 0 {
            return Err(Stop::TooDeep);
        }
        self.depth_left -= 1;
        self.take();
        Ok(())
    }

    fn close(&mut self, kind: u32) -> Parsed {
        self.expect(kind)?;
        self.depth_left += 1;
        Ok(())
    }

    fn begin(&self) -> Node {
        Node { first: self.at, before: self.records }
    }

    fn record(&mut self, rule: u32, node: Node) {
        let start = TREE_NUMBERS * self.records();
        if let Some(room) = self.tree.get_mut(start..start + TREE_NUMBERS) {
            room.copy_from_slice(&[rule, node.first, self.at, self.records - node.before + 1]);
        }
        self.records += 1;
    }

    /// A rule whose right side, as used, is the current token alone.
    fn leaf(&mut self, rule: u32) -> Parsed {
        let node = self.begin();
        self.take();
        self.record(rule, node);
        Ok(())
    }

    /// One or more strings of this kind, narrow or wide, side by side.
    fn string_literal(&mut self, kind: u32) -> Parsed {
        self.expect(kind)?;
        while self.accept(kind) {}
        Ok(())
    }

    /// One or more items with commas between; says how many.
    fn list(&mut self, item: fn(&mut Self) -> Parsed) -> Result<usize, Stop> {
        item(self)?;
        let mut count = 1;
        while self.accept(COMMA) {
            item(self)?;
            count += 1;
        }
        Ok(count)
    }
}
