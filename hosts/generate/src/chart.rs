//! A slow reader to judge the fast ones: a chart of production, dot and start, filled token by token, over the rules
//! as data. It knows acceptance, the place of blame and the one derivation, and nothing of prediction.

use crate::cases::TREE_NUMBERS;
use crate::grammar::{Grammar, Side};
use std::collections::{HashMap, HashSet};

/// The rule that a whole list is derived from.
const SPECIFICATION: usize = 1;
/// A rule that is recorded also where its right side as used is one nonterminal.
const INTERFACE_BODY: usize = 8;

#[derive(Clone, Copy, Debug, PartialEq, Eq, Hash)]
enum Symbol {
    Token(u32),
    /// A rule by its number, or from `first_part` on a part of a rule's right side.
    Name(usize),
}

struct Production {
    name: usize,
    right: Vec<Symbol>,
}

/// A tree record: rule, first token, one past the last token, records in its subtree with itself.
pub type Record = [u32; TREE_NUMBERS];

/// What a token list means: the number of the token blamed (the end has the list's length), or its tree records.
#[derive(Debug, PartialEq, Eq)]
pub enum Meaning {
    Blame(usize),
    Records(Vec<Record>),
}

/// The productions of a grammar, each name's together.
pub struct Chart {
    productions: Vec<Production>,
    of_name: Vec<Vec<usize>>,
    nullable: Vec<bool>,
    first_part: usize,
}

#[derive(Clone, Copy, Debug, PartialEq, Eq, Hash)]
struct Item {
    production: usize,
    dot: usize,
    start: usize,
}

impl Chart {
    pub fn new(grammar: &Grammar) -> Self {
        let first_part = grammar.rules.len();
        let mut chart =
            Chart { productions: Vec::new(), of_name: vec![Vec::new(); first_part], nullable: Vec::new(), first_part };
        for (rule, side) in grammar.rules.iter().enumerate().skip(1) {
            chart.define(rule, side);
        }
        chart.nullable = chart.nullable_names();
        chart
    }

    fn define(&mut self, name: usize, side: &Side) {
        match side {
            Side::Choice(sides) => sides.iter().for_each(|side| self.define(name, side)),
            Side::Sequence(sides) => {
                let right = sides.iter().map(|side| self.symbol(side)).collect();
                self.produce(name, right);
            }
            Side::Optional(side) => {
                self.produce(name, Vec::new());
                self.define(name, side);
            }
            Side::ZeroOrMore(side) => {
                let item = self.symbol(side);
                self.produce(name, Vec::new());
                self.produce(name, vec![Symbol::Name(name), item]);
            }
            Side::OneOrMore(side) => {
                let item = self.symbol(side);
                self.produce(name, vec![item]);
                self.produce(name, vec![Symbol::Name(name), item]);
            }
            Side::Token(_) | Side::Rule(_) => {
                let right = vec![self.symbol(side)];
                self.produce(name, right);
            }
        }
    }

    fn symbol(&mut self, side: &Side) -> Symbol {
        match side {
            Side::Token(kind) => Symbol::Token(*kind),
            Side::Rule(rule) => Symbol::Name(*rule),
            _ => {
                let name = self.of_name.len();
                self.of_name.push(Vec::new());
                self.define(name, side);
                Symbol::Name(name)
            }
        }
    }

    fn produce(&mut self, name: usize, right: Vec<Symbol>) {
        self.of_name[name].push(self.productions.len());
        self.productions.push(Production { name, right });
    }

    fn nullable_names(&self) -> Vec<bool> {
        let mut nullable = vec![false; self.of_name.len()];
        loop {
            let derives_nothing = |symbol: &Symbol| matches!(symbol, Symbol::Name(name) if nullable[*name]);
            let found = self
                .productions
                .iter()
                .find(|production| !nullable[production.name] && production.right.iter().all(derives_nothing));
            match found {
                Some(production) => nullable[production.name] = true,
                None => return nullable,
            }
        }
    }

    /// The meaning of a list of kinds.
    pub fn meaning(&self, kinds: &[u32]) -> Meaning {
        let sets = self.sets(kinds);
        if sets.len() <= kinds.len() {
            return Meaning::Blame(sets.len() - 1);
        }
        let derivation = Derivation { chart: self, sets: &sets, ways: HashMap::new(), kinds };
        derivation.meaning()
    }

    /// For each beginning of a list, up to its place of blame, the kinds with which a derivable list goes on.
    pub fn continuations(&self, kinds: &[u32]) -> Vec<HashSet<u32>> {
        let token = |item: &Item| match self.next(*item) {
            Some(Symbol::Token(kind)) => Some(kind),
            _ => None,
        };
        self.sets(kinds).iter().map(|set| set.items.iter().filter_map(token).collect()).collect()
    }

    /// The sets of items after each beginning of a list, as far as some derivable list begins so.
    fn sets(&self, kinds: &[u32]) -> Vec<Set> {
        let mut sets = vec![Set::default()];
        for &production in &self.of_name[SPECIFICATION] {
            sets[0].add(Item { production, dot: 0, start: 0 });
        }
        self.close(&mut sets);
        for (place, &kind) in kinds.iter().enumerate() {
            let after = self.step(&sets[place], kind);
            if after.items.is_empty() {
                break;
            }
            sets.push(after);
            self.close(&mut sets);
        }
        sets
    }

    fn next(&self, item: Item) -> Option<Symbol> {
        self.productions[item.production].right.get(item.dot).copied()
    }

    /// The items of a set moved over a token of this kind.
    fn step(&self, set: &Set, kind: u32) -> Set {
        let mut after = Set::default();
        for &item in &set.items {
            if self.next(item) == Some(Symbol::Token(kind)) {
                after.add(Item { dot: item.dot + 1, ..item });
            }
        }
        after
    }

    /// Adds to the last set all that follows from its items.
    fn close(&self, sets: &mut [Set]) {
        let place = sets.len() - 1;
        let mut at = 0;
        while at < sets[place].items.len() {
            let item = sets[place].items[at];
            match self.next(item) {
                Some(Symbol::Name(name)) => self.predict(&mut sets[place], item, name, place),
                Some(Symbol::Token(_)) => {}
                None => self.complete(sets, item),
            }
            at += 1;
        }
    }

    fn predict(&self, set: &mut Set, item: Item, name: usize, place: usize) {
        for &production in &self.of_name[name] {
            set.add(Item { production, dot: 0, start: place });
        }
        if self.nullable[name] {
            set.add(Item { dot: item.dot + 1, ..item });
        }
    }

    fn complete(&self, sets: &mut [Set], done: Item) {
        let place = sets.len() - 1;
        let name = self.productions[done.production].name;
        let waiting = sets[done.start].items.clone();
        for item in waiting {
            if self.next(item) == Some(Symbol::Name(name)) {
                sets[place].add(Item { dot: item.dot + 1, ..item });
            }
        }
    }
}

/// The items of one place, in the order in which they were found.
#[derive(Default)]
struct Set {
    items: Vec<Item>,
    known: HashSet<Item>,
}

impl Set {
    fn add(&mut self, item: Item) {
        if self.known.insert(item) {
            self.items.push(item);
        }
    }
}

/// Reads derivations off a filled chart.
struct Derivation<'a> {
    chart: &'a Chart,
    sets: &'a [Set],
    kinds: &'a [u32],
    /// For an item that reaches a place: in how many ways.
    ways: HashMap<(Item, usize), usize>,
}

impl Derivation<'_> {
    fn meaning(mut self) -> Meaning {
        let count = self.kinds.len();
        let ways = self.ways_of_name(SPECIFICATION, 0, count);
        assert!(ways <= 1, "a token list has {ways} derivations");
        if ways == 0 {
            return Meaning::Blame(count);
        }
        let mut records = Vec::new();
        self.write_rule(SPECIFICATION, 0, count, &mut records);
        Meaning::Records(records)
    }

    fn finished(&self, production: usize, start: usize) -> Item {
        Item { production, dot: self.chart.productions[production].right.len(), start }
    }

    fn ways_of_name(&mut self, name: usize, start: usize, end: usize) -> usize {
        let chart = self.chart;
        let productions = chart.of_name[name].iter();
        productions.map(|&production| self.ways_of(self.finished(production, start), end)).sum()
    }

    /// In how many ways the symbols before the item's dot derive the tokens from its start to this place.
    fn ways_of(&mut self, item: Item, end: usize) -> usize {
        if !self.sets[end].known.contains(&item) {
            return 0;
        }
        if item.dot == 0 {
            return usize::from(item.start == end);
        }
        if let Some(&ways) = self.ways.get(&(item, end)) {
            return ways;
        }
        let before = Item { dot: item.dot - 1, ..item };
        let mut ways = 0;
        for split in item.start..=end {
            ways += self.ways_of_symbol(before, split, end);
        }
        self.ways.insert((item, end), ways);
        ways
    }

    /// The ways in which the item reaches the split and its next symbol goes from there to the end.
    fn ways_of_symbol(&mut self, before: Item, split: usize, end: usize) -> usize {
        if !self.sets[split].known.contains(&before) {
            return 0;
        }
        let last = match self.chart.next(before) {
            Some(Symbol::Token(_)) => usize::from(split + 1 == end),
            Some(Symbol::Name(name)) => self.ways_of_name(name, split, end),
            None => 0,
        };
        if last == 0 {
            return 0;
        }
        last * self.ways_of(before, split)
    }

    /// Writes the records of a use of a rule, children first.
    fn write_rule(&mut self, rule: usize, start: usize, end: usize, records: &mut Vec<Record>) {
        let first_record = records.len();
        let mut used = Vec::new();
        self.write_name(rule, start, end, records, &mut used);
        let one_nonterminal = matches!(used[..], [Symbol::Name(_)]);
        if !one_nonterminal || rule == SPECIFICATION || rule == INTERFACE_BODY {
            let size = records.len() - first_record + 1;
            records.push([rule as u32, start as u32, end as u32, size as u32]);
        }
    }

    /// Writes the records of a name's right side; `used` gets the rule's right side as used.
    fn write_name(&mut self, name: usize, start: usize, end: usize, records: &mut Vec<Record>, used: &mut Vec<Symbol>) {
        let chart = self.chart;
        let finished: Vec<Item> = chart.of_name[name].iter().map(|&each| self.finished(each, start)).collect();
        let item = finished.into_iter().find(|&item| self.ways_of(item, end) > 0).expect("the name derives this");
        for (symbol, from, to) in self.parts(item, end) {
            match symbol {
                Symbol::Name(part) if part >= chart.first_part => self.write_name(part, from, to, records, used),
                Symbol::Name(rule) => {
                    used.push(symbol);
                    self.write_rule(rule, from, to, records);
                }
                Symbol::Token(_) => used.push(symbol),
            }
        }
    }

    /// The symbols of a finished item with the places each goes from and to.
    fn parts(&mut self, mut item: Item, mut end: usize) -> Vec<(Symbol, usize, usize)> {
        let mut parts = Vec::new();
        while item.dot > 0 {
            let before = Item { dot: item.dot - 1, ..item };
            let symbol = self.chart.next(before).expect("a symbol stands before the dot");
            let split = (item.start..=end).find(|&split| self.ways_of_symbol(before, split, end) > 0);
            let split = split.expect("the item reaches this place");
            parts.push((symbol, split, end));
            item = before;
            end = split;
        }
        parts.reverse();
        parts
    }
}
