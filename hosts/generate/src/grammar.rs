//! The published rules as data, read from their text.

use crate::kind::{Kinds, CLASSES, IDENTIFIER};

/// The right side of a rule, or a part of it.
#[derive(Clone, Debug, PartialEq, Eq)]
pub enum Side {
    Token(u32),
    Rule(usize),
    Sequence(Vec<Side>),
    Choice(Vec<Side>),
    Optional(Box<Side>),
    ZeroOrMore(Box<Side>),
    OneOrMore(Box<Side>),
}

impl Side {
    /// Whether each alternative is one rule alone.
    pub fn is_one_rule(&self) -> bool {
        match self {
            Side::Rule(_) => true,
            Side::Choice(sides) => sides.iter().all(Side::is_one_rule),
            Side::Sequence(sides) => matches!(&sides[..], [side] if side.is_one_rule()),
            _ => false,
        }
    }
}

pub struct Grammar {
    /// The right side of rule `n` stands at place `n`; place 0 is unused.
    pub rules: Vec<Side>,
    pub kinds: Kinds,
}

const TEXT: &str = include_str!("../grammar.txt");

impl Grammar {
    /// The names of the rules, from rule 1 on.
    pub fn names() -> Vec<String> {
        let words = words(TEXT);
        let name = |at: usize| words[at - 1].trim_matches(&['<', '>'][..]).to_string();
        (0..words.len()).filter(|&at| words[at] == "::=").map(name).collect()
    }

    /// The number of the rule of this name.
    pub fn rule(name: &str) -> u32 {
        let place = Grammar::names().iter().position(|known| known == name);
        place.unwrap_or_else(|| panic!("no rule is named {name}")) as u32 + 1
    }

    /// The rules 1 to 99.
    pub fn published() -> Self {
        Grammar::read(TEXT)
    }

    /// The rules that a text writes as the papers do.
    pub fn read(text: &str) -> Self {
        let words = words(text);
        let is_alphabetic = |word: &&String| word.starts_with('"') && word[1..2].chars().all(char::is_alphabetic);
        let keywords = words.iter().filter(is_alphabetic).map(|word| word.trim_matches('"').to_string()).collect();
        let kinds = Kinds::new(keywords);
        let starts: Vec<usize> = (0..words.len()).filter(|&at| words[at] == "::=").map(|at| at - 2).collect();
        let names: Vec<&str> = starts.iter().map(|&start| words[start + 1].as_str()).collect();
        let mut rules = vec![Side::Choice(Vec::new())];
        for (index, &start) in starts.iter().enumerate() {
            assert_eq!(words[start], format!("({})", index + 1), "the rules are numbered in order");
            let end = starts.get(index + 1).copied().unwrap_or(words.len());
            let mut reader = SideReader { words: &words[start + 3..end], at: 0, names: &names, kinds: &kinds };
            rules.push(reader.choice());
            assert_eq!(reader.at, reader.words.len(), "rule {} is read whole", index + 1);
        }
        Grammar { rules, kinds }
    }
}

/// Cuts the text into rule numbers, names in angle brackets, quoted terminals and signs.
fn words(text: &str) -> Vec<String> {
    let lines = text.lines().filter(|line| !line.starts_with('#'));
    let text = lines.collect::<Vec<_>>().join("\n");
    let mut words = Vec::new();
    let mut rest = text.trim_start();
    while !rest.is_empty() {
        let length = word_length(rest);
        words.push(rest[..length].to_string());
        rest = rest[length..].trim_start();
    }
    words
}

fn word_length(rest: &str) -> usize {
    let closed_by = |mark: char| 2 + rest[1..].find(mark).expect("the word is closed");
    let second = rest[1..].chars().next();
    match rest.as_bytes()[0] {
        b'"' => closed_by('"'),
        b'<' => closed_by('>'),
        b'(' if second.map_or(false, |next| next.is_ascii_digit()) => closed_by(')'),
        b':' => 3,
        _ => 1,
    }
}

struct SideReader<'a> {
    words: &'a [String],
    at: usize,
    names: &'a [&'a str],
    kinds: &'a Kinds,
}

impl SideReader<'_> {
    fn word(&self) -> Option<&str> {
        self.words.get(self.at).map(String::as_str)
    }

    fn take(&mut self) -> String {
        self.at += 1;
        self.words[self.at - 1].clone()
    }

    fn choice(&mut self) -> Side {
        let mut sides = vec![self.sequence()];
        while self.word() == Some("|") {
            self.take();
            sides.push(self.sequence());
        }
        if sides.len() == 1 {
            return sides.remove(0);
        }
        Side::Choice(sides)
    }

    fn sequence(&mut self) -> Side {
        let mut sides = Vec::new();
        while !matches!(self.word(), None | Some("|" | ")" | "]" | "}")) {
            sides.push(self.repeated());
        }
        Side::Sequence(sides)
    }

    fn repeated(&mut self) -> Side {
        let side = self.item();
        match self.word() {
            Some("*") => {
                self.take();
                Side::ZeroOrMore(Box::new(side))
            }
            Some("+") => {
                self.take();
                Side::OneOrMore(Box::new(side))
            }
            _ => side,
        }
    }

    fn item(&mut self) -> Side {
        let word = self.take();
        if let Some(quoted) = word.strip_prefix('"') {
            return Side::Token(self.kinds.of(quoted.trim_end_matches('"')));
        }
        if word.starts_with('<') {
            return self.named(&word);
        }
        let side = self.choice();
        self.take();
        if word == "[" {
            return Side::Optional(Box::new(side));
        }
        side
    }

    fn named(&self, word: &str) -> Side {
        let name = word.trim_start_matches('<').trim_end_matches('>');
        if let Some(class) = CLASSES.iter().position(|&class| class == name) {
            return Side::Token(IDENTIFIER + class as u32);
        }
        let rule = self.names.iter().position(|&known| known == word);
        Side::Rule(rule.unwrap_or_else(|| panic!("no rule is named {word}")) + 1)
    }
}
