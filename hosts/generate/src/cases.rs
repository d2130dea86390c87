//! Whole cases for a comparison: a text or a token table, and what is lent with it.

use crate::damage::{any_kind, damage_kinds, damage_text, no_kind, raw_bytes};
use crate::grammar::Grammar;
use crate::nest::NESTS;
use crate::random::Random;
use crate::sentence::Sentences;
use crate::text::{spell, Layout};

/// The limits of a reader, and the numbers of a token record and of a tree record.
const TEXT_CEILING: usize = 1_048_576;
const DEPTH_CEILING: u32 = 200;
pub const TOKEN_NUMBERS: usize = 3;
pub const TREE_NUMBERS: usize = 4;

/// A token table for the tree part, with the count and text length of the call.
#[derive(Debug)]
pub struct TableCase {
    pub tokens: Vec<u32>,
    pub token_count: usize,
    pub text_length: usize,
}

pub struct Cases<'a> {
    grammar: &'a Grammar,
    sentences: Sentences<'a>,
}

impl<'a> Cases<'a> {
    pub fn new(grammar: &'a Grammar) -> Self {
        Cases { grammar, sentences: Sentences::new(grammar) }
    }

    /// A text: valid, with its tokens damaged, with its bytes damaged, or without any plan.
    pub fn text(&self, random: &mut Random) -> Vec<u8> {
        let form = random.below(8);
        if form == 0 {
            return raw_bytes(random);
        }
        let mut kinds = self.kinds(random);
        if form >= 6 {
            self.damage_kinds_often(&mut kinds, random);
        }
        let mut text = spell(&kinds, self.grammar, Layout::Wild, random);
        if (3..6).contains(&form) {
            damage_text(&mut text, random);
        }
        while (4..6).contains(&form) && random.once_in(2) {
            damage_text(&mut text, random);
        }
        if random.once_in(400) {
            text.resize(TEXT_CEILING - 2 + random.below(5), b' ');
        }
        text
    }

    /// A valid list of kinds, mostly short, now and then nested up to the depth ceiling or past it.
    fn kinds(&self, random: &mut Random) -> Vec<u32> {
        if random.once_in(40) {
            let depth = random.below(DEPTH_CEILING as usize + 6);
            return random.pick(&NESTS).kinds(depth, self.grammar);
        }
        let size = *random.pick(&[1, 4, 10, 25, 60, 150]);
        self.sentences.kinds(random, size, 60)
    }

    fn damage_kinds_often(&self, kinds: &mut Vec<u32>, random: &mut Random) {
        damage_kinds(kinds, random);
        while random.once_in(3) {
            damage_kinds(kinds, random);
        }
    }

    /// A list of kinds: valid, damaged, holding what is no kind, or without any plan.
    pub fn any_kinds(&self, random: &mut Random) -> Vec<u32> {
        let mut kinds = self.kinds(random);
        match random.below(8) {
            0..=2 => {}
            3..=5 => self.damage_kinds_often(&mut kinds, random),
            6 => {
                let place = random.below(kinds.len());
                kinds[place] = no_kind(random);
            }
            _ => kinds = (0..random.below(12)).map(|_| any_kind(random)).collect(),
        }
        kinds
    }

    /// A token table of such a list: places rising or wild, and now and then a bad count or text length.
    pub fn table(&self, random: &mut Random) -> TableCase {
        let kinds = self.any_kinds(random);
        let wild = random.once_in(4);
        let place = |index: usize, random: &mut Random| match wild {
            true => random.number() as u32,
            false => 2 * index as u32,
        };
        let mut tokens: Vec<u32> = Vec::new();
        for (index, &kind) in kinds.iter().enumerate() {
            tokens.extend([kind, place(index, random), 1]);
        }
        let count = kinds.len();
        let beyond = random.below(7);
        tokens.extend((0..beyond).map(|_| random.number() as u32));
        let token_count = match random.below(16) {
            0 => random.below(count + 1),
            1 => tokens.len() / TOKEN_NUMBERS + random.below(2),
            _ => count,
        };
        let text_length = match random.below(16) {
            0 => token_count,
            1 => token_count.saturating_sub(1),
            2 => TEXT_CEILING + random.below(2),
            3 => TEXT_CEILING << random.below(40),
            _ => 2 * count + random.below(10),
        };
        tokens.shrink_to_fit();
        TableCase { tokens, token_count, text_length }
    }
}

/// The length of a table that wants `exact` numbers: none, too short by little, exact, or ample.
pub fn table_length(exact: usize, random: &mut Random) -> usize {
    match random.below(10) {
        0 => random.below(6),
        1 => exact.saturating_sub(1 + random.below(5)),
        2 => random.below(exact + 1),
        3 | 4 => exact,
        _ => exact + random.below(12),
    }
}

/// Depth settings out of range; the low part of some is in range.
const BAD_DEPTHS: [u32; 6] =
    [0, DEPTH_CEILING + 1, DEPTH_CEILING + 2, DEPTH_CEILING + 256, DEPTH_CEILING + 65536, u32::MAX];

/// A depth setting, mostly ample, often small, now and then anywhere in its range or out of it.
pub fn depth(random: &mut Random) -> u32 {
    match random.below(12) {
        0 => *random.pick(&BAD_DEPTHS),
        1 => 1 + random.below(DEPTH_CEILING as usize) as u32,
        2..=4 => 1 + random.below(5) as u32,
        _ => DEPTH_CEILING,
    }
}
