//! Comparison of a reader with the ordinary one: the reply and every number of both tables, on random cases. Text and
//! tables have exactly the lent size, so that valgrind sees any byte touched beyond them.

use generate::cases::{depth, table_length};
use generate::{Cases, Grammar, Random};
use ordinary::{number, TOKEN_NUMBERS, TREE_NUMBERS};
use std::fmt::Debug;

pub mod bounds;
pub mod stack;
pub mod texts;

/// Number, place and the two counts of a reply.
pub type Numbers = [u32; 4];
/// How many replies there are.
pub const REPLIES: usize = number::TREE_TABLE_FULL as usize + 1;
/// How many cases got each reply, or what the first disagreement was.
pub type Outcome = Result<[usize; REPLIES], String>;

/// The two tables of a call.
pub struct Tables {
    pub tokens: Vec<u32>,
    pub tree: Vec<u32>,
}

impl Tables {
    /// Tables for so many tokens, each of which takes a byte of the text or more. A tree has at most two records a token.
    pub fn with_room(tokens: usize) -> Self {
        Tables { tokens: vec![0; TOKEN_NUMBERS * tokens], tree: vec![0; 2 * TREE_NUMBERS * tokens] }
    }
}

/// The numbers of the ordinary reader's reply.
pub fn plain(reply: ordinary::Reply) -> Numbers {
    [reply.number, reply.place, reply.tokens, reply.records]
}

/// The numbers of the proved reader's reply.
pub fn plain_proved(reply: idl::raw::Reply) -> Numbers {
    [reply.number, reply.place, reply.tokens, reply.records]
}

/// A table of this length filled with numbers that no reader writes there.
fn garbage(length: usize, random: &mut Random) -> Vec<u32> {
    (0..length).map(|_| random.number() as u32 | 1 << 30).collect()
}

fn agree(case: &dyn Debug, part: &str, ours: &dyn Debug, theirs: &dyn Debug) -> Result<(), String> {
    let (ours, theirs) = (format!("{ours:?}"), format!("{theirs:?}"));
    if ours == theirs {
        return Ok(());
    }
    Err(format!("{part}: {ours}\nordinary: {theirs}\ncase: {case:?}"))
}

/// A case as it is printed, with what was lent.
#[derive(Debug)]
#[allow(dead_code)]
struct TextCase {
    text: String,
    tokens_length: usize,
    tree_length: usize,
    depth: u32,
}

/// Runs cases from one seed and counts the replies.
fn run(seed: u64, count: usize, mut case: impl FnMut(&Cases, &mut Random) -> Result<u32, String>) -> Outcome {
    let grammar = Grammar::published();
    let cases = Cases::new(&grammar);
    let mut random = Random::new(seed);
    let mut tally = [0; REPLIES];
    for number in 0..count {
        let reply = case(&cases, &mut random).map_err(|what| format!("seed {seed}, case {number}: {what}"))?;
        tally[reply as usize] += 1;
    }
    Ok(tally)
}

/// How many numbers the token table of a text needs; 0 if the text is too long or has a fault.
pub fn tokens_needed(text: &[u8]) -> usize {
    let reply = ordinary::read_tokens(text, &mut []);
    match reply.number {
        number::ACCEPTED | number::TOKEN_TABLE_FULL => TOKEN_NUMBERS * reply.tokens as usize,
        _ => 0,
    }
}

/// Compares a token part.
pub fn token_part(seed: u64, count: usize, reader: impl Fn(&[u8], &mut [u32]) -> Numbers) -> Outcome {
    run(seed, count, |cases, random| {
        let text = cases.text(random).into_boxed_slice();
        let before = garbage(table_length(tokens_needed(&text), random), random);
        let (mut ours, mut theirs) = (before.clone(), before);
        let reply = reader(&text, &mut ours);
        let wanted = plain(ordinary::read_tokens(&text, &mut theirs));
        if (reply, &ours) != (wanted, &theirs) {
            let text = text.escape_ascii().to_string();
            let case = TextCase { text, tokens_length: ours.len(), tree_length: 0, depth: 0 };
            agree(&case, "reply", &reply, &wanted)?;
            agree(&case, "tokens", &ours, &theirs)?;
        }
        Ok(wanted[0])
    })
}

/// Compares a tree part.
pub fn tree_part(
    seed: u64,
    count: usize,
    reader: impl Fn(&[u32], usize, usize, &mut [u32], u32) -> Numbers,
) -> Outcome {
    run(seed, count, |cases, random| {
        let case = cases.table(random);
        let depth = depth(random);
        let needed = ordinary::read_tree(&case.tokens, case.token_count, case.text_length, &mut [], depth).records;
        let before = garbage(table_length(TREE_NUMBERS * needed as usize, random), random);
        let (mut ours, mut theirs) = (before.clone(), before);
        let reply = reader(&case.tokens, case.token_count, case.text_length, &mut ours, depth);
        let wanted = ordinary::read_tree(&case.tokens, case.token_count, case.text_length, &mut theirs, depth);
        let wanted = plain(wanted);
        if (reply, &ours) != (wanted, &theirs) {
            let case = (case, ours.len(), depth);
            agree(&case, "reply", &reply, &wanted)?;
            agree(&case, "tree", &ours, &theirs)?;
        }
        Ok(wanted[0])
    })
}

/// Compares a whole reader.
pub fn whole_reader(
    seed: u64,
    count: usize,
    reader: impl Fn(&[u8], &mut [u32], &mut [u32], u32) -> Numbers,
) -> Outcome {
    run(seed, count, |cases, random| {
        let text = cases.text(random).into_boxed_slice();
        let depth = depth(random);
        let tokens_needed = tokens_needed(&text);
        let ample = ordinary::read(&text, &mut vec![0; tokens_needed], &mut [], depth);
        let tokens = garbage(table_length(tokens_needed, random), random);
        let tree = garbage(table_length(TREE_NUMBERS * ample.records as usize, random), random);
        let (mut ours, mut theirs) = ((tokens.clone(), tree.clone()), (tokens, tree));
        let reply = reader(&text, &mut ours.0, &mut ours.1, depth);
        let wanted = plain(ordinary::read(&text, &mut theirs.0, &mut theirs.1, depth));
        if (reply, &ours) != (wanted, &theirs) {
            let text = text.escape_ascii().to_string();
            let case = TextCase { text, tokens_length: ours.0.len(), tree_length: ours.1.len(), depth };
            agree(&case, "reply", &reply, &wanted)?;
            agree(&case, "tokens", &ours.0, &theirs.0)?;
            agree(&case, "tree", &ours.1, &theirs.1)?;
        }
        Ok(wanted[0])
    })
}

/// Compares a spelling function; the tally counts empty parts as bad calls and others as accepted.
pub fn spellings(seed: u64, count: usize, reader: impl for<'a> Fn(&'a [u8], &[u32], usize) -> &'a [u8]) -> Outcome {
    run(seed, count, |_, random| {
        let text: Vec<u8> = (0..8 + random.below(12)).map(|_| random.byte()).collect();
        let number = |random: &mut Random| match random.below(8) {
            0 => random.number() as u32,
            1 => u32::MAX - random.below(20) as u32,
            _ => random.below(12) as u32,
        };
        let tokens: Vec<u32> = (0..10 + random.below(6)).map(|_| number(random)).collect();
        let record = match random.below(8) {
            0 => usize::MAX / TOKEN_NUMBERS + random.below(3),
            1 => usize::MAX - random.below(3),
            _ => random.below(5),
        };
        let (ours, theirs) = (reader(&text, &tokens, record), ordinary::spelling(&text, &tokens, record));
        agree(&(&text, &tokens, record), "spelling", &ours, &theirs)?;
        if !theirs.is_empty() {
            agree(&(&text, &tokens, record), "start", &ours.as_ptr(), &theirs.as_ptr())?;
        }
        Ok(if theirs.is_empty() { number::BAD_CALL } else { number::ACCEPTED })
    })
}
