//! Times the proved reader and the ordinary one in one run.
//!
//! Times are microseconds for a text, the best of many rounds in which the readers take turns. A ratio is the proved
//! reader's time over the ordinary one's: that of the best times, and that of the medians. Small texts are timed in
//! batches of different ones, each read once, since a processor learns the branches of a small text that is read over
//! and over. No table is cleared between calls: both readers leave the same numbers there.

use compare::{plain, plain_proved, tokens_needed, Numbers, Tables};
use generate::corpus::{CORPORA, SCANNER};
use generate::sentence::Sentences;
use generate::text::{spell, Layout};
use generate::{Grammar, Random};
use ordinary::{number, DEPTH_CEILING as DEPTH, TOKEN_NUMBERS};
use std::time::{Duration, Instant};

const SIZES: [(&str, usize); 3] = [("1 KB", 1 << 10), MIDDLE, ("1 MB", 1 << 20)];
const MIDDLE: (&str, usize) = ("100 KB", 100 << 10);
/// The bytes of a batch, about; a larger text is a batch of its own.
const BATCH: usize = MIDDLE.1;

/// The clock is read around as many batches as take so long.
const LEAST_CLOCKED: Duration = Duration::from_micros(50);
/// How long the two readers are timed on a part of a batch, and how often all batches are gone through: a machine's
/// slow moment then meets a part of the rounds of each batch.
const TIMED: Duration = Duration::from_millis(25);
const PASSES: usize = 16;

/// A text, and its token records; none where its tokens have a fault.
struct Text {
    bytes: Vec<u8>,
    tokens: Vec<u32>,
}

impl Text {
    fn new(bytes: Vec<u8>) -> Self {
        let mut tokens = vec![0; tokens_needed(&bytes)];
        ordinary::read_tokens(&bytes, &mut tokens);
        Text { bytes, tokens }
    }

    /// The number of its tokens, or an ample one where they have a fault and are not counted.
    fn token_room(&self) -> usize {
        match self.tokens.len() / TOKEN_NUMBERS {
            0 => self.bytes.len() / 4,
            count => count,
        }
    }
}

/// Tables that are large enough for each text of a batch.
fn tables_for(batch: &[Text]) -> Tables {
    Tables::with_room(batch.iter().map(Text::token_room).max().expect("a batch has a text"))
}

/// A reader's call on a text.
type Call = fn(&Text, &mut Tables) -> Numbers;

/// The calls of the ordinary reader and of the proved one.
const WHOLE: [Call; 2] = [
    |text, tables| plain(ordinary::read(&text.bytes, &mut tables.tokens, &mut tables.tree, DEPTH)),
    |text, tables| plain_proved(idl::raw::read(&text.bytes, &mut tables.tokens, &mut tables.tree, DEPTH)),
];
const TOKENS: [Call; 2] = [
    |text, tables| plain(ordinary::read_tokens(&text.bytes, &mut tables.tokens)),
    |text, tables| plain_proved(idl::raw::read_tokens(&text.bytes, &mut tables.tokens)),
];
const TREE: [Call; 2] = [
    |Text { bytes, tokens }, tables| {
        plain(ordinary::read_tree(tokens, tokens.len() / TOKEN_NUMBERS, bytes.len(), &mut tables.tree, DEPTH))
    },
    |Text { bytes, tokens }, tables| {
        plain_proved(idl::raw::read_tree(tokens, tokens.len() / TOKEN_NUMBERS, bytes.len(), &mut tables.tree, DEPTH))
    },
];

/// The times of the ordinary reader and of the proved one, for a text of a batch.
type Times = [Vec<f64>; 2];

/// A batch of texts of one kind and size, the number of the reply to each, and the times of each part.
struct Row {
    name: &'static str,
    size: &'static str,
    batch: Vec<Text>,
    reply: u32,
    whole: Times,
    tokens: Times,
    tree: Times,
}

impl Row {
    fn new(name: &'static str, size: &'static str, reply: u32, texts: impl IntoIterator<Item = Vec<u8>>) -> Self {
        let batch = texts.into_iter().map(Text::new).collect();
        Row { name, size, batch, reply, whole: Times::default(), tokens: Times::default(), tree: Times::default() }
    }

    /// Texts for each size, by size and seed.
    fn of_sizes(name: &'static str, text: impl Fn(usize, u64) -> Vec<u8>) -> Vec<Self> {
        let seeds = |size: usize| 1..=(BATCH / size).max(1) as u64;
        let row = |&(name_of_size, size)| {
            Row::new(name, name_of_size, number::ACCEPTED, seeds(size).map(|seed| text(size, seed)))
        };
        SIZES.iter().map(row).collect()
    }
}

/// A valid text of at most this many bytes, and of not many fewer, that uses all the rules.
fn text_from_rules(size: usize, seed: u64, grammar: &Grammar) -> Vec<u8> {
    let sentences = Sentences::new(grammar);
    let mut random = Random::new(seed);
    let mut text = Vec::new();
    let mut refused = 0;
    while refused < 20 {
        let kinds = sentences.kinds(&mut random, 1, 60);
        let definition = spell(&kinds, grammar, Layout::Tidy, &mut random);
        if text.len() + definition.len() < size {
            text.extend(definition);
            text.push(b'\n');
        } else {
            refused += 1;
        }
    }
    text
}

/// The text with its last semicolon replaced.
fn with_last(text: &[u8], replacement: &[u8]) -> Vec<u8> {
    let last = text.iter().rposition(|&byte| byte == b';').expect("a definition ends so");
    [&text[..last], replacement, &text[last + 1..]].concat()
}

/// The texts of each kind and size, the file, and texts with a fault at their end.
fn rows(grammar: &Grammar) -> Vec<Row> {
    let mut rows = vec![Row::new("scanner.idl", "16 KB", number::ACCEPTED, [SCANNER.to_vec()])];
    for corpus in &CORPORA {
        rows.extend(Row::of_sizes(corpus.name, |size, seed| corpus.text(size, seed)));
    }
    rows.extend(Row::of_sizes("rules", |size, seed| text_from_rules(size, seed, grammar)));
    let (size, bytes) = MIDDLE;
    let text = text_from_rules(bytes, 1, grammar);
    rows.push(Row::new("rules, blamed at its end", size, number::GRAMMAR, [with_last(&text, b",")]));
    rows.push(Row::new("rules, bad literal at its end", size, number::BAD_LITERAL, [with_last(&text, b"''")]));
    rows
}

/// Times the two calls on a batch.
fn time(times: &mut Times, calls: [Call; 2], batch: &[Text], tables: &mut Tables) {
    for text in batch {
        assert_eq!(calls[0](text, tables), calls[1](text, tables), "the readers agree");
    }
    let mut clocked = |reader: usize, count: usize| {
        let start = Instant::now();
        for _ in 0..count {
            for text in batch {
                calls[reader](text, tables);
            }
        }
        start.elapsed()
    };
    let mut count = 1;
    while clocked(0, count).min(clocked(1, count)) < LEAST_CLOCKED {
        count *= 2;
    }
    let texts = (count * batch.len()) as f64;
    let start = Instant::now();
    while start.elapsed() < TIMED {
        // Neither reader always comes second.
        for reader in [0, 1, 1, 0] {
            times[reader].push(clocked(reader, count).as_secs_f64() * 1e6 / texts);
        }
    }
}

/// Times each part on a batch; the tree part only where the texts have tokens.
fn time_parts(row: &mut Row) {
    let mut tables = tables_for(&row.batch);
    for text in &row.batch {
        assert_eq!(WHOLE[0](text, &mut tables)[0], row.reply, "{}, {}", row.name, row.size);
    }
    time(&mut row.whole, WHOLE, &row.batch, &mut tables);
    time(&mut row.tokens, TOKENS, &row.batch, &mut tables);
    if row.batch.iter().all(|text| !text.tokens.is_empty()) {
        time(&mut row.tree, TREE, &row.batch, &mut tables);
    }
}

/// What the times of a part come to: the best ones, and the ratios of the best and of the medians.
struct Summary {
    ordinary: f64,
    proved: f64,
    ratio: f64,
    median_ratio: f64,
}

/// The summary of a part, if it was timed.
fn summary(times: &Times) -> Option<Summary> {
    let sorted = |times: &Vec<f64>| {
        let mut times = times.clone();
        times.sort_by(f64::total_cmp);
        times
    };
    let [theirs, ours] = [sorted(&times[0]), sorted(&times[1])];
    let (&ordinary, &proved) = (theirs.first()?, ours.first()?);
    let median_ratio = ours[ours.len() / 2] / theirs[theirs.len() / 2];
    Some(Summary { ordinary, proved, ratio: proved / ordinary, median_ratio })
}

/// A time with the figures that can mean something.
fn figures(time: f64) -> String {
    let decimals = match time {
        time if time < 10.0 => 2,
        time if time < 100.0 => 1,
        _ => 0,
    };
    format!("{time:.decimals$}")
}

/// Prints a row of the table and gives the ratios of the whole reader.
fn print_row(row: &Row) -> [f64; 2] {
    let whole = summary(&row.whole).expect("it was timed");
    print!("| {} | {} ", row.name, row.size);
    print!("| {} | {} | {:.2} ", figures(whole.ordinary), figures(whole.proved), whole.ratio);
    print!("| {:.2} |", whole.median_ratio);
    for part in [summary(&row.tokens), summary(&row.tree)] {
        match part {
            Some(part) => print!(" {} | {:.2} |", figures(part.proved), part.ratio),
            None => print!(" | |"),
        }
    }
    println!();
    [whole.ratio, whole.median_ratio]
}

fn print_times(rows: &[Row]) {
    print!("| Text | Size | Ordinary, µs | Proved, µs | Ratio | Of medians |");
    println!(" Tokens: proved, µs | Ratio | Tree: proved, µs | Ratio |");
    println!("|---|---|{}", "---|".repeat(8));
    let ratios: Vec<[f64; 2]> = rows.iter().map(print_row).collect();
    let largest = |way: usize| {
        let (row, ratio) =
            rows.iter().zip(&ratios).max_by(|one, other| one.1[way].total_cmp(&other.1[way])).expect("rows");
        format!("{:.2} ({}, {})", ratio[way], row.name, row.size)
    };
    println!("\nLargest ratio of the whole reader: of best times {}, of medians {}.", largest(0), largest(1));
}

fn main() {
    let grammar = Grammar::published();
    let mut rows = rows(&grammar);
    for _ in 0..PASSES {
        rows.iter_mut().for_each(time_parts);
    }
    print_times(&rows);
}
