//! Compares the proved reader with the ordinary one on random cases from a seed.
//!
//! Usage: compare SEED CASES

use compare::{plain_proved, Outcome};
use ordinary::number::*;
use std::env;
use std::process::ExitCode;

/// Prints how many cases agree, or the first that does not; false also if one of these replies never came.
fn report(part: &str, outcome: Outcome, replies: impl IntoIterator<Item = u32>) -> bool {
    let tally = match outcome {
        Ok(tally) => tally,
        Err(disagreement) => {
            println!("{part}: {}", disagreement.chars().take(20_000).collect::<String>());
            return false;
        }
    };
    let counts: Vec<(u32, usize)> = replies.into_iter().map(|reply| (reply, tally[reply as usize])).collect();
    let listed: Vec<String> = counts.iter().map(|(reply, count)| format!("{reply}: {count}")).collect();
    println!("{part}: {} cases agree ({})", tally.iter().sum::<usize>(), listed.join(", "));
    counts.iter().all(|&(_, count)| count > 0)
}

fn compare(seed: u64, count: usize) -> bool {
    let tokens = compare::token_part(seed, count, |text, tokens| plain_proved(idl::raw::read_tokens(text, tokens)));
    let mut agreed = report("token part", tokens, ACCEPTED..=TOKEN_TABLE_FULL);
    agreed &= report("spellings", compare::spellings(seed, count, idl::spelling), [ACCEPTED, BAD_CALL]);
    let tree = compare::tree_part(seed, count, |tokens, token_count, text_length, tree, depth| {
        plain_proved(idl::raw::read_tree(tokens, token_count, text_length, tree, depth))
    });
    agreed &= report("tree part", tree, [ACCEPTED, BAD_CALL, GRAMMAR, TOO_DEEP, TREE_TABLE_FULL]);
    let whole = compare::whole_reader(seed, count, |text, tokens, tree, depth| {
        plain_proved(idl::raw::read(text, tokens, tree, depth))
    });
    agreed &= report("whole reader", whole, ACCEPTED..=TREE_TABLE_FULL);
    agreed
}

fn main() -> ExitCode {
    let numbers: Vec<u64> = env::args().skip(1).filter_map(|word| word.parse().ok()).collect();
    match numbers[..] {
        [seed, count] if compare(seed, count as usize) => ExitCode::SUCCESS,
        [_, _] => ExitCode::FAILURE,
        _ => {
            eprintln!("usage: compare SEED CASES");
            ExitCode::from(2)
        }
    }
}
