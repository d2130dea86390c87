//! Measures the stack of whole calls in each way to nest, at the program's depth and at the ceiling: of the ordinary
//! reader, and of the proved one from Rust and from C. Fails where the proved reader's worst call takes over twice the
//! stack of the ordinary one's worst.
//!
//! Usage: stack PROGRAM, where PROGRAM is c/stack.c, compiled.

use compare::stack::{accepted, of_call};
use compare::Tables;
use generate::nest::{Nest, NESTS};
use generate::Grammar;
use idl::DEPTH_CEILING;
use std::path::Path;
use std::process::Command;

const DEPTHS: [u32; 2] = [64, DEPTH_CEILING];
/// The proved reader's worst call may take so many times the stack of the ordinary one's worst.
const TIMES: usize = 2;

/// The bytes of stack of a call: of the ordinary reader, and of the proved one from Rust and from C.
struct Row {
    ordinary: usize,
    rust: usize,
    c: usize,
}

fn from_c(program: &str, text: &[u8], depth: u32) -> usize {
    let file = Path::new(program).with_extension("idl");
    std::fs::write(&file, text).expect("the text can be written");
    let output = Command::new(program).arg(&file).arg(depth.to_string()).output().expect("the program runs");
    assert!(output.status.success(), "{program}: {}", String::from_utf8_lossy(&output.stderr));
    String::from_utf8_lossy(&output.stdout).trim().parse().expect("it prints a number")
}

fn measured(nest: &Nest, depth: u32, grammar: &Grammar, program: &str) -> Row {
    let text = accepted(nest, depth, grammar);
    let mut tables = Tables::with_room(text.len());
    let ordinary = of_call(&mut || {
        ordinary::read(&text, &mut tables.tokens, &mut tables.tree, depth);
    });
    let rust = of_call(&mut || {
        idl::read(&text, &mut tables.tokens, &mut tables.tree, depth);
    });
    Row { ordinary, rust, c: from_c(program, &text, depth) }
}

fn main() {
    let program = std::env::args().nth(1).expect("usage: stack PROGRAM");
    let grammar = Grammar::published();
    let row = |nest: &'static Nest| (nest.name, DEPTHS.map(|depth| measured(nest, depth, &grammar, &program)));
    let mut rows: Vec<(&str, [Row; 2])> = NESTS.iter().map(row).collect();
    rows.sort_by_key(|(_, at)| std::cmp::Reverse(at[1].rust));

    print!("| Way to nest |");
    for depth in DEPTHS {
        print!(" Depth {depth}: ordinary | from Rust | from C |");
    }
    println!("\n|---|{}", "---|".repeat(6));
    for (name, at) in &rows {
        print!("| {name} |");
        for Row { ordinary, rust, c } in at {
            print!(" {ordinary} | {rust} | {c} |");
        }
        println!();
    }

    let worst = |bytes: fn(&Row) -> usize| rows.iter().map(|(_, at)| bytes(&at[1])).max().expect("ways");
    let (theirs, ours) = (worst(|row| row.ordinary), worst(|row| row.rust.max(row.c)));
    println!(
        "\nWorst at depth {DEPTH_CEILING}: {ours} bytes, {:.2} times the ordinary reader's.",
        ours as f64 / theirs as f64
    );
    assert!(ours <= TIMES * theirs, "the worst call takes over {TIMES} times the ordinary reader's stack");
}
