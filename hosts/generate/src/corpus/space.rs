//! Much white space: deep indentation, aligned columns, long runs of blanks and tabs, empty lines, both line ends.

use super::names::{basic_type, constant_name, short_name, type_name};
use super::{some, Corpus};
use crate::random::Random;

pub const CORPUS: Corpus = Corpus { name: "space", opening: OPENING, part: definition, closing: CLOSING };

const OPENING: &str =
    "module Outer\n{\n        module Middle\n        {\n                module Inner\n                {\n";
const CLOSING: &str = "                };\n        };\n};\n";
const INDENT: usize = 24;

fn definition(random: &mut Random) -> String {
    let definition = match random.below(6) {
        0..=2 => structure(random),
        3 => constants(random),
        4 => format!("{}typedef{}{};\n", indent(random, 0), column(&basic_type(random)), type_name(random)),
        _ => some(random, 1, 6, |random| format!("{}\n", indent(random, 0))),
    };
    if random.once_in(3) {
        definition.replace('\n', "\r\n")
    } else {
        definition
    }
}

fn structure(random: &mut Random) -> String {
    let outer = indent(random, 0);
    let members = some(random, 1, 8, |random| {
        let line = format!("{}{}{};", indent(random, 1), column(&basic_type(random)), short_name(random));
        format!("{line}{}", random.pick(&["\n", "\n\n", "      \n", "\t\n\n\n"]))
    });
    format!("\n{outer}struct{}{}\n{outer}{{\n{members}{outer}}};\n\n", " ".repeat(10), type_name(random))
}

fn constants(random: &mut Random) -> String {
    some(random, 1, 4, |random| {
        let name = constant_name(random);
        format!("{}const    long    {}={}{};\n", indent(random, 0), column(&name), " ".repeat(9), random.below(1000))
    })
}

/// The start of a line: blanks mostly, tabs else.
fn indent(random: &mut Random, more: usize) -> String {
    match random.below(4) {
        0 => "\t".repeat(3 + more),
        _ => " ".repeat(INDENT + 8 * more),
    }
}

/// A word with a blank around it, filled up to a column's width.
fn column(word: &str) -> String {
    format!(" {word:<40} ")
}
