//! As the files of data models: structures with many short members, tabs, a line comment at the end of most lines.

use super::names::{basic_type, constant_name, member_name, short_name, type_name};
use super::{some, Corpus};
use crate::random::Random;

pub const CORPUS: Corpus = Corpus { name: "data", opening: OPENING, part: definition, closing: "};\n" };

const OPENING: &str = "// Data model of the site, revision 12.
// Times are microseconds since the start of 1970; angles are in degrees.
module Site {

";

fn definition(random: &mut Random) -> String {
    match random.below(12) {
        0..=5 => structure(random),
        6 => enumeration(random),
        7 => union(random),
        8..=9 => constant(random),
        10 => format!("\ttypedef sequence<{}, {}> {}List;\n", basic_type(random), count(random), type_name(random)),
        _ => format!("\t// {}\n", random.pick(&REMARKS)),
    }
}

fn structure(random: &mut Random) -> String {
    let members = some(random, 3, 14, member);
    format!("\t// {}\n\tstruct {} {{\n{members}\t}};\n\n", random.pick(&REMARKS), type_name(random))
}

fn member(random: &mut Random) -> String {
    let name = if random.once_in(3) { member_name(random) } else { short_name(random) };
    let declarator = match random.below(8) {
        0 => format!("{name}[{}]", count(random)),
        1 => format!("{name}, {name}_{}", random.below(10)),
        _ => name,
    };
    format!("\t\t{}\t{declarator};{}\n", member_type(random), end_of_line(random))
}

fn member_type(random: &mut Random) -> String {
    match random.below(8) {
        0 => format!("string<{}>", count(random)),
        1 => format!("sequence<{}>", basic_type(random)),
        2 => type_name(random),
        _ => basic_type(random),
    }
}

fn enumeration(random: &mut Random) -> String {
    let enumerators = some(random, 2, 8, |random| format!("\t\t{},{}\n", constant_name(random), end_of_line(random)));
    format!("\tenum {} {{\n{enumerators}\t\tOTHER_{}\n\t}};\n\n", type_name(random), count(random))
}

fn union(random: &mut Random) -> String {
    let cases = some(random, 1, 5, |random| {
        let label = random.below(256);
        format!("\tcase {label}:\t{}\t{};{}\n", member_type(random), short_name(random), end_of_line(random))
    });
    format!("\tunion {} switch (long) {{\n{cases}\tdefault:\toctet\tnone;\n\t}};\n\n", type_name(random))
}

fn constant(random: &mut Random) -> String {
    let name = constant_name(random);
    let (kind, value) = match random.below(4) {
        0 => ("double", format!("{}.{}e-3", random.below(1000), random.below(1000))),
        1 => ("long", format!("{} * {} + 1", count(random), count(random))),
        2 => ("unsigned long", format!("0x{:08x}", random.number() as u32)),
        _ => ("long", count(random)),
    };
    format!("\tconst {kind}\t{name} = {value};{}\n", end_of_line(random))
}

fn count(random: &mut Random) -> String {
    (1 + random.below(255)).to_string()
}

/// A line comment behind the line, mostly.
fn end_of_line(random: &mut Random) -> String {
    match random.below(4) {
        0 => String::new(),
        _ => format!("\t// {}", random.pick(&NOTES)),
    }
}

const NOTES: [&str; 12] = [
    "@key",
    "mm",
    "degrees, -180 to 180",
    "0: not known",
    "since 1.4",
    "raw value of the sensor, before any filter",
    "UTF-8",
    "monotonic, wraps at 2^32",
    "counted from 1",
    "see Site::Status",
    "reserved, keep 0",
    "m/s",
];

const REMARKS: [&str; 6] = [
    "Published once a second, and whenever a value has changed.",
    "------------------------------------------------------------------",
    "Written by the gateway alone; all others read it.",
    "Quality of service: reliable, keep last 1, transient local.",
    "To be merged with the message of the second line.",
    "Position and attitude as they were measured, not as they were planned.",
];
