//! As the definitions of the CORBA services: a licence, modules of interfaces, block comments over several lines.

use super::names::{basic_type, constant_name, member_name, type_name};
use super::{list, parts, some, Corpus};
use crate::random::Random;

pub const CORPUS: Corpus = Corpus { name: "corba", opening: OPENING, part: definition, closing: "};\n" };

const OPENING: &str = "/*
 * Object services: naming, events, trading and notification.
 *
 * Permission is granted to use, copy, modify and distribute these definitions
 * for any purpose and without fee, provided that this notice stands in all
 * copies. They are provided as they are, without warranty of any kind, either
 * express or implied, including but not limited to the warranties of
 * merchantability and of fitness for a particular purpose. In no event are
 * their holders liable for errors contained in them, nor for any damages in
 * connection with their furnishing, performance or use.
 */

module CosServices {

    typedef string Istring;

";

fn definition(random: &mut Random) -> String {
    match random.below(16) {
        0..=4 => interface(random),
        5..=6 => exception(random, "    "),
        7..=8 => structure(random),
        9..=11 => sequence(random),
        12 => format!("    enum {} {{ {} }};\n\n", type_name(random), list(random, 2, 6, member_name)),
        13 => format!("    interface {};\n", type_name(random)),
        14 => format!("    const unsigned long {} = {};\n", constant_name(random), random.below(100_000)),
        _ => format!("}};\n\nmodule {} {{\n\n{}", type_name(random), sequence(random)),
    }
}

fn interface(random: &mut Random) -> String {
    let base = if random.once_in(3) { format!(" : {}", scoped_name(random)) } else { String::new() };
    let exceptions = some(random, 0, 2, |random| exception(random, "        "));
    let attributes = some(random, 0, 3, |random| {
        format!("        readonly attribute {} {};\n", parameter_type(random), member_name(random))
    });
    let operations = some(random, 1, 6, operation);
    let name = type_name(random);
    format!("{}    interface {name}{base} {{\n\n{exceptions}{attributes}\n{operations}    }};\n\n", remark(random))
}

fn operation(random: &mut Random) -> String {
    let result = if random.once_in(2) { "void".to_string() } else { parameter_type(random) };
    let parameters = parts(random, 0, 3, parameter).join(",\n            ");
    let raises = match random.below(2) {
        0 => format!("\n            raises ({})", list(random, 1, 3, scoped_name)),
        _ => String::new(),
    };
    format!("        {result} {}({parameters}){raises};\n\n", member_name(random))
}

fn parameter(random: &mut Random) -> String {
    let way = random.pick(&["in", "in", "in", "out", "inout"]);
    format!("{way} {} {}", parameter_type(random), member_name(random))
}

fn parameter_type(random: &mut Random) -> String {
    if random.once_in(2) {
        basic_type(random)
    } else {
        scoped_name(random)
    }
}

fn scoped_name(random: &mut Random) -> String {
    match random.below(4) {
        0 => format!("Cos{}::{}", type_name(random), type_name(random)),
        _ => type_name(random),
    }
}

fn member(random: &mut Random, indent: &str) -> String {
    format!("{indent}    {} {};\n", parameter_type(random), member_name(random))
}

fn exception(random: &mut Random, indent: &str) -> String {
    let name = type_name(random);
    match some(random, 0, 3, |random| member(random, indent)) {
        members if members.is_empty() => format!("{indent}exception {name} {{}};\n"),
        members => format!("{indent}exception {name} {{\n{members}{indent}}};\n"),
    }
}

fn structure(random: &mut Random) -> String {
    let members = some(random, 2, 6, |random| member(random, "    "));
    format!("{}    struct {} {{\n{members}    }};\n\n", remark(random), type_name(random))
}

fn sequence(random: &mut Random) -> String {
    let name = type_name(random);
    format!("    typedef sequence<{name}> {name}Seq;\n")
}

/// A block comment over several lines, or none.
fn remark(random: &mut Random) -> String {
    if random.once_in(2) {
        return String::new();
    }
    let lines = some(random, 1, 5, |random| format!("     * {}\n", random.pick(&SENTENCES)));
    format!("    /*\n{lines}     */\n")
}

const SENTENCES: [&str; 8] = [
    "The operations below may raise the system exceptions as well.",
    "A binding is always relative to a context; two names in one context differ.",
    "If the object has been destroyed, OBJECT_NOT_EXIST is raised.",
    "Note: the iterator is nil where the list holds everything.",
    "The supplier delivers its events to the channel (see section 2.3).",
    "An empty sequence stands for all properties of the offer.",
    "The result is the number of entries removed, 0 if there were none.",
    "Implementations are free to bound how_many; they never return more.",
];
