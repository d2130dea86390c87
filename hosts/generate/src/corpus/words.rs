//! Almost only words: long and short scoped names, long enumerations, keywords, and no comment.

use super::names::{basic_type, constant_name, member_name, short_name, type_name};
use super::{list, some, Corpus};
use crate::random::Random;

pub const CORPUS: Corpus = Corpus { name: "words", opening: "native handle;\n", part: definition, closing: "" };

fn definition(random: &mut Random) -> String {
    match random.below(8) {
        0 => format!("enum {} {{ {} }};\n", type_name(random), list(random, 3, 60, constant_name)),
        1 => format!("struct {} {{ {}}};\n", type_name(random), some(random, 1, 8, member)),
        2 => format!(
            "interface {} : {} {{ {}}};\n",
            type_name(random),
            scoped_name(random),
            some(random, 1, 6, operation)
        ),
        3 => format!("valuetype {} {{ {}}};\n", type_name(random), some(random, 1, 6, state_member)),
        4 => format!("exception {} {{ {}}};\n", type_name(random), some(random, 1, 3, member)),
        5 => format!("typedef {} {};\n", basic_type(random), short_name(random)),
        _ => format!("typedef {} {};\n", scoped_name(random), type_name(random)),
    }
}

fn scoped_name(random: &mut Random) -> String {
    let steps = some(random, 0, 3, |random| format!("{}::", step(random)));
    format!("{steps}{}", step(random))
}

fn step(random: &mut Random) -> String {
    match random.below(4) {
        0 => short_name(random),
        1 => format!("{}_{}_of_the_{}", member_name(random), member_name(random), member_name(random)),
        _ => type_name(random),
    }
}

fn any_type(random: &mut Random) -> String {
    if random.once_in(2) {
        basic_type(random)
    } else {
        scoped_name(random)
    }
}

fn member(random: &mut Random) -> String {
    format!("{} {}; ", any_type(random), short_name(random))
}

fn state_member(random: &mut Random) -> String {
    format!("{} {} {}; ", random.pick(&["public", "private"]), any_type(random), member_name(random))
}

fn operation(random: &mut Random) -> String {
    let parameter = |random: &mut Random| format!("in {} {}", any_type(random), short_name(random));
    format!(
        "{} {}({}) raises({}); ",
        any_type(random),
        member_name(random),
        list(random, 0, 3, parameter),
        step(random)
    )
}
