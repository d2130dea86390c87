//! Token lists that nest to a given depth.

use crate::grammar::Grammar;
use crate::kind::{CLOSING, IDENTIFIER, INTEGER, OPENING};

/// A way to nest: each of the words that open, in turn, takes the depth one level further, and what closes takes it
/// back. Words that are no terminals are identifiers, and 1 is an integer.
pub struct Nest {
    pub name: &'static str,
    before: &'static str,
    opens: &'static [&'static str],
    middle: &'static str,
    closes: &'static str,
    after: &'static str,
}

/// An operator of each level, the loosest first, before a parenthesis, and before the last operand: the most that a
/// reader of expressions has to remember.
const OPERATORS: &[&str] = &["1 | 1 ^ 1 & 1 << 1 + 1 * - ("];
const OPERATION: &str = "1 | 1 ^ 1 & 1 << 1 + 1 * - A";

/// What stands behind a first member or case, where readers of repetitions are under way.
const STRUCT: &str = "struct A { any A ;";
const UNION: &str = "union A switch ( A ) { case 1 : any A ; default :";
const MODULE: &[&str] = &["module A {"];

pub const NESTS: [Nest; 11] = [
    Nest { name: "parentheses", before: "const long A =", opens: &["("], middle: "1", closes: ")", after: ";" },
    Nest {
        name: "operators and parentheses",
        before: "const long A =",
        opens: OPERATORS,
        middle: OPERATION,
        closes: ")",
        after: ";",
    },
    Nest {
        name: "operators and parentheses in array brackets",
        before: "typedef any A [",
        opens: OPERATORS,
        middle: OPERATION,
        closes: ")",
        after: "] ;",
    },
    Nest {
        name: "operators and parentheses in an argument list",
        before: "interface A { void A ( in string <",
        opens: OPERATORS,
        middle: OPERATION,
        closes: ")",
        after: "> A ) ; } ;",
    },
    Nest {
        name: "sequences",
        before: "typedef",
        opens: &["sequence <"],
        middle: "string < 1 >",
        closes: ">",
        after: "A ;",
    },
    Nest { name: "structs", before: "typedef", opens: &[STRUCT], middle: "any", closes: "A ; }", after: "A ;" },
    Nest { name: "unions", before: "typedef", opens: &[UNION], middle: "any", closes: "A ; }", after: "A ;" },
    Nest {
        name: "structs in unions in structs",
        before: "typedef",
        opens: &[STRUCT, UNION],
        middle: "any",
        closes: "A ; }",
        after: "A ;",
    },
    Nest { name: "modules", before: "", opens: MODULE, middle: "native A ;", closes: "} ;", after: "" },
    Nest {
        name: "an interface in modules",
        before: "",
        opens: MODULE,
        middle: "interface A { struct A { any A [ 1 ] ; } ; } ;",
        closes: "} ;",
        after: "",
    },
    Nest {
        name: "a value in modules",
        before: "",
        opens: MODULE,
        middle: "valuetype A { public struct A { any A [ 1 ] ; } A ; } ;",
        closes: "} ;",
        after: "",
    },
];

impl Nest {
    /// The list that nests to this depth, or to the least that this way has.
    pub fn kinds(&self, depth: usize, grammar: &Grammar) -> Vec<u32> {
        let least = (0..).find(|&setting| first_too_deep(&self.opened(0, grammar), setting, grammar).is_none());
        self.opened(depth.saturating_sub(least.expect("a list has a depth") as usize), grammar)
    }

    /// The list that opens and closes so many times.
    fn opened(&self, times: usize, grammar: &Grammar) -> Vec<u32> {
        let opens: Vec<Vec<u32>> = self.opens.iter().map(|words| kinds(words, grammar)).collect();
        let mut list = kinds(self.before, grammar);
        list.extend(opens.iter().cycle().take(times).flatten());
        list.extend(kinds(self.middle, grammar));
        list.extend(kinds(self.closes, grammar).repeat(times));
        list.extend(kinds(self.after, grammar));
        list
    }
}

fn kinds(words: &str, grammar: &Grammar) -> Vec<u32> {
    let kind = |word| match word {
        "A" => IDENTIFIER,
        "1" => INTEGER,
        terminal => grammar.kinds.of(terminal),
    };
    words.split_whitespace().map(kind).collect()
}

/// The first token of a list that opens more levels than the depth setting has.
pub fn first_too_deep(kinds: &[u32], setting: u32, grammar: &Grammar) -> Option<usize> {
    let [opening, closing] = [OPENING, CLOSING].map(|marks| marks.map(|mark| grammar.kinds.of(mark)));
    let mut open = 0u32;
    kinds.iter().position(|kind| {
        if opening.contains(kind) {
            open += 1;
        }
        if closing.contains(kind) {
            open = open.saturating_sub(1);
        }
        open > setting
    })
}
