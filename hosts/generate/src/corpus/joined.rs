//! One constant of many strings side by side, each on a line of its own.

use super::strings::piece;
use super::{some, Corpus};
use crate::random::Random;

pub const CORPUS: Corpus = Corpus { name: "joined", opening: "const string TEXT =\n", part: line, closing: "    ;\n" };

fn line(random: &mut Random) -> String {
    format!("    \"{}\"\n", some(random, 1, 4, piece))
}
