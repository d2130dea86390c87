//! The grammar as data, and what comes from it: valid texts, damaged texts, token tables, and a slow reader; and the
//! keywords that the proofs believe.

pub mod believed;
pub mod cases;
pub mod chart;
pub mod corpus;
pub mod damage;
pub mod grammar;
pub mod kind;
pub mod lexicon;
pub mod nest;
mod random;
pub mod sentence;
pub mod text;

pub use cases::Cases;
pub use chart::{Chart, Meaning};
pub use grammar::Grammar;
pub use random::Random;
