//! Tests that run on both readers: whoever takes them in calls its reader `reader`.

use crate::reader;

mod chart;
mod common;
mod corpus;
mod depth;
mod derivations;
mod edges;
mod keyword_case;
mod lexemes;
mod lexicon;
mod literal_bytes;
mod samples;
mod strings;
