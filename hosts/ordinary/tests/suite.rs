//! The suite, on the ordinary reader.

use ordinary as reader;

#[path = "../../suite/mod.rs"]
mod suite;
