//! The suite, on the proved reader.

use idl::raw as reader;

#[path = "../../suite/mod.rs"]
mod suite;
