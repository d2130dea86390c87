//! Random tables, counts, texts and settings: every function ends, none panics, and each does what it says.

mod calls;
mod lent;
mod outline;
mod records;
