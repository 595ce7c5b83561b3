//! What the programs know of an archive that `transfer archive` makes: its lists, its sums, and the places of its files. They share it;
//! it is no part of the crate's interface.
pub mod folders;
pub mod lines;
pub mod listed;
pub mod names;
pub mod numbers;
pub mod sha256;
