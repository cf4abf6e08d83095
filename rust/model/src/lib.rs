//! The judge once more, written from the prose of the documents alone: what the comparison believes.
//!
//! It shares no code with the proved library and prefers the plain way to the fast one. Judging is here twice, in two
//! different ways ([`walk`] follows the run itself, [`summary`] saturates a table), so that each can be held against
//! the other as well.

pub mod answer;
pub mod building;
pub mod bundle;
pub mod calls;
pub mod grammar;
pub mod image;
pub mod machine;
pub mod parse;
pub mod plain;
pub mod program;
pub mod recursion;
pub mod run;
pub mod summary;
pub mod text;
pub mod walk;
