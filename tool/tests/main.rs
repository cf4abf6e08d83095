//! The tests of the tool: one program, so that what they share is compiled and linked once.
mod common;

mod commands;
mod dumps;
mod fields;
mod formats;
mod grammars;
mod hints;
mod hints_model;
mod hints_table;
mod inputs;
mod junit;
mod output;
mod overwriting;
mod refusals;
mod shift;
mod statuses;
mod terminal;
mod transcripts;
