//! The twin: the library's algorithms once more, in ordinary safe Rust, with the same cells, checks and answers.
//!
//! It is what the library would be without proofs, so it is written as one would write it: the record is changed in
//! place, a machine is a view of the image, and the compiler's bounds checks stand where the library has proofs.
mod build;
mod bundle;
mod cells;
mod check;
mod faults;
mod judge;
mod machine;
mod opens;
mod read;
mod recursion;
mod run;
mod tokens;
mod tuned;

pub use build::build;
pub use bundle::{judge_bundle, Report};
pub use check::check;
pub use judge::judge;
pub use read::{build_text, judge_text, read_grammar};
pub use recursion::{check_recursion, check_text_recursion};
pub use run::plain_run;
pub use tuned::{judge_fastest, judge_tuned};
