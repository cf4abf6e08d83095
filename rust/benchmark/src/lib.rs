//! The benchmark's parts: an unverified twin of the proved judge, the workloads that both are given, and the measuring.
pub mod backtracking_parser;
pub mod bundles;
pub mod clock;
pub mod judging;
pub mod layouts;
pub mod measure;
pub mod others;
pub mod reading;
pub mod recursion;
pub mod report;
pub mod table;
pub mod targets;
pub mod tool;
pub mod twin;
pub mod workloads;
