//! The listed edges, each a case with a name. Where the document or plain counting tells the answer, it is written down
//! here, so that the model is held against it too.

mod bundles;
mod halted_reports;
mod halting;
mod inverted;
mod leading;
mod long;
mod numbers;
mod program;
mod recursion;
mod recursive_texts;
mod refusals;
mod reports;
mod runs;
mod sizes;
mod table;
mod texts;
pub mod tools;

use crate::findings::Findings;
use crate::rng::Rng;

type Case = dyn Fn(&mut Findings, &mut Rng);

pub struct Edge {
    pub name: String,
    pub case: Box<Case>,
}

/// A list of edges in the making.
#[derive(Default)]
pub struct Edges(Vec<Edge>);

impl Edges {
    pub fn add(&mut self, name: impl Into<String>, case: impl Fn(&mut Findings, &mut Rng) + 'static) {
        let name = name.into();
        assert!(self.0.iter().all(|edge| edge.name != name), "two edges are named {name}");
        self.0.push(Edge { name, case: Box::new(case) });
    }
}

pub fn all() -> Vec<Edge> {
    let mut edges = Edges::default();
    table::add(&mut edges);
    sizes::add(&mut edges);
    inverted::add(&mut edges);
    leading::add(&mut edges);
    refusals::add(&mut edges);
    runs::add(&mut edges);
    halting::add(&mut edges);
    long::add(&mut edges);
    numbers::add(&mut edges);
    program::add(&mut edges);
    texts::add(&mut edges);
    bundles::add(&mut edges);
    reports::add(&mut edges);
    halted_reports::add(&mut edges);
    recursion::add(&mut edges);
    recursive_texts::add(&mut edges);
    edges.0
}
