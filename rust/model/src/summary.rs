//! Judging by saturation, for runs that are too long to walk.
//!
//! There is no stack here and nothing is followed in the run's order. Each entered configuration is a node of a graph;
//! a change leads to the next node of the same entry, a push to the first node of a new entry. Whenever a node's
//! terminator becomes known it is handed back to the nodes that lead to it, and a push whose new entry's terminator is
//! known leads on to a next node of its own entry. All this goes on until nothing new is found. The order of the work
//! makes no difference: a node is made only for a configuration that the run does enter.

use crate::answer::{Config, Verdict};
use crate::machine::{Machine, Rule};
use crate::run::verdict_at_end;
use crate::walk::Outcome;

/// No node: the end of a list, or a thing not known yet.
const NONE: u32 = u32::MAX;

struct Node {
    config: Config,
    /// The configuration number of the terminator, once known.
    terminator: u32,
    /// The node that comes next with the same entry on top, once known.
    next: u32,
    /// The node that a push from here enters.
    pushed: u32,
    /// Lists of the nodes whose `next`, or whose `pushed`, is this one, chained through `same` and `other`.
    led_here: u32,
    pushed_here: u32,
    same: u32,
    other: u32,
}

struct Graph<'a> {
    machine: Machine<'a>,
    capture: &'a [u8],
    nodes: Vec<Node>,
    /// The node of a configuration number, or NONE.
    node_of: Vec<u32>,
    /// Nodes whose rule has not been looked at.
    fresh: Vec<u32>,
    /// Nodes whose terminator has just become known.
    solved: Vec<u32>,
    /// Where no rule leads on, and whether the run is stuck or halted there.
    stopped: Option<(Verdict, Config)>,
}

pub fn judge(machine: Machine, capture: &[u8]) -> Outcome {
    let mut graph = Graph {
        machine,
        capture,
        nodes: Vec::new(),
        node_of: vec![NONE; machine.configs(capture.len())],
        fresh: Vec::new(),
        solved: Vec::new(),
        stopped: None,
    };
    let start = graph.node(Config { state: 0, head: 0, symbol: 0 });
    graph.saturate();
    let (verdict, end) = graph.verdict(start);
    Outcome { verdict, end, notes: graph.notes() }
}

impl Graph<'_> {
    /// The node of a configuration that the run enters.
    fn node(&mut self, config: Config) -> u32 {
        let number = self.machine.number(self.capture, config);
        if self.node_of[number] == NONE {
            let node = self.nodes.len() as u32;
            self.node_of[number] = node;
            self.fresh.push(node);
            self.nodes.push(Node {
                config,
                terminator: NONE,
                next: NONE,
                pushed: NONE,
                led_here: NONE,
                pushed_here: NONE,
                same: NONE,
                other: NONE,
            });
        }
        self.node_of[number]
    }

    fn saturate(&mut self) {
        loop {
            if let Some(node) = self.solved.pop() {
                self.hand_back(node);
            } else if let Some(node) = self.fresh.pop() {
                self.look(node);
            } else {
                return;
            }
        }
    }

    /// Looks at a node's rule, once.
    fn look(&mut self, node: u32) {
        let config = self.nodes[node as usize].config;
        match self.machine.rule(self.capture, config) {
            Rule::None => self.stopped = Some((Verdict::Stuck, config)),
            Rule::Halt => self.stopped = Some((Verdict::Halted, config)),
            Rule::Change { state, symbol, go } => {
                let next = self.node(Config { state, head: go.from(config.head), symbol });
                self.lead(node, next);
            }
            Rule::Push { state, symbol, go } => {
                let pushed = self.node(Config { state, head: go.from(config.head), symbol });
                self.nodes[node as usize].pushed = pushed;
                self.nodes[node as usize].other = self.nodes[pushed as usize].pushed_here;
                self.nodes[pushed as usize].pushed_here = node;
                if self.nodes[pushed as usize].terminator != NONE {
                    self.go_on(node);
                }
            }
            Rule::Pop { .. } => self.solve(node, self.machine.number(self.capture, config) as u32),
        }
    }

    /// `next` comes after `node` with the same entry on top.
    fn lead(&mut self, node: u32, next: u32) {
        self.nodes[node as usize].next = next;
        self.nodes[node as usize].same = self.nodes[next as usize].led_here;
        self.nodes[next as usize].led_here = node;
        let terminator = self.nodes[next as usize].terminator;
        if terminator != NONE {
            self.solve(node, terminator);
        }
    }

    /// What a push's new entry comes to is known, so the node has a next one. A removal that returns goes to the
    /// entry's pointer, which is where the head was when the entry came: at the pushed node.
    fn go_on(&mut self, node: u32) {
        let (config, pushed) =
            (self.nodes[node as usize].config, &self.nodes[self.nodes[node as usize].pushed as usize]);
        let (entered, terminator) = (pushed.config, self.machine.config(self.capture, pushed.terminator as usize));
        let (state, head) = self.removed(terminator, entered.head);
        let next = self.node(Config { state, head, symbol: config.symbol });
        self.lead(node, next);
    }

    /// State and head after a terminator removes an entry with this pointer.
    fn removed(&self, terminator: Config, pointer: usize) -> (usize, usize) {
        match self.machine.rule(self.capture, terminator) {
            Rule::Pop { state, returns } => (state, if returns { pointer } else { terminator.head }),
            rule => unreachable!("a terminator's rule is {rule:?}"),
        }
    }

    fn solve(&mut self, node: u32, terminator: u32) {
        assert!(self.nodes[node as usize].terminator == NONE, "solved twice");
        self.nodes[node as usize].terminator = terminator;
        self.solved.push(node);
    }

    /// Hands a terminator to the nodes before, and lets waiting pushes go on.
    fn hand_back(&mut self, node: u32) {
        let (terminator, mut pushing) = (self.nodes[node as usize].terminator, self.nodes[node as usize].pushed_here);
        let mut leading = self.nodes[node as usize].led_here;
        while leading != NONE {
            // A node that came to lead here after this one was solved has its terminator already.
            if self.nodes[leading as usize].terminator == NONE {
                self.solve(leading, terminator);
            }
            leading = self.nodes[leading as usize].same;
        }
        while pushing != NONE {
            if self.nodes[pushing as usize].next == NONE {
                self.go_on(pushing);
            }
            pushing = self.nodes[pushing as usize].other;
        }
    }

    fn verdict(&self, start: u32) -> (Verdict, Config) {
        let terminator = self.nodes[start as usize].terminator;
        if terminator != NONE {
            let end = self.machine.config(self.capture, terminator as usize);
            let (state, head) = self.removed(end, 0);
            return (verdict_at_end(&self.machine, self.capture, state, head), end);
        }
        self.stopped.unwrap_or_else(|| (Verdict::Looping, self.first_again(start)))
    }

    /// The first configuration of an endless run to come again above its earlier entry. Entries that are removed again
    /// are stepped over: nothing can come again within one, for then it would not be removed.
    fn first_again(&self, start: u32) -> Config {
        let mut met = vec![false; self.nodes.len()];
        let mut node = start;
        while !met[node as usize] {
            met[node as usize] = true;
            let Node { next, pushed, .. } = self.nodes[node as usize];
            node = if next != NONE { next } else { pushed };
        }
        self.nodes[node as usize].config
    }

    fn notes(&self) -> Vec<u32> {
        let note = |&node: &u32| match node {
            NONE => 0,
            node => match self.nodes[node as usize].terminator {
                NONE => 1,
                terminator => 2 + terminator,
            },
        };
        self.node_of.iter().map(note).collect()
    }
}
