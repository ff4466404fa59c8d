//! The paper's own lines: Initialize, Relax and EBF of its section 2.2 (lines 1 to 10 and 20 to 24), read from its text.
//! d[v, k] is a number or ∞, which is None. π[v, k] is the number of a link, which is kept for the paper's u, or NIL,
//! which is None. The kept bound does not come in: no sum is skipped, and no round is.
//!
//! What the lines come to is said once more by a method of its own, the least kept weight of all paths.

use crate::paths;
use crate::rules::{Rule, Rules};
use crate::table::Table;

/// The paper's edge (u, v), with its weights w1, which is kept, and w2', which is scaled.
pub struct Edge {
    pub link: usize,
    pub u: usize,
    pub v: usize,
    pub kept: u64,
    pub scaled: u64,
}

/// G, s and x. The edges are the usable links in table order.
pub struct Graph {
    pub n: usize,
    pub s: usize,
    pub x: u64,
    pub edges: Vec<Edge>,
}

/// d[v, k] for every node, and every k up to x.
pub type Weights = Vec<Vec<Option<u64>>>;

/// What the lines leave.
#[derive(Clone, Debug, PartialEq, Eq)]
pub struct Lines {
    pub d: Weights,
    pub pi: Vec<Vec<Option<usize>>>,
}

/// EBF(G, s), lines 20 to 24: Initialize, then one round fewer than there are nodes; in a round each k from 0 to x, and
/// at each k every edge is relaxed.
pub fn ebf(graph: &Graph, rules: Rules) -> Lines {
    let mut ks: Vec<u64> = (0..=graph.x).collect();
    let mut edges: Vec<&Edge> = graph.edges.iter().collect();
    if !rules.hold(Rule::KRises) {
        ks.reverse();
    }
    if !rules.hold(Rule::LinksRise) {
        edges.reverse();
    }
    let rounds = if rules.hold(Rule::EveryRound) { graph.n - 1 } else { graph.n - 2 };
    let mut lines = Lines::initialize(graph, rules);
    for _ in 1..=rounds {
        for &k in &ks {
            for edge in &edges {
                lines.relax(edge, k, graph.x, rules);
            }
        }
    }
    lines
}

impl Lines {
    /// Initialize(G, s), lines 1 to 5.
    fn initialize(graph: &Graph, rules: Rules) -> Lines {
        let columns = graph.x as usize + 1;
        let mut d = vec![vec![None; columns]; graph.n];
        let pi = vec![vec![None; columns]; graph.n];
        let sources = if rules.hold(Rule::SourceAtEachK) { columns } else { 1 };
        d[graph.s][..sources].fill(Some(0));
        Lines { d, pi }
    }

    /// Relax(u, k, v), lines 6 to 10.
    fn relax(&mut self, edge: &Edge, k: u64, x: u64, rules: Rules) {
        let reached = k + edge.scaled;
        if reached > x || (reached == x && !rules.hold(Rule::LastColumn)) {
            return;
        }
        let sum = self.d[edge.u][k as usize].map(|d| d + edge.kept);
        let d = &mut self.d[edge.v][reached as usize];
        let taken = is_greater(*d, sum) || (*d == sum && !rules.hold(Rule::LessAlone));
        if taken {
            *d = sum;
            self.pi[edge.v][reached as usize] = Some(if rules.hold(Rule::LinkKept) { edge.link } else { edge.u });
        }
    }
}

/// ∞ is greater than every number, and not than ∞.
fn is_greater(d: Option<u64>, than: Option<u64>) -> bool {
    match (d, than) {
        (_, None) => false,
        (None, Some(_)) => true,
        (Some(d), Some(than)) => d > than,
    }
}

/// What every d[v, k] comes to: 0 at s, else the least kept weight of the paths from s to v whose scaled weight is at
/// most k, and ∞ where there is none. Nothing where there are too many paths to look at.
pub fn least_of_paths(table: &Table, usable: &[bool], graph: &Graph) -> Option<Weights> {
    let mut edge_of: Vec<Option<&Edge>> = vec![None; table.links.len()];
    graph.edges.iter().for_each(|edge| edge_of[edge.link] = Some(edge));
    let mut least: Weights = vec![vec![None; graph.x as usize + 1]; graph.n];
    least[graph.s][0] = Some(0);
    for path in paths::from(table, usable, graph.s as u32)? {
        let edges = || path.iter().filter_map(|&link| edge_of[link as usize]);
        let (kept, scaled): (u64, u64) = (edges().map(|edge| edge.kept).sum(), edges().map(|edge| edge.scaled).sum());
        let end = edges().next_back()?.v;
        if scaled <= graph.x {
            take_less(&mut least[end][scaled as usize], Some(kept));
        }
    }
    // What weighs at most k - 1 weighs at most k.
    for row in &mut least {
        for k in 1..row.len() {
            let fewer = row[k - 1];
            take_less(&mut row[k], fewer);
        }
    }
    Some(least)
}

fn take_less(d: &mut Option<u64>, other: Option<u64>) {
    if is_greater(*d, other) {
        *d = other;
    }
}
