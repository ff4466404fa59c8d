//! The plain implementation to measure against: the paper's extended Bellman-Ford search, lines 1 to 10 and 20 to 24,
//! in ordinary safe Rust, with all rounds, ended by a round that changes nothing, or by the proved search's own rule.
//!
//! It is meant to be as fast as the paper's lines are when written down with care. The usable links stand in a list of
//! their own with both weights beside their ends, so the innermost loop has lines 6 to 10 and nothing else; infinity is
//! a number so large that line 8 needs no case for it; the tables are kept from call to call. Free units are kept with
//! the links and no words are checked. It knows no hold times and is measured where all are 0. The paper's lines do not
//! stop at the kept bound, so neither does this search; the proved one does, since there infinity is the bound + 1.

mod network;

use crate::answer::{Answer, Grant};
use line::Request;
use network::Link;
pub use network::Network;

/// No weight of a path comes near it, and a weight more does not overflow it.
const INFINITE: u32 = u32::MAX / 2;

/// No link leads here.
const NIL: u32 = u32::MAX;

/// How many rounds a search makes: all of line 21, until one changes nothing, or until one in which no link of scaled
/// weight 0 changes a number, which is the proved search's own rule.
#[derive(Clone, Copy, PartialEq, Eq)]
pub enum Rounds {
    All,
    UntilUnchanged,
    UntilSettled,
}

#[derive(Clone, Copy)]
enum Problem {
    One,
    Two,
}

/// A usable link as a relaxation reads it.
struct Edge {
    from: usize,
    to: usize,
    kept: u32,
    scaled: usize,
    link: u32,
}

/// One reduced problem: which, its request and x.
#[derive(Clone, Copy)]
struct Reduced<'a> {
    problem: Problem,
    request: &'a Request,
    x: usize,
}

impl Reduced<'_> {
    /// The kept weight of a link, and the other one by formula 1.
    fn weights(&self, link: &Link) -> (u32, usize) {
        let r = self.request;
        let scaled = |weight: u32, bound: u32| (weight * self.x as u32).div_ceil(bound) as usize;
        match self.problem {
            Problem::One => (link.delay, scaled(link.cost, r.cost_bound)),
            Problem::Two => (link.cost, scaled(link.delay, r.delay_bound)),
        }
    }

    fn kept_bound(&self) -> u32 {
        match self.problem {
            Problem::One => self.request.delay_bound,
            Problem::Two => self.request.cost_bound,
        }
    }

    /// Where d[v, k] stands in the table.
    fn cell(&self, v: usize, k: usize) -> usize {
        v * (self.x + 1) + k
    }
}

/// The tables of a search, kept from call to call: d and π of the paper, with the link in π.
pub struct Search {
    rounds: Rounds,
    edges: Vec<Edge>,
    far: Vec<usize>,
    d: Vec<u32>,
    pi: Vec<u32>,
    path: Vec<u32>,
}

impl Search {
    pub fn new(rounds: Rounds) -> Search {
        Search { rounds, edges: Vec::new(), far: Vec::new(), d: Vec::new(), pi: Vec::new(), path: Vec::new() }
    }

    /// A quote: problem one, else problem two, else 10; 9 where there is no path.
    pub fn quote(&mut self, network: &Network, request: &Request) -> Answer {
        self.take_usable(network, request.units);
        let distance = self.distance(network.n, request.s as usize, request.t as usize).ok_or(9u32)?;
        let x = request.coefficient as usize * distance;
        for problem in [Problem::One, Problem::Two] {
            if self.solves(network, Reduced { problem, request, x }) {
                return Ok(self.grant(network, problem));
            }
        }
        Err(10)
    }

    /// A quote that books its path; 11 and 12 come before 9 and 10.
    pub fn admit(&mut self, network: &mut Network, number: u32, request: &Request) -> Answer {
        network.check_room(number)?;
        let grant = self.quote(network, request)?;
        network.hold(number, request.units, &self.path);
        Ok(grant)
    }

    /// The links with enough free units, which are the paper's E.
    fn take_usable(&mut self, network: &Network, units: u32) {
        self.edges.clear();
        for (i, link) in network.links.iter().enumerate() {
            if link.free >= units {
                self.edges.push(Edge { from: link.from, to: link.to, kept: 0, scaled: 0, link: i as u32 });
            }
        }
    }

    /// The fewest usable links from s to t, layer by layer.
    fn distance(&mut self, n: usize, s: usize, t: usize) -> Option<usize> {
        self.far.clear();
        self.far.resize(n, usize::MAX);
        self.far[s] = 0;
        for layer in 0..n {
            if self.far[t] == layer {
                return Some(layer);
            }
            for edge in &self.edges {
                if self.far[edge.from] == layer && self.far[edge.to] == usize::MAX {
                    self.far[edge.to] = layer + 1;
                }
            }
        }
        None
    }

    /// Whether the problem has a solution, which then stands in the path.
    fn solves(&mut self, network: &Network, p: Reduced) -> bool {
        let (s, t) = (p.request.s as usize, p.request.t as usize);
        for edge in &mut self.edges {
            (edge.kept, edge.scaled) = p.weights(&network.links[edge.link as usize]);
        }
        self.initialize(network.n, s, p);
        self.relax(network.n, p.x);
        if self.d[p.cell(t, p.x)] > p.kept_bound() {
            return false;
        }
        self.trace(network, s, t, p);
        true
    }

    /// Lines 1 to 5.
    fn initialize(&mut self, n: usize, s: usize, p: Reduced) {
        self.d.clear();
        self.d.resize(n * (p.x + 1), INFINITE);
        self.pi.clear();
        self.pi.resize(n * (p.x + 1), NIL);
        self.d[p.cell(s, 0)..=p.cell(s, p.x)].fill(0);
    }

    /// Lines 21 to 24, with lines 6 to 10 in the innermost loop.
    fn relax(&mut self, n: usize, x: usize) {
        let (edges, d, pi) = (&self.edges[..], &mut self.d[..], &mut self.pi[..]);
        let width = x + 1;
        for _ in 1..n {
            let (mut changed, mut unsettled) = (false, false);
            for k in 0..=x {
                for edge in edges {
                    let sum = k + edge.scaled;
                    if sum > x {
                        continue;
                    }
                    let weight = d[edge.from * width + k] + edge.kept;
                    let cell = edge.to * width + sum;
                    if d[cell] > weight {
                        d[cell] = weight;
                        pi[cell] = edge.link;
                        changed = true;
                        unsettled |= edge.scaled == 0;
                    }
                }
            }
            let again = match self.rounds {
                Rounds::All => true,
                Rounds::UntilUnchanged => changed,
                Rounds::UntilSettled => unsettled,
            };
            if !again {
                return;
            }
        }
    }

    /// The walk from s to t, traced back from (t, x), as a path.
    fn trace(&mut self, network: &Network, s: usize, t: usize, p: Reduced) {
        self.path.clear();
        let (mut v, mut k) = (t, p.x);
        while v != s {
            let i = self.pi[p.cell(v, k)];
            let link = &network.links[i as usize];
            self.path.push(i);
            v = link.from;
            k -= p.weights(link).1;
        }
        self.path.reverse();
        self.cut_loops(network);
    }

    /// Links of no weight may leave loops: of the links that leave a node, only the last one stays.
    fn cut_loops(&mut self, network: &Network) {
        let from = |i: u32| network.links[i as usize].from;
        let mut at = 0;
        while at < self.path.len() {
            let node = from(self.path[at]);
            let loop_links = self.path[at..].iter().rposition(|&i| from(i) == node).unwrap_or(0);
            self.path.drain(at..at + loop_links);
            at += 1;
        }
    }

    fn grant(&self, network: &Network, problem: Problem) -> Grant {
        let links = || self.path.iter().map(|&i| &network.links[i as usize]);
        let problem = match problem {
            Problem::One => 1,
            Problem::Two => 2,
        };
        Grant { problem, delay: links().map(|link| link.delay).sum(), cost: links().map(|link| link.cost).sum() }
    }
}
