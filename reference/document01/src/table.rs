//! Links and hold times, a loaded table with their ranges, and a request with its own.

use crate::rules::{Rule, Rules};

pub const MOST_NODES: u32 = 32;
pub const MOST_LINKS: usize = 256;
pub const LINK_WORDS: usize = 5;
pub const MOST_WEIGHT: u32 = 1_000_000;
pub const MOST_HOLD: u32 = 1_000_000;
pub const MOST_DELAY_BOUND: u32 = 61_000_000;
pub const MOST_COST_BOUND: u32 = 31_000_000;
pub const MOST_UNITS: u32 = 65_535;

#[derive(Clone, Copy, Debug, PartialEq, Eq)]
pub struct Link {
    pub from: u32,
    pub to: u32,
    pub delay: u32,
    pub cost: u32,
    pub capacity: u32,
}

#[derive(Clone, Debug, PartialEq, Eq)]
pub struct Table {
    pub n: u32,
    pub links: Vec<Link>,
    /// Each node's hold time.
    pub holds: Vec<u32>,
}

impl Link {
    fn of(words: &[u32]) -> Link {
        Link { from: words[0], to: words[1], delay: words[2], cost: words[3], capacity: words[4] }
    }

    fn in_range(&self, n: u32) -> bool {
        let ends = self.from < n && self.to < n && self.from != self.to;
        let weights = self.delay.max(self.cost) <= MOST_WEIGHT;
        ends && weights && self.capacity <= MOST_UNITS
    }
}

impl Table {
    /// Checks 2, 3, 4 and 22 of Load, in this order.
    pub fn checked(n: u32, words: &[u32], holds: &[u32]) -> Result<Table, u32> {
        if !(2..=MOST_NODES).contains(&n) {
            return Err(2);
        }
        if !words.len().is_multiple_of(LINK_WORDS) || words.len() > MOST_LINKS * LINK_WORDS {
            return Err(3);
        }
        let links: Vec<Link> = words.chunks(LINK_WORDS).map(Link::of).collect();
        if links.iter().any(|link| !link.in_range(n)) {
            return Err(4);
        }
        if holds.len() != n as usize || holds.iter().any(|&hold| hold > MOST_HOLD) {
            return Err(22);
        }
        Ok(Table { n, links, holds: holds.to_vec() })
    }

    /// The nodes that a list of links passes, or nothing where a number is no link or a link does not begin where the
    /// one before ended.
    pub fn nodes_along(&self, path: &[u32]) -> Option<Vec<u32>> {
        let mut nodes = Vec::new();
        for &number in path {
            let link = self.links.get(number as usize)?;
            match nodes.last() {
                None => nodes.push(link.from),
                Some(&last) if last != link.from => return None,
                Some(_) => {}
            }
            nodes.push(link.to);
        }
        Some(nodes)
    }

    /// Each link of a path with the inner node behind it, at which the next link begins. The last link has none.
    pub fn steps<'a>(&'a self, path: &'a [u32]) -> impl Iterator<Item = (usize, Option<u32>)> + 'a {
        let behind = |at: usize| path.get(at + 1).map(|&next| self.links[next as usize].from);
        path.iter().enumerate().map(move |(at, &number)| (number as usize, behind(at)))
    }

    /// Whether the links are a path: one or more that follow on each other and pass no node twice.
    pub fn is_path(&self, path: &[u32]) -> bool {
        let Some(mut nodes) = self.nodes_along(path) else {
            return false;
        };
        let passed = nodes.len();
        nodes.sort_unstable();
        nodes.dedup();
        !path.is_empty() && nodes.len() == passed
    }
}

/// A request of document 01.
#[derive(Clone, Copy, Debug, PartialEq, Eq, Hash)]
pub struct Request {
    pub s: u32,
    pub t: u32,
    pub units: u32,
    pub delay_bound: u32,
    pub cost_bound: u32,
    pub coefficient: u32,
}

impl Request {
    /// Check 8.
    pub fn in_range(&self, n: u32, rules: Rules) -> bool {
        let least = u32::from(!rules.hold(Rule::ZeroBounds));
        self.s < n
            && self.t < n
            && self.s != self.t
            && (1..=MOST_UNITS).contains(&self.units)
            && (least..=MOST_DELAY_BOUND).contains(&self.delay_bound)
            && (least..=MOST_COST_BOUND).contains(&self.cost_bound)
            && (1..=8).contains(&self.coefficient)
    }
}
