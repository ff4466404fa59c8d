//! Every path from s over usable links, depth first: to t, or to any node. Small networks are solved by looking at all
//! of them.

use crate::table::Table;

/// How many links are tried at most before the listing gives up.
const MOST_TRIED: usize = 4_000;

struct Listing {
    /// The usable links that leave each node: their numbers, and the nodes that they enter.
    leaving: Vec<Vec<(u32, u32)>>,
    /// Where paths end; nothing where they may end at any node.
    t: Option<u32>,
    nodes: Vec<u32>,
    path: Vec<u32>,
    found: Vec<Vec<u32>>,
    tried: usize,
}

/// Every path from s to t, or nothing where there is too much to look at.
pub fn every(table: &Table, usable: &[bool], s: u32, t: u32) -> Option<Vec<Vec<u32>>> {
    listing(table, usable, s, Some(t))
}

/// Every path from s to any other node, or nothing where there is too much to look at.
pub fn from(table: &Table, usable: &[bool], s: u32) -> Option<Vec<Vec<u32>>> {
    listing(table, usable, s, None)
}

fn listing(table: &Table, usable: &[bool], s: u32, t: Option<u32>) -> Option<Vec<Vec<u32>>> {
    let mut leaving = vec![Vec::new(); table.n as usize];
    for (number, link) in table.links.iter().enumerate().filter(|(number, _)| usable[*number]) {
        leaving[link.from as usize].push((number as u32, link.to));
    }
    let mut listing = Listing { leaving, t, nodes: vec![s], path: Vec::new(), found: Vec::new(), tried: 0 };
    listing.go_on().then_some(listing.found)
}

impl Listing {
    /// All ways on from the last node; false where it was given up.
    fn go_on(&mut self) -> bool {
        let at = self.nodes[self.nodes.len() - 1];
        if self.t.is_none_or(|t| at == t) && !self.path.is_empty() {
            self.found.push(self.path.clone());
        }
        if self.t == Some(at) {
            return true;
        }
        for place in 0..self.leaving[at as usize].len() {
            let (number, to) = self.leaving[at as usize][place];
            if self.nodes.contains(&to) {
                continue;
            }
            self.tried += 1;
            if self.tried > MOST_TRIED {
                return false;
            }
            self.nodes.push(to);
            self.path.push(number);
            let whole = self.go_on();
            self.nodes.pop();
            self.path.pop();
            if !whole {
                return false;
            }
        }
        true
    }
}
