//! The exact method for networks with too many paths to list, from t backwards. A label says that a way leads from a
//! node to t with some kept and some scaled weight; the node's own hold time is in neither, since the way begins there.
//! Labels are taken in order of their kept weight from a heap; one whose node was reached before with no more scaled
//! weight is dropped. The first label of s has the least kept weight. Weights are not negative, so walks that pass a
//! node twice make no solution lighter.

use crate::problems::Reduced;
use crate::table::Table;
use std::cmp::Reverse;
use std::collections::{BinaryHeap, VecDeque};

/// The fewest usable links from s to t, breadth first.
pub fn distance(table: &Table, usable: &[bool], s: u32, t: u32) -> Option<u32> {
    let mut far = vec![None; table.n as usize];
    far[s as usize] = Some(0);
    let mut waiting = VecDeque::from([s]);
    while let Some(at) = waiting.pop_front() {
        for (link, _) in table.links.iter().zip(usable).filter(|(link, usable)| link.from == at && **usable) {
            if far[link.to as usize].is_none() {
                far[link.to as usize] = far[at as usize].map(|links: u32| links + 1);
                waiting.push_back(link.to);
            }
        }
    }
    far[t as usize]
}

/// The links that lead to each node, by number.
fn leading(table: &Table, usable: &[bool]) -> Vec<Vec<usize>> {
    let mut out = vec![Vec::new(); table.n as usize];
    for (number, link) in table.links.iter().enumerate().filter(|(number, _)| usable[*number]) {
        out[link.to as usize].push(number);
    }
    out
}

/// The least kept weight of a solution.
pub fn least(table: &Table, usable: &[bool], s: u32, t: u32, problem: &Reduced) -> Option<u64> {
    let leading = leading(table, usable);
    let mut reached: Vec<Option<u64>> = vec![None; table.n as usize];
    let mut heap = BinaryHeap::from([Reverse((0, 0, t))]);
    while let Some(Reverse((kept, scaled, at))) = heap.pop() {
        if at == s {
            return Some(kept);
        }
        if reached[at as usize].is_some_and(|before| before <= scaled) {
            continue;
        }
        reached[at as usize] = Some(scaled);
        // With a link in front of the way, the node where the way begins is an inner one; but at t no way has begun.
        let behind = (at != t).then_some(at);
        for &number in &leading[at as usize] {
            let (more_kept, more_scaled) = problem.weights(number, behind);
            let label = (kept + more_kept, scaled + more_scaled, table.links[number].from);
            let dominated = reached[label.2 as usize].is_some_and(|before| before <= label.1);
            if !dominated && problem.within(label.0, label.1) {
                heap.push(Reverse(label));
            }
        }
    }
    None
}
