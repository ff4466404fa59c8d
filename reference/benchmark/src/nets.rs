//! Link tables as words, five a link. Delays and costs are drawn as in section 2.4 of the paper, and the capacities are
//! so large that every link is usable.

use seeded::Random;

/// The greatest delay and cost of a link.
pub const DELAY: u32 = 50;
pub const COST: u32 = 200;

const CAPACITY: u32 = 10_000;

fn weighted(random: &mut Random, ends: &[(u32, u32)]) -> Vec<u32> {
    ends.iter().flat_map(|&(from, to)| [from, to, random.range(0, DELAY), random.range(0, COST), CAPACITY]).collect()
}

/// A ring through all nodes, so that a path joins every two, and random links besides.
pub fn ring(random: &mut Random, n: u32, m: u32) -> Vec<u32> {
    let mut ends: Vec<_> = (0..n).map(|v| (v, (v + 1) % n)).collect();
    for _ in n..m {
        let from = random.range(0, n - 1);
        ends.push((from, (from + random.range(1, n - 1)) % n));
    }
    weighted(random, &ends)
}

/// Nodes in a row with links between neighbours alone, both ways and in any order: from 0 to t it is t links.
pub fn row(random: &mut Random, n: u32, m: u32) -> Vec<u32> {
    let mut ends: Vec<_> = (1..n).flat_map(|v| [(v - 1, v), (v, v - 1)]).collect();
    while ends.len() < m as usize {
        let v = random.range(1, n - 1);
        ends.push(if random.one_in(2) { (v - 1, v) } else { (v, v - 1) });
    }
    random.shuffle(&mut ends);
    weighted(random, &ends)
}

/// Nodes in a row with links of no weight that stand in the table from the far end on: each round comes one node on.
/// Only the last node's links have weights, which no small bound allows, so neither problem has a solution.
pub fn slow_row(n: u32, m: u32) -> Vec<u32> {
    let link = |i: u32| {
        let from = n - 2 - i * (n - 1) / m;
        let last = u32::from(from == n - 2);
        [from, from + 1, last * DELAY, last * COST, CAPACITY]
    };
    (0..m).flat_map(link).collect()
}
