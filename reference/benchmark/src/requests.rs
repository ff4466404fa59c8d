//! Requests for one unit with coefficient 8.

use crate::nets;
use line::Request;
use seeded::Random;

pub fn request(s: u32, t: u32, delay_bound: u32, cost_bound: u32) -> Request {
    Request { s, t, units: 1, delay_bound, cost_bound, coefficient: 8 }
}

/// Bounds that any path of so many links meets, also by its scaled costs: problem one is granted.
pub fn wide(s: u32, t: u32, links: u32) -> Request {
    request(s, t, nets::DELAY * links, nets::COST * links)
}

/// Two different nodes.
pub fn two_nodes(random: &mut Random, n: u32) -> (u32, u32) {
    let s = random.range(0, n - 1);
    (s, (s + random.range(1, n - 1)) % n)
}

/// Bounds up to the widest of the paper's figures and down to ones that hardly any path meets.
pub fn any(random: &mut Random, n: u32) -> Request {
    let (s, t) = two_nodes(random, n);
    request(s, t, random.range(5, 165), random.range(20, 660))
}
