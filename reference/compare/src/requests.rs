//! Requests: some drawn at large, some around the weights of a walk that is there, some with bounds of 0, some out of range.

use crate::nets::Net;
use document01::table::{MOST_COST_BOUND, MOST_DELAY_BOUND};
use line::Request;
use seeded::Random;

/// A walk from a random node: where it begins and ends, and its delay, hold times among it, and cost.
fn walk(rng: &mut Random, net: &Net) -> (u32, u32, u32, u32) {
    let s = rng.range(0, net.n - 1);
    let (mut at, mut delay, mut cost) = (s, 0, 0);
    let mut passed = vec![s];
    for _ in 0..rng.range(1, net.n - 1) {
        let onward: Vec<&[u32]> =
            net.words.chunks(5).filter(|link| link[0] == at && !passed.contains(&link[1])).collect();
        if onward.is_empty() {
            break;
        }
        let link = rng.pick(&onward);
        delay += if at == s { 0 } else { net.hold_times[at as usize] };
        at = link[1];
        passed.push(at);
        delay += link[2];
        cost += link[3];
    }
    (s, at, delay, cost)
}

/// A bound at a weight, a little off it, or with more room.
fn around(rng: &mut Random, weight: u32, scale: u32) -> u32 {
    match rng.range(0, 5) {
        0 => weight,
        1 => weight.saturating_sub(1),
        2 => weight + rng.range(0, scale),
        3 => weight + weight / 2,
        4 => 2 * weight,
        _ => rng.range(0, 4 * scale),
    }
}

pub fn request(rng: &mut Random, net: &Net) -> Request {
    let (s, t, delay, cost) = walk(rng, net);
    let t = if t == s || rng.one_in(6) { (s + rng.range(1, net.n - 1)) % net.n } else { t };
    let units = rng.range(1, net.units_scale.max(1));
    let units = if rng.one_in(3) { units } else { units.min(2) };
    let (delay_bound, cost_bound) = match rng.range(0, 9) {
        // Room in one weight and little in the other: rounding up then decides between the problems.
        0..=2 => (4 * delay + 1, cost),
        3 => (delay, 4 * cost + 1),
        4 => (4 * delay + 1, 4 * cost + 1),
        _ => (around(rng, delay, net.delay_scale), around(rng, cost, net.cost_scale)),
    };
    let (delay_bound, cost_bound) = match rng.range(0, 11) {
        0 => (0, cost + rng.range(0, net.cost_scale)),
        1 => (delay + rng.range(0, net.delay_scale), 0),
        2 => (0, 0),
        _ => (delay_bound, cost_bound),
    };
    let (delay_bound, cost_bound) = (delay_bound.min(MOST_DELAY_BOUND), cost_bound.min(MOST_COST_BOUND));
    let coefficient = rng.pick(&[1, 1, 2, 2, 3, 4, 5, 6, 7, 8]);
    let request = Request { s, t, units, delay_bound, cost_bound, coefficient };
    if rng.one_in(14) {
        return out_of_range(rng, net.n, request);
    }
    request
}

/// One number at or past the end of its range.
fn out_of_range(rng: &mut Random, n: u32, r: Request) -> Request {
    let delay_bounds = [0, 1, MOST_COST_BOUND + 1, MOST_DELAY_BOUND, MOST_DELAY_BOUND + 1, u32::MAX];
    let cost_bounds = [0, 1, MOST_COST_BOUND, MOST_COST_BOUND + 1, MOST_DELAY_BOUND, u32::MAX];
    match rng.range(0, 6) {
        0 => Request { s: rng.pick(&[n, n - 1, 32, u32::MAX]), ..r },
        1 => Request { t: rng.pick(&[n, n - 1, 32, u32::MAX]), ..r },
        2 => Request { t: r.s, ..r },
        3 => Request { units: rng.pick(&[0, 1, 65_535, 65_536, u32::MAX]), ..r },
        4 => Request { delay_bound: rng.pick(&delay_bounds), ..r },
        5 => Request { cost_bound: rng.pick(&cost_bounds), ..r },
        _ => Request { coefficient: rng.pick(&[0, 1, 8, 9, u32::MAX]), ..r },
    }
}

/// A circuit number, mostly of a small pool so that many are held when they are named again.
pub fn circuit(rng: &mut Random, pool: u32) -> u32 {
    if rng.one_in(16) {
        return rng.pick(&[0, 65_535, 65_536, u32::MAX]);
    }
    rng.range(1, pool)
}
