//! Hold times: those of a network, lists for Load with an entry too few or too many, or past the range, and the network
//! without hold times whose links take as long.

use crate::buffer::{Holds, Lent};
use crate::cases::Call;
use document01::area::{AREA_WORDS, FIRST_HOLD, FIRST_LINK};
use document01::table::{LINK_WORDS, MOST_HOLD, MOST_WEIGHT};
use document01::Table;
use seeded::Random;

/// Both ends of the range, and numbers past it.
const ENDS: [u32; 6] = [0, 1, MOST_HOLD - 1, MOST_HOLD, MOST_HOLD + 1, u32::MAX];

/// A network's hold times: for a third of the networks none, else up to `most`, one node's alone, or the range's ends.
pub fn drawn(rng: &mut Random, n: u32, most: u32, heavy: bool) -> Vec<u32> {
    let mut times = vec![0; n as usize];
    match if heavy { rng.range(3, 8) } else { rng.range(0, 5) } {
        0 => times[rng.range(0, n - 1) as usize] = rng.range(1, most),
        1 | 2 => times.iter_mut().for_each(|time| *time = rng.range(0, most)),
        3 | 4 => {}
        5 => times.iter_mut().for_each(|time| *time = rng.pick(&ENDS[..4])),
        _ => times.fill(MOST_HOLD),
    }
    times
}

/// A list for Load, mostly one that it takes for a network of n nodes.
pub fn list(rng: &mut Random, n: u32, of: &[u32]) -> Vec<u32> {
    let mut times = of.to_vec();
    times.resize(n.min(40) as usize, 3);
    match rng.range(0, 9) {
        0 => drop(times.pop()),
        1 => times.push(rng.pick(&ENDS)),
        2 => times.clear(),
        3 => times.resize(rng.range(0, 40) as usize, 0),
        4 | 5 if !times.is_empty() => {
            let at = rng.range(0, times.len() as u32 - 1) as usize;
            times[at] = rng.pick(&ENDS);
        }
        _ => {}
    }
    times
}

/// The links' delays for paths to t: with the hold time of the node that a link enters, unless that is t.
pub fn delays(table: &Table, t: u32) -> Vec<u32> {
    let held = |node: u32| if node == t { 0 } else { table.holds[node as usize] };
    table.links.iter().map(|link| link.delay + held(link.to)).collect()
}

/// The words of an area with this table, but without hold times and with these delays. Nothing where one of them is out
/// of range.
pub fn folded(area: &[u32], table: &Table, t: u32) -> Option<Vec<u32>> {
    let mut words = area.to_vec();
    words[FIRST_HOLD..FIRST_HOLD + table.holds.len()].fill(0);
    for (number, delay) in delays(table, t).into_iter().enumerate() {
        words[FIRST_LINK + LINK_WORDS * number + 2] = (delay <= MOST_WEIGHT).then_some(delay)?;
    }
    Some(words)
}

/// Loads of a network of n nodes with the list `times`: with a link, with none, and with what is refused before the
/// list: a link past its range, a word too many, an n out of range and an area a word too short.
fn loads(n: u32, times: &[u32]) -> Vec<Call> {
    let link = [0, 1, 2, 3, 4];
    let from_nowhere = [n, 1, 2, 3, 4];
    let too_many = [0, 1, 2, 3, 4, 0];
    let lent = |words| Lent { words, holds: Holds::Random(u64::from(n)) };
    let load = |n, words: &[u32], area| Call::Load { n, words: words.to_vec(), hold_times: times.to_vec(), area };
    let no_net = if times.len() == 1 { 1 } else { 33 };
    vec![
        load(n, &link, lent(AREA_WORDS)),
        load(n, &[], lent(AREA_WORDS)),
        load(n, &from_nowhere, lent(AREA_WORDS)),
        load(n, &too_many, lent(AREA_WORDS)),
        load(no_net, &link, lent(AREA_WORDS)),
        load(n, &link, lent(AREA_WORDS - 1)),
    ]
}

/// Lists of every length up to past the greatest n, and lists of the right length with each entry at each end.
pub fn all() -> Vec<Call> {
    let mut calls = Vec::new();
    for n in [2, 3, 31, 32] {
        for length in 0..=40 {
            calls.extend(loads(n, &vec![0; length]));
            calls.extend(loads(n, &vec![MOST_HOLD; length]));
        }
        for node in 0..n as usize {
            for end in ENDS {
                let mut times = vec![7; n as usize];
                times[node] = end;
                calls.extend(loads(n, &times));
            }
        }
    }
    for past in [MOST_HOLD + 1, u32::MAX] {
        calls.extend(loads(2, &[past]));
        calls.extend(loads(2, &[past; 33]));
    }
    calls
}
