//! What a run has seen of hold times.

use crate::damage::Field;
use document01::table::{MOST_DELAY_BOUND, MOST_HOLD};
use std::collections::BTreeMap;

/// How an answer on a network with hold times stands beside what the same request is answered where every hold time is
/// 0: the path could be the same one, or could not, or a grant became a refusal.
#[derive(Clone, Copy, Debug, PartialEq, Eq, PartialOrd, Ord)]
pub enum Beside {
    Alike,
    OtherPath,
    RefusedInstead,
}

const BESIDE: [(Beside, &str); 3] = [
    (Beside::Alike, "as without them"),
    (Beside::OtherPath, "granted otherwise"),
    (Beside::RefusedInstead, "refused instead"),
];

/// What is wrong with a list that Load refuses.
const WRONG: [&str; 3] = ["an entry too few", "an entry too many", "an entry over the range"];

/// What Load gives where the list is wrong: 22, or what comes before it in its order.
const WRONG_DUE: [u32; 5] = [1, 2, 3, 4, 22];

#[derive(Clone, Default)]
pub struct HoldTally {
    /// Loads that were granted, by whether a node holds anything.
    loaded: BTreeMap<bool, u64>,
    wrong: BTreeMap<(&'static str, u32), u64>,
    /// Damaged areas with a hold word over the range: whether it is a node's, and whether they stayed well formed.
    over: BTreeMap<(bool, bool), u64>,
    beside: BTreeMap<Beside, u64>,
    /// Quotes that were answered alike where the hold times stood in the links' delays, by their numbers.
    folded: BTreeMap<u32, u64>,
    /// The greatest delay that was granted.
    greatest: u32,
    /// Choices that were met again with other hold times, where links with the nodes that they enter took as long.
    other_holds: u64,
}

fn wrong(n: u32, times: &[u32]) -> Option<&'static str> {
    if times.len() < n as usize {
        Some(WRONG[0])
    } else if times.len() > n as usize {
        Some(WRONG[1])
    } else if times.iter().any(|&time| time > MOST_HOLD) {
        Some(WRONG[2])
    } else {
        None
    }
}

fn add<Key: Ord + Copy>(to: &mut BTreeMap<Key, u64>, from: &BTreeMap<Key, u64>) {
    for (key, count) in from {
        *to.entry(*key).or_default() += count;
    }
}

fn count<Key: Ord>(of: &BTreeMap<Key, u64>, key: &Key) -> u64 {
    of.get(key).copied().unwrap_or(0)
}

impl HoldTally {
    pub fn loaded(&mut self, n: u32, times: &[u32], number: u32) {
        match wrong(n, times) {
            Some(what) => *self.wrong.entry((what, number)).or_default() += 1,
            None if number == 0 => *self.loaded.entry(times.iter().any(|&time| time > 0)).or_default() += 1,
            None => {}
        }
    }

    /// An area whose word of this field was made this.
    pub fn damaged(&mut self, field: Field, word: u32, formed: bool) {
        if matches!(field, Field::Hold | Field::PastHolds) && word > MOST_HOLD {
            *self.over.entry((field == Field::Hold, formed)).or_default() += 1;
        }
    }

    pub fn folded(&mut self, number: u32) {
        *self.folded.entry(number).or_default() += 1;
    }

    pub fn granted(&mut self, delay: u32) {
        self.greatest = self.greatest.max(delay);
    }

    /// The answers of a case, by how they stand beside those without hold times, and its choices met again.
    pub fn answered(&mut self, beside: &BTreeMap<Beside, u64>, other_holds: u64) {
        add(&mut self.beside, beside);
        self.other_holds += other_holds;
    }

    pub fn add(&mut self, other: &HoldTally) {
        add(&mut self.loaded, &other.loaded);
        add(&mut self.wrong, &other.wrong);
        add(&mut self.over, &other.over);
        add(&mut self.folded, &other.folded);
        self.answered(&other.beside, other.other_holds);
        self.granted(other.greatest);
    }

    /// What a whole run ought to have seen and has not.
    pub fn missing(&self) -> Vec<String> {
        let mut missing = Vec::new();
        let mut due = |seen: bool, what: &str| missing.extend((!seen).then(|| what.to_string()));
        due(self.loaded.contains_key(&true), "nothing was loaded with hold times");
        due(self.loaded.contains_key(&false), "nothing was loaded without hold times");
        for what in WRONG {
            for number in WRONG_DUE {
                let seen = self.wrong.contains_key(&(what, number));
                due(seen, &format!("load never gave {number} where the hold list had {what}"));
            }
        }
        due(self.over.contains_key(&(true, false)), "no hold word of a node over the range gave 5");
        due(self.over.contains_key(&(false, true)), "no hold word past the nodes over the range was taken");
        for (beside, what) in BESIDE {
            due(self.beside.contains_key(&beside), &format!("no request with hold times was {what}"));
        }
        due(self.folded.contains_key(&0), "no grant was met again where the hold times stood in the delays");
        due(self.folded.contains_key(&10), "no 10 was met again where the hold times stood in the delays");
        due(self.greatest == MOST_DELAY_BOUND, "no path with the greatest delay was granted");
        due(self.other_holds > 0, "no choice was met again with other hold times");
        missing
    }

    pub fn print(&self) {
        let (with, without) = (count(&self.loaded, &true), count(&self.loaded, &false));
        println!("  hold times      loads with them: {with}  without: {without}");
        for what in WRONG {
            let counts: Vec<String> =
                WRONG_DUE.iter().map(|&number| format!("{number}: {}", count(&self.wrong, &(what, number)))).collect();
            println!("                  {what}: {}", counts.join("  "));
        }
        let (nodes, past) = (count(&self.over, &(true, false)), count(&self.over, &(false, true)));
        println!("                  words over the range: of a node, refused: {nodes}  past the nodes, taken: {past}");
        let counts: Vec<String> =
            BESIDE.iter().map(|(beside, what)| format!("{what}: {}", count(&self.beside, beside))).collect();
        println!("                  answers {}", counts.join("  "));
        let (granted, refused) = (count(&self.folded, &0), count(&self.folded, &10));
        println!("                  the same in the links' delays: granted: {granted}  10: {refused}");
        println!("                  greatest delay granted: {}", self.greatest);
        println!("                  met again with other hold times, same path: {}", self.other_holds);
    }
}
