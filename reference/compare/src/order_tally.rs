//! What a run has seen of the order of circuits.

use crate::damage::Field;
use crate::opening::ALL_JOBS;
use document01::area::{CIRCUIT_WORDS, FIRST_CIRCUIT};
use document01::ledger::PATH_WORDS;
use std::collections::{BTreeMap, BTreeSet};

/// Where a circuit stands, by whether others stand before it and behind it.
const PLACES: [((bool, bool), &str); 4] = [
    ((false, false), "alone"),
    ((false, true), "before all others"),
    ((true, false), "behind all others"),
    ((true, true), "between others"),
];

/// The calls by which circuits come and go.
const CALLS: [&str; 3] = ["admit", ALL_JOBS, "release"];

/// Damage that always gives 5, and damage that never does.
const DUE: [(Field, &str); 4] = [
    (Field::Exchanged, "two neighbours exchanged"),
    (Field::Twice, "a number twice"),
    (Field::UnusedPath, "an unused path word"),
    (Field::PastCircuits, "a word past the last circuit"),
];

#[derive(Clone, Default)]
pub struct OrderTally {
    /// Granted admissions, singly and all in one call, and releases, by where that circuit stands.
    booked: BTreeMap<(&'static str, (bool, bool)), u64>,
    /// Admissions that put a 0 where another word stood.
    cleared: u64,
    /// Listings in another order than that of admission.
    other_order: u64,
    damaged: BTreeMap<Field, u64>,
    /// Which of a circuit's path words were unused, not 0, and gave 5.
    unused: BTreeSet<usize>,
}

impl OrderTally {
    /// A granted admission or release of this circuit, and the numbers that are held after it.
    pub fn booked(&mut self, call: &'static str, number: u32, held: impl Iterator<Item = u32> + Clone) {
        let place = (held.clone().any(|other| other < number), held.clone().any(|other| other > number));
        *self.booked.entry((call, place)).or_default() += 1;
    }

    pub fn cleared(&mut self) {
        self.cleared += 1;
    }

    pub fn other_order(&mut self) {
        self.other_order += 1;
    }

    /// An area that was changed at this place and was answered as the damage asks for.
    pub fn damaged(&mut self, field: Field, place: usize) {
        *self.damaged.entry(field).or_default() += 1;
        if field == Field::UnusedPath {
            self.unused.insert((place - FIRST_CIRCUIT) % CIRCUIT_WORDS - 3);
        }
    }

    pub fn add(&mut self, other: &OrderTally) {
        for (key, count) in &other.booked {
            *self.booked.entry(*key).or_default() += count;
        }
        for (key, count) in &other.damaged {
            *self.damaged.entry(*key).or_default() += count;
        }
        self.cleared += other.cleared;
        self.other_order += other.other_order;
        self.unused.extend(&other.unused);
    }

    /// What a whole run ought to have seen and has not.
    pub fn missing(&self) -> Vec<String> {
        let mut missing = Vec::new();
        let mut due = |seen: bool, what: &str| missing.extend((!seen).then(|| what.to_string()));
        for call in CALLS {
            for (place, name) in PLACES {
                due(self.booked.contains_key(&(call, place)), &format!("no {call} of a circuit {name}"));
            }
        }
        due(self.cleared > 0, "no admission put a 0 where another word stood");
        due(self.other_order > 0, "no listing was in another order than that of admission");
        for (field, what) in DUE {
            due(self.damaged.contains_key(&field), &format!("no area was changed by {what}"));
        }
        for place in (1..PATH_WORDS).filter(|place| !self.unused.contains(place)) {
            due(false, &format!("no unused path word {place} of a circuit gave 5"));
        }
        missing
    }

    pub fn print(&self) {
        let mut heading = "circuits";
        for call in CALLS {
            let count = |place| self.booked.get(&(call, place)).unwrap_or(&0);
            let counts: Vec<String> = PLACES.iter().map(|&(place, name)| format!("{name}: {}", count(place))).collect();
            println!("  {heading:<16}{call}: {}", counts.join("  "));
            heading = "";
        }
        println!("                  words cleared by an admission: {}", self.cleared);
        println!("                  listed in another order than admitted: {}", self.other_order);
        for (field, what) in DUE {
            let answered = if field.may_spoil() { "gave 5" } else { "was taken" };
            println!("                  {what} {answered}: {}", self.damaged.get(&field).unwrap_or(&0));
        }
    }
}
