//! What a run has seen: how often each call gave each number, and which fields were damaged with what effect.

use crate::class_tables::{ends, COUNTS, RANGES};
use crate::damage::{Field, FIELDS};
use crate::hold_tally::HoldTally;
use crate::opening::ALL_JOBS;
use crate::opening_tally::OpeningTally;
use crate::order_tally::OrderTally;
use crate::table_tally::TableTally;
use std::collections::{BTreeMap, BTreeSet};

#[derive(Clone, Default)]
pub struct Tally {
    pub calls: u64,
    pub replayed: u64,
    numbers: BTreeMap<(&'static str, u32), u64>,
    damaged: BTreeMap<(Field, bool), u64>,
    /// Word counts of class tables; places of a row with a number at or past an end of its range, which decided.
    counts: BTreeSet<usize>,
    row_ends: BTreeSet<(usize, u32)>,
    /// Classes of an accepted table, by how far they are from its row count: below, at and past it.
    classes: BTreeSet<i64>,
    problems: [u64; 3],
    /// Requests that passed the checks with a bound of 0: for D, for C or for both, and which problem granted, or 0.
    zero_bounds: BTreeMap<((bool, bool), u32), u64>,
    /// The links of the longest path that was granted, and the grants among 256 links.
    longest: usize,
    full: u64,
    /// Quotes and admissions whose network and request came before: they had to get the same path.
    pub repeated: u64,
    pub holds: HoldTally,
    pub opening: OpeningTally,
    pub order: OrderTally,
    pub tables: TableTally,
}

/// Every number that the papers give a call, 0 for a grant.
const DUE: [(&str, &[u32]); 11] = [
    ("load", &[0, 1, 2, 3, 4, 22]),
    ("quote", &[0, 5, 6, 7, 8, 9, 10]),
    ("admit", &[0, 5, 6, 7, 8, 11, 12, 9, 10]),
    ("release", &[0, 5, 13]),
    (ALL_JOBS, &[0, 5, 6, 23, 24]),
    ("list", &[0, 5, 14]),
    ("free units", &[0, 5, 15]),
    ("check classes", &[0, 20, 21]),
    ("class", &[0, 20, 21, 16]),
    ("sample classes", &[0]),
    ("read link file", &[0, 17, 18, 19]),
];

/// What has to come up where D, C or both are 0. A job that may cost nothing is never granted by problem two.
const ZERO_BOUNDS: [((bool, bool), &str, &[u32]); 3] =
    [((true, false), "D = 0", &[0, 1, 2]), ((false, true), "C = 0", &[0, 1]), ((true, true), "both 0", &[0, 1])];

impl Tally {
    pub fn saw(&mut self, call: &'static str, number: u32) {
        self.calls += 1;
        *self.numbers.entry((call, number)).or_default() += 1;
    }

    /// A grant by this problem, of a path of so many links in a table of so many.
    pub fn granted(&mut self, problem: u32, path: usize, table: usize) {
        self.problems[problem as usize] += 1;
        self.longest = self.longest.max(path);
        self.full += u64::from(table == 256);
    }

    /// A search that ended: with a grant by this problem, or with 0 for a refusal by 10.
    pub fn searched(&mut self, delay_bound: u32, cost_bound: u32, problem: u32) {
        let zero = (delay_bound == 0, cost_bound == 0);
        if zero != (false, false) {
            *self.zero_bounds.entry((zero, problem)).or_default() += 1;
        }
    }

    pub fn damaged(&mut self, field: Field, formed: bool) {
        *self.damaged.entry((field, formed)).or_default() += 1;
    }

    /// A class table that the check gave this number. One number alone is at an end where all others are 1.
    pub fn class_table(&mut self, words: &[u32], number: u32) {
        self.counts.insert(words.len());
        let mut others = words.iter().enumerate().filter(|(_, &word)| word != 1);
        if let (Some((place, &word)), None) = (others.next(), others.next()) {
            let out = word < RANGES[place % 4].0 || word > RANGES[place % 4].1;
            if number == if out { 21 } else { 0 } {
                self.row_ends.insert((place % 4, word));
            }
        }
    }

    pub fn class_of(&mut self, class: usize, rows: usize, number: u32) {
        if matches!(number, 0 | 16) {
            self.classes.insert((class as i64 - rows as i64).clamp(-2, 2));
        }
    }

    pub fn add(&mut self, other: &Tally) {
        self.holds.add(&other.holds);
        self.opening.add(&other.opening);
        self.order.add(&other.order);
        self.tables.add(&other.tables);
        self.counts.extend(&other.counts);
        self.row_ends.extend(&other.row_ends);
        self.classes.extend(&other.classes);
        self.calls += other.calls;
        self.replayed += other.replayed;
        self.repeated += other.repeated;
        self.longest = self.longest.max(other.longest);
        self.full += other.full;
        for (key, count) in &other.zero_bounds {
            *self.zero_bounds.entry(*key).or_default() += count;
        }
        for (key, count) in &other.numbers {
            *self.numbers.entry(*key).or_default() += count;
        }
        for (key, count) in &other.damaged {
            *self.damaged.entry(*key).or_default() += count;
        }
        for (problem, count) in other.problems.iter().enumerate() {
            self.problems[problem] += count;
        }
    }

    /// What a whole run ought to have seen and has not.
    pub fn missing(&self) -> Vec<String> {
        let mut missing = self.missing_numbers();
        missing.extend(self.missing_rows());
        missing.extend(self.missing_grants());
        missing.extend(self.holds.missing());
        missing.extend(self.opening.missing());
        missing.extend(self.order.missing());
        missing.extend(self.tables.missing());
        missing
    }

    /// Numbers of calls, and damaged fields.
    fn missing_numbers(&self) -> Vec<String> {
        let mut missing = Vec::new();
        for (call, numbers) in DUE {
            for &number in numbers.iter().filter(|&&number| !self.numbers.contains_key(&(call, number))) {
                missing.push(format!("{call} never gave {number}"));
            }
        }
        for field in FIELDS {
            if field.may_spoil() && !self.damaged.contains_key(&(field, false)) {
                missing.push(format!("{field:?} damaged never gave 5"));
            }
            if field.may_stay() && !self.damaged.contains_key(&(field, true)) {
                missing.push(format!("{field:?} damaged never stayed well formed"));
            }
        }
        missing
    }

    /// Word counts, ends and classes of class tables.
    fn missing_rows(&self) -> Vec<String> {
        let mut missing = Vec::new();
        for count in COUNTS.iter().filter(|count| !self.counts.contains(count)) {
            missing.push(format!("no class table had {count} words"));
        }
        for place in 0..4 {
            for end in ends(place).iter().filter(|&&end| end != 1 && !self.row_ends.contains(&(place, end))) {
                missing.push(format!("no class table was decided by a {end} in place {place} of a row"));
            }
        }
        for class in (-2..=2).filter(|class| !self.classes.contains(class)) {
            missing.push(format!("no class was {class} from the row count"));
        }
        missing
    }

    /// Problems, outcomes with bounds of 0, and the longest path.
    fn missing_grants(&self) -> Vec<String> {
        let mut missing = Vec::new();
        for problem in [1, 2] {
            if self.problems[problem] == 0 {
                missing.push(format!("problem {problem} never granted"));
            }
        }
        for (bounds, name, outcomes) in ZERO_BOUNDS {
            for outcome in outcomes.iter().filter(|&&outcome| !self.zero_bounds.contains_key(&(bounds, outcome))) {
                missing.push(format!(
                    "no request with {name} was {}",
                    ["refused with 10", "granted by one", "granted by two"][*outcome as usize]
                ));
            }
        }
        if self.longest < 31 || self.full == 0 {
            missing.push("no path of 31 links was granted, or none among 256 links".to_string());
        }
        missing
    }

    pub fn print(&self) {
        for (call, numbers) in DUE {
            let counts: Vec<String> = numbers
                .iter()
                .map(|&number| format!("{number}: {}", self.numbers.get(&(call, number)).unwrap_or(&0)))
                .collect();
            println!("  {call:<15}{}", counts.join("  "));
        }
        let spoilt: u64 = self.damaged.iter().filter(|((_, formed), _)| !formed).map(|(_, count)| count).sum();
        let formed: u64 = self.damaged.iter().filter(|((_, formed), _)| *formed).map(|(_, count)| count).sum();
        println!("  damaged areas   not well formed: {spoilt}  still well formed: {formed}");
        println!("  grants          problem one: {}  problem two: {}", self.problems[1], self.problems[2]);
        for (bounds, name, outcomes) in ZERO_BOUNDS {
            let counts: Vec<String> = outcomes
                .iter()
                .map(|&outcome| self.zero_bounds.get(&(bounds, outcome)).unwrap_or(&0).to_string())
                .collect();
            println!("  {name:<16}refused, by one and by two: {}", counts.join("  "));
        }
        println!("                  among 256 links: {}  most links of a path: {}", self.full, self.longest);
        self.holds.print();
        self.opening.print();
        self.order.print();
        self.tables.print();
        println!("  same network and request again, same path: {}", self.repeated);
        println!("  calls replayed with the quotes struck: {}", self.replayed);
    }
}
