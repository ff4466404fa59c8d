//! What a run has seen of the tables that searches leave in work memory.

use crate::tables::OTHER_WAYS;
use document01::Rule;

/// An entry by what the paper's lines leave there, beside the kept bound.
#[derive(Clone, Copy, Debug, PartialEq, Eq)]
pub enum Entry {
    Below,
    AtBound,
    Over,
    Infinite,
}

const ENTRIES: [(Entry, &str); 4] = [
    (Entry::Below, "below the bound"),
    (Entry::AtBound, "at the bound"),
    (Entry::Over, "over it"),
    (Entry::Infinite, "∞"),
];

/// The most entries that a table can have: of 32 nodes with every k up to 248.
const MOST_ENTRIES: usize = 7_968;

/// The last round must have been needed on a network of so many nodes.
const NODES: usize = 32;

#[derive(Clone, Default)]
pub struct TableTally {
    /// By the problem: tables that were looked at, and their entries.
    tables: [u64; 2],
    entries: [[u64; 4]; 2],
    /// The most entries of one.
    largest: usize,
    /// Those that stand where an earlier call left one of another x.
    other_x: u64,
    /// Entries of the source where another word than NIL stood.
    sources: u64,
    /// Entries of the last column that weigh less than those before them.
    last_column: u64,
    /// Tables that were set beside all paths, and in how many of them each other way makes another one within the bound.
    by_paths: u64,
    others: [u64; OTHER_WAYS.len()],
    /// The most nodes of a network where one round fewer does.
    nodes: usize,
}

impl TableTally {
    pub fn table(&mut self, problem: u32, entries: usize, other_x: bool) {
        self.tables[problem as usize - 1] += 1;
        self.largest = self.largest.max(entries);
        self.other_x += u64::from(other_x);
    }

    pub fn entry(&mut self, problem: u32, entry: Entry) {
        self.entries[problem as usize - 1][entry as usize] += 1;
    }

    pub fn source(&mut self) {
        self.sources += 1;
    }

    pub fn last_column(&mut self) {
        self.last_column += 1;
    }

    pub fn by_paths(&mut self) {
        self.by_paths += 1;
    }

    /// A table of so many nodes, and whether this other way makes another one.
    pub fn beside(&mut self, way: usize, nodes: usize, is_other: bool) {
        self.others[way] += u64::from(is_other);
        if is_other && OTHER_WAYS[way].0 == Rule::EveryRound {
            self.nodes = self.nodes.max(nodes);
        }
    }

    pub fn add(&mut self, other: &TableTally) {
        let sum = |to: &mut [u64], from: &[u64]| to.iter_mut().zip(from).for_each(|(to, from)| *to += from);
        sum(&mut self.tables, &other.tables);
        sum(self.entries.as_flattened_mut(), other.entries.as_flattened());
        sum(&mut self.others, &other.others);
        self.largest = self.largest.max(other.largest);
        self.other_x += other.other_x;
        self.sources += other.sources;
        self.last_column += other.last_column;
        self.by_paths += other.by_paths;
        self.nodes = self.nodes.max(other.nodes);
    }

    /// What a whole run ought to have seen and has not.
    pub fn missing(&self) -> Vec<String> {
        let mut missing = Vec::new();
        let mut due = |seen: bool, what: &str| missing.extend((!seen).then(|| what.to_string()));
        for problem in [1, 2] {
            due(self.tables[problem - 1] > 0, &format!("no table of problem {problem} was looked at"));
            for (entry, name) in ENTRIES {
                let seen = self.entries[problem - 1][entry as usize] > 0;
                due(seen, &format!("no entry of problem {problem} was {name}"));
            }
        }
        due(self.largest == MOST_ENTRIES, "no table of the most entries was looked at");
        due(self.other_x > 0, "no table stood where one of another x had been left");
        due(self.sources > 0, "no NIL stood at a source where another word had been");
        due(self.last_column > 0, "no entry of the last column weighed less than those before it");
        due(self.by_paths > 0, "no table was set beside all paths");
        for ((_, name), &count) in OTHER_WAYS.iter().zip(&self.others) {
            due(count > 0, &format!("no table would have been another one with {name}"));
        }
        due(self.nodes >= NODES, &format!("the last round was never needed on {NODES} nodes"));
        missing
    }

    pub fn print(&self) {
        let [one, two] = self.tables;
        println!("  tables          problem one: {one}  problem two: {two}  most entries: {}", self.largest);
        for (problem, name) in ["one", "two"].into_iter().enumerate() {
            let count = |entry| self.entries[problem][entry as usize];
            let counts: Vec<String> =
                ENTRIES.iter().map(|&(entry, what)| format!("{what}: {}", count(entry))).collect();
            println!("                  entries of problem {name} {}", counts.join("  "));
        }
        let (sources, last) = (self.sources, self.last_column);
        println!("                  NIL over another word: {sources}  less in the last column alone: {last}");
        println!("                  where one of another x was left: {}", self.other_x);
        let others = OTHER_WAYS.iter().zip(&self.others);
        let counts: Vec<String> = others.map(|((_, name), count)| format!("{name}: {count}")).collect();
        println!("                  of {} beside all paths, others with {}", self.by_paths, counts.join("  "));
        println!("                  most nodes where the last round was needed: {}", self.nodes);
    }
}
