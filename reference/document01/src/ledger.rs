//! Document 01's ledger: entries of circuit number, units and path, and what it says of each call.

use crate::problems::{Found, Search};
use crate::rules::{Rule, Rules};
use crate::table::{Request, Table, MOST_UNITS};

pub const WORK_WORDS: usize = 16_384;
pub const PATH_WORDS: usize = 31;
pub const MOST_HELD: usize = 64;

#[derive(Clone, Debug, PartialEq, Eq, PartialOrd, Ord)]
pub struct Entry {
    pub number: u32,
    pub units: u32,
    pub path: Vec<u32>,
}

#[derive(Clone, Debug)]
pub struct Ledger {
    pub table: Table,
    /// As they were admitted, or as they stood in the area that was read.
    pub entries: Vec<Entry>,
    rules: Rules,
    /// Entries whose units are still taken though they went: none, unless a rule is broken.
    unfreed: Vec<Entry>,
    /// How many of the last entries came by the call that is being made: it may make several.
    pub(crate) by_this_call: usize,
}

/// Refused with a number, or granted: the problem, and the least kept weight among its solutions.
#[derive(Clone, Copy, Debug, PartialEq, Eq)]
pub enum Reply {
    Refused(u32),
    Granted { problem: u32, least: u64 },
}

impl Ledger {
    pub fn new(table: Table, rules: Rules) -> Ledger {
        Ledger { table, entries: Vec::new(), rules, unfreed: Vec::new(), by_this_call: 0 }
    }

    pub fn rules(&self) -> Rules {
        self.rules
    }

    pub fn holds(&self, number: u32) -> bool {
        self.seen(Rule::JobsSeeNumbers).iter().any(|entry| entry.number == number)
    }

    /// The entries that are looked at: with this rule broken, those of earlier calls alone.
    fn seen(&self, rule: Rule) -> &[Entry] {
        let unseen = if self.rules.hold(rule) { 0 } else { self.by_this_call };
        &self.entries[..self.entries.len() - unseen]
    }

    /// Every link's free units: its capacity less the units of all entries whose path uses it.
    pub fn free(&self) -> Vec<i64> {
        let mut free: Vec<i64> = self.table.links.iter().map(|link| i64::from(link.capacity)).collect();
        let admitted = self.seen(Rule::JobsSeeUnits).iter().filter(|_| self.rules.hold(Rule::AdmissionTakes));
        for entry in admitted.chain(&self.unfreed) {
            for &link in &entry.path {
                free[link as usize] -= i64::from(entry.units);
            }
        }
        free
    }

    pub fn usable(&self, units: u32) -> Vec<bool> {
        let needed = i64::from(units) + i64::from(!self.rules.hold(Rule::EqualUnits));
        self.free().iter().map(|&free| free >= needed).collect()
    }

    /// The search that a request within its ranges starts, or nothing where no usable path exists.
    pub fn search(&self, request: &Request) -> Option<Search<'_>> {
        Search::new(&self.table, self.usable(request.units), *request, self.rules)
    }

    /// The same where no list of paths is wanted.
    pub fn unlisted(&self, request: &Request) -> Option<Search<'_>> {
        Search::unlisted(&self.table, self.usable(request.units), *request, self.rules)
    }

    /// 9 and 10, else a grant.
    fn searched(&self, request: &Request) -> Reply {
        match self.search(request).map_or(Found::NoPath, |search| search.found()) {
            Found::NoPath => Reply::Refused(9),
            Found::NoSolution => Reply::Refused(10),
            Found::Best(problem, least) => Reply::Granted { problem, least },
        }
    }

    /// 6, 7 and 8.
    fn request_refused(&self, work: usize, path: usize, request: &Request) -> Option<u32> {
        if work < WORK_WORDS {
            Some(6)
        } else if path < PATH_WORDS {
            Some(7)
        } else if !request.in_range(self.table.n, self.rules) {
            Some(8)
        } else {
            None
        }
    }

    /// 11 and 12.
    fn number_refused(&self, number: u32) -> Option<u32> {
        if !(1..=MOST_UNITS).contains(&number) || self.holds(number) {
            Some(11)
        } else if self.entries.len() >= MOST_HELD {
            Some(12)
        } else {
            None
        }
    }

    pub fn quote(&self, work: usize, path: usize, request: &Request) -> Reply {
        match self.request_refused(work, path, request) {
            Some(number) => Reply::Refused(number),
            None => self.searched(request),
        }
    }

    pub fn admission(&self, work: usize, path: usize, number: u32, request: &Request) -> Reply {
        if let Some(number) = self.request_refused(work, path, request) {
            return Reply::Refused(number);
        }
        let refused = self.number_refused(number).map(Reply::Refused);
        if self.rules.hold(Rule::NumberBeforeSearch) {
            return refused.unwrap_or_else(|| self.searched(request));
        }
        match self.searched(request) {
            Reply::Granted { .. } if refused.is_some() => refused.unwrap(),
            reply => reply,
        }
    }

    /// A granted admission adds its number, its units and the path that was answered.
    pub fn admit(&mut self, number: u32, units: u32, path: &[u32]) {
        self.entries.push(Entry { number, units, path: path.to_vec() });
    }

    /// 13, else the entry with this number goes.
    pub fn release(&mut self, number: u32) -> Result<(), u32> {
        let at = self.entries.iter().position(|entry| entry.number == number).ok_or(13u32)?;
        let entry = self.entries.remove(at);
        if !self.rules.hold(Rule::ReleaseFrees) {
            self.unfreed.push(entry);
        }
        Ok(())
    }

    /// 14, else the held numbers, rising.
    pub fn listing(&self, room: usize) -> Result<Vec<u32>, u32> {
        if room < self.entries.len() {
            return Err(14);
        }
        let mut numbers: Vec<u32> = self.entries.iter().map(|entry| entry.number).collect();
        if self.rules.hold(Rule::ListedByNumber) {
            numbers.sort_unstable();
        }
        Ok(numbers)
    }

    /// 15, else the link's free units.
    pub fn free_units(&self, link: u32) -> Result<i64, u32> {
        self.free().get(link as usize).copied().ok_or(15)
    }

    /// The entries by rising number.
    pub fn by_number(&self) -> Vec<&Entry> {
        let mut entries: Vec<&Entry> = self.entries.iter().collect();
        entries.sort_by_key(|entry| entry.number);
        entries
    }

    /// The bookings, in an order that does not depend on when they were made.
    pub fn bookings(&self) -> Vec<Entry> {
        let mut entries = self.entries.clone();
        entries.sort();
        entries
    }
}
