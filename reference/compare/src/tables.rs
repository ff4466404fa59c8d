//! The table that a search leaves in work memory, held against the paper's lines. Where d[v, k] is within the kept bound
//! the words are that d and π, everywhere else the number is over the bound. Where a rule is broken that is not one of
//! the lines' own, nothing is looked at here, so that each such fault must show elsewhere.

use crate::grants::document_request;
use crate::memory::Memory;
use crate::station::Answer;
use crate::table_tally::{Entry, TableTally};
use document01::judge::require;
use document01::lines::{ebf, least_of_paths, Graph, Lines};
use document01::problems::Search;
use document01::{Ledger, Rule, Rules};
use line::Request;
use seeded::Random;

/// The word for NIL, which no link has for its number.
const NIL: u32 = 256;

/// A table of at most so many steps is set beside all paths and other ways to make it, once in so many times.
const FEW_STEPS: usize = 40_000;
const ONE_IN: u32 = 8;

/// Other ways to make a table: by lines with one rule broken. A run must have seen that each makes another one.
pub const OTHER_WAYS: [(Rule, &str); 4] = [
    (Rule::LinksRise, "links falling"),
    (Rule::KRises, "k falling"),
    (Rule::LessAlone, "equal sums taken"),
    (Rule::EveryRound, "a round fewer"),
];

/// One request in so many, drawn by its own numbers, so that it is the same one where other calls are left out.
fn is_drawn(r: &Request) -> bool {
    let numbers = [r.s, r.t, r.units, r.delay_bound, r.cost_bound, r.coefficient];
    let seed = numbers.iter().fold(0, |seed, &number| Random::new(seed ^ u64::from(number)).double_word());
    Random::new(seed).one_in(ONE_IN)
}

/// After a grant or a 10: the table is that of the problem that granted, else of problem two, which was tried last.
pub fn agree(
    ledger: &Ledger,
    r: &Request,
    answer: &Answer,
    memory: &mut Memory,
    tally: &mut TableTally,
) -> Result<(), String> {
    let rules = ledger.rules();
    if !matches!(answer.code, 0 | 10) || !rules.hold_beside(&Rule::OF_LINES) {
        return Ok(());
    }
    let search = ledger.unlisted(&document_request(r)).ok_or("no usable path exists")?;
    let problem = answer.numbers.first().copied().unwrap_or(2);
    let reduced = search.problem(problem);
    let (graph, bound) = (reduced.graph(), reduced.bound());
    let lines = ebf(&graph, rules);
    let table = Table { problem, bound, graph: &graph, lines: &lines, rules };
    table.agrees(memory, tally)?;
    let other_x = memory.table.replace(graph.x).is_some_and(|x| x != graph.x);
    tally.table(problem, table.entries().count(), other_x);
    let steps = (graph.n - 1) * (graph.x as usize + 1) * graph.edges.len();
    if steps <= FEW_STEPS && is_drawn(r) && rules.all_hold() {
        table.beside_paths(&search, tally)?;
        table.beside_others(tally);
    }
    Ok(())
}

/// What the lines leave for one problem of a search.
struct Table<'a> {
    problem: u32,
    bound: u64,
    graph: &'a Graph,
    lines: &'a Lines,
    rules: Rules,
}

impl Table<'_> {
    fn entries(&self) -> impl Iterator<Item = (usize, usize)> {
        let x = self.graph.x as usize;
        (0..self.graph.n).flat_map(move |v| (0..=x).map(move |k| (v, k)))
    }

    /// Work memory, entry by entry: a number and a link each.
    fn agrees(&self, memory: &Memory, tally: &mut TableTally) -> Result<(), String> {
        let (words, before) = (memory.work.slice(), memory.work.before());
        for (at, (v, k)) in self.entries().enumerate() {
            let (number, link) = (2 * at, 2 * at + 1);
            let entry = self.entry(v, k);
            tally.entry(self.problem, entry);
            let wrong = |what: &str, at: usize, expected: &str| {
                Err(format!(
                    "problem {}, bound {}: {what}[{v}, {k}], word {at} of work memory, is {}, expected {expected}",
                    self.problem, self.bound, words[at]
                ))
            };
            let Some(d) = self.lines.d[v][k].filter(|&d| d <= self.bound) else {
                if u64::from(words[number]) <= self.bound {
                    return wrong("d", number, "one over the bound");
                }
                continue;
            };
            if u64::from(words[number]) != d {
                return wrong("d", number, &d.to_string());
            }
            let expected = match self.lines.pi[v][k] {
                Some(link) => link as u32,
                None if self.rules.hold(Rule::NilAtSource) => NIL,
                None => before[link],
            };
            if words[link] != expected {
                return wrong("π", link, &expected.to_string());
            }
            if v == self.graph.s && before[link] != NIL {
                tally.source();
            }
            if k == self.graph.x as usize && self.lines.d[v][k - 1] != Some(d) {
                tally.last_column();
            }
        }
        Ok(())
    }

    fn entry(&self, v: usize, k: usize) -> Entry {
        match self.lines.d[v][k] {
            None => Entry::Infinite,
            Some(d) if d > self.bound => Entry::Over,
            Some(d) if d == self.bound => Entry::AtBound,
            Some(_) => Entry::Below,
        }
    }

    /// Where every path can be listed, d[v, k] is the least kept weight of those with a scaled weight of at most k. And
    /// π leads there by a link from an entry with the rest of both weights, or is NIL at s and where d is ∞.
    fn beside_paths(&self, search: &Search, tally: &mut TableTally) -> Result<(), String> {
        if let Some(least) = least_of_paths(search.table, &search.usable, self.graph) {
            require(self.lines.d == least, "the paper's lines leave another d than the paths that are there")?;
            tally.by_paths();
        }
        let leads = |v: usize, k: usize| match self.lines.pi[v][k] {
            None => v == self.graph.s || self.lines.d[v][k].is_none(),
            Some(link) => self.graph.edges.iter().any(|edge| {
                let rest = (k as u64).checked_sub(edge.scaled).and_then(|rest| self.lines.d[edge.u][rest as usize]);
                let sum = rest.map(|d| d + edge.kept);
                edge.link == link && edge.v == v && sum.is_some() && sum == self.lines.d[v][k]
            }),
        };
        require(self.entries().all(|(v, k)| leads(v, k)), "a π of the paper's lines does not lead to its entry")
    }

    /// In which other ways to make it the table would be another one within the bound.
    fn beside_others(&self, tally: &mut TableTally) {
        let within = |lines: &Lines, (v, k): (usize, usize)| {
            let d = lines.d[v][k].filter(|&d| d <= self.bound);
            d.map(|d| (d, lines.pi[v][k]))
        };
        for (way, (rule, _)) in OTHER_WAYS.into_iter().enumerate() {
            let other = ebf(self.graph, Rules::without(rule));
            let is_other = self.entries().any(|at| within(self.lines, at) != within(&other, at));
            tally.beside(way, self.graph.n, is_other);
        }
    }
}
