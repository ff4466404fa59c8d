//! The two reductions: what a request asks of the usable links, and the least kept weight of problem one, else two.

use crate::labels;
use crate::lines::{Edge, Graph};
use crate::paths;
use crate::rules::{Rule, Rules};
use crate::table::{Link, Request, Table};

/// One reduced problem of a search. Problem one keeps delay and scales cost; problem two the other way about.
pub struct Reduced<'a> {
    search: &'a Search<'a>,
    which: u32,
}

impl Reduced<'_> {
    /// The kept and the scaled weight of a link of a path with the inner node behind it, if there is one.
    pub fn weights(&self, number: usize, behind: Option<u32>) -> (u64, u64) {
        let search = self.search;
        let (delay, cost) = (search.delay(number, behind), search.cost(number));
        if self.which == 1 {
            return (delay, search.scale(cost, search.cost_bound()));
        }
        let whole = if search.rules.hold(Rule::HoldScaled) { delay } else { search.link_delay(number) };
        (cost, search.scale(whole, search.delay_bound()))
    }

    /// The sums of a path's kept and scaled weights.
    pub fn sums(&self, path: &[u32]) -> (u64, u64) {
        added(self.search.table.steps(path).map(|(number, behind)| self.weights(number, behind)))
    }

    /// The bound of the kept weight.
    pub fn bound(&self) -> u64 {
        if self.which == 1 {
            self.search.delay_bound()
        } else {
            self.search.cost_bound()
        }
    }

    /// What the paper's lines are given: each usable link with its weights. The node that it enters is an inner one of a
    /// path to t, unless it is t.
    pub fn graph(&self) -> Graph {
        let Search { table, usable, request, x, .. } = self.search;
        let edge = |(number, link): (usize, &Link)| {
            let (kept, scaled) = self.weights(number, (link.to != request.t).then_some(link.to));
            Edge { link: number, u: link.from as usize, v: link.to as usize, kept, scaled }
        };
        let links = table.links.iter().enumerate().filter(|(number, _)| usable[*number]);
        Graph { n: table.n as usize, s: request.s as usize, x: *x, edges: links.map(edge).collect() }
    }

    /// Whether sums of kept and scaled weight are within their bounds.
    pub fn within(&self, kept: u64, scaled: u64) -> bool {
        let bound = self.bound();
        let (x, rules) = (self.search.x, self.search.rules);
        let bound_met = kept < bound || (kept == bound && rules.hold(Rule::EqualBound));
        let x_met = scaled < x || (scaled == x && rules.hold(Rule::EqualScaled));
        bound_met && x_met
    }
}

/// What document 01 says of a search.
#[derive(Clone, Copy, Debug, PartialEq, Eq)]
pub enum Found {
    NoPath,
    NoSolution,
    /// The problem that grants, and the least kept weight among its solutions.
    Best(u32, u64),
}

/// A request on a table, some of whose links are usable.
pub struct Search<'a> {
    pub table: &'a Table,
    pub usable: Vec<bool>,
    pub request: Request,
    pub x: u64,
    listed: Option<Vec<Vec<u32>>>,
    rules: Rules,
}

/// More than any path of links in their ranges is scaled to.
const BARRED: u64 = 1 << 40;

/// The sums of pairs of weights.
fn added(weights: impl Iterator<Item = (u64, u64)>) -> (u64, u64) {
    weights.fold((0, 0), |sums, more| (sums.0 + more.0, sums.1 + more.1))
}

impl<'a> Search<'a> {
    /// Looks for the distance; nothing where no usable path exists.
    pub fn new(table: &'a Table, usable: Vec<bool>, request: Request, rules: Rules) -> Option<Search<'a>> {
        let listed = paths::every(table, &usable, request.s, request.t);
        Search::by(table, usable, request, rules, listed)
    }

    /// The same where no list of paths is wanted.
    pub fn unlisted(table: &'a Table, usable: Vec<bool>, request: Request, rules: Rules) -> Option<Search<'a>> {
        Search::by(table, usable, request, rules, None)
    }

    fn by(
        table: &'a Table,
        usable: Vec<bool>,
        request: Request,
        rules: Rules,
        listed: Option<Vec<Vec<u32>>>,
    ) -> Option<Search<'a>> {
        let fewest = match &listed {
            Some(paths) => paths.iter().map(|path| path.len() as u32).min()?,
            None => labels::distance(table, &usable, request.s, request.t)?,
        };
        let everything = vec![true; table.links.len()];
        let distance = if rules.hold(Rule::DistanceOfUsable) {
            fewest
        } else {
            labels::distance(table, &everything, request.s, request.t)?
        };
        let x = u64::from(request.coefficient) * u64::from(distance);
        Some(Search { table, usable, request, x, listed, rules })
    }

    fn delay_bound(&self) -> u64 {
        u64::from(self.request.delay_bound)
    }

    fn cost_bound(&self) -> u64 {
        u64::from(self.request.cost_bound)
    }

    fn link_delay(&self, number: usize) -> u64 {
        u64::from(self.table.links[number].delay)
    }

    /// The delay of a link of a path and the hold time of the inner node behind it, if there is one.
    fn delay(&self, number: usize, behind: Option<u32>) -> u64 {
        let link = &self.table.links[number];
        let behind = if self.rules.hold(Rule::NotHeldAtTarget) { behind } else { Some(link.to) };
        let at = if self.rules.hold(Rule::HoldOfInnerNode) { behind } else { behind.map(|_| link.from) };
        self.link_delay(number) + at.map_or(0, |node| u64::from(self.table.holds[node as usize]))
    }

    fn cost(&self, number: usize) -> u64 {
        u64::from(self.table.links[number].cost)
    }

    /// The delay and the cost of a path.
    fn totals(&self, path: &[u32]) -> (u64, u64) {
        added(self.table.steps(path).map(|(number, behind)| (self.delay(number, behind), self.cost(number))))
    }

    /// Formula 1, for a weight of a link. Where nothing may be spent there is nothing to scale: a link that weighs something
    /// is barred, by a weight that no path can have, and the others are free.
    fn scale(&self, weight: u64, bound: u64) -> u64 {
        if bound == 0 {
            return match weight {
                0 => 0,
                _ if !self.rules.hold(Rule::ZeroBinds) => 0,
                _ if !self.rules.hold(Rule::ZeroOverX) => self.x,
                _ if !self.rules.hold(Rule::ZeroIsNotOne) => weight * self.x,
                _ => BARRED,
            };
        }
        if self.rules.hold(Rule::RoundUp) {
            (weight * self.x).div_ceil(bound)
        } else {
            weight * self.x / bound
        }
    }

    pub fn problem(&self, which: u32) -> Reduced<'_> {
        Reduced { search: self, which }
    }

    /// The least kept weight of a problem's solutions: by all paths where they are listed, else by labels.
    fn least(&self, which: u32) -> Option<u64> {
        let problem = self.problem(which);
        let (s, t) = (self.request.s, self.request.t);
        let Some(paths) = &self.listed else {
            return labels::least(self.table, &self.usable, s, t, &problem);
        };
        let kept = paths.iter().filter_map(|path| self.solution(&problem, path));
        let least = if self.rules.hold(Rule::LeastKept) { kept.min() } else { kept.max() };
        if self.rules.all_hold() {
            // The two methods answer alike wherever both can be used.
            assert_eq!(least, labels::least(self.table, &self.usable, s, t, &problem));
        }
        least
    }

    /// The kept weight of a path that solves a problem.
    fn solution(&self, problem: &Reduced, path: &[u32]) -> Option<u64> {
        let (kept, each_scaled) = problem.sums(path);
        let scaled_once = || match (problem.which, self.totals(path)) {
            (1, (_, cost)) => self.scale(cost, self.cost_bound()),
            (_, (delay, _)) => self.scale(delay, self.delay_bound()),
        };
        let scaled = if self.rules.hold(Rule::ScaleEachLink) { each_scaled } else { scaled_once() };
        problem.within(kept, scaled).then_some(kept)
    }

    /// Section 2.3: the second problem is tried only if the first has no solution.
    pub fn found(&self) -> Found {
        let order = if self.rules.hold(Rule::ProblemOneFirst) { [1, 2] } else { [2, 1] };
        let tried = if self.rules.hold(Rule::ProblemTwoToo) { &order[..] } else { &order[..1] };
        let best = tried.iter().find_map(|&which| self.least(which).map(|least| Found::Best(which, least)));
        best.unwrap_or(Found::NoSolution)
    }

    /// Whether a listed path is overqualified: within both bounds, one of them with weight·x + l·bound ≤ (x+1)·bound.
    /// Then a grant is due.
    pub fn has_overqualified(&self) -> bool {
        let (delay_bound, cost_bound) = (self.delay_bound(), self.cost_bound());
        let most = self.x + if self.rules.hold(Rule::Overqualified) { 1 } else { 2 };
        let qualifies = |weight: u64, links: usize, bound: u64| weight * self.x + links as u64 * bound <= most * bound;
        self.listed.iter().flatten().any(|path| {
            let (delay, cost) = self.totals(path);
            delay <= delay_bound
                && cost <= cost_bound
                && (qualifies(cost, path.len(), cost_bound) || qualifies(delay, path.len(), delay_bound))
        })
    }
}
