//! A granted path, judged: which of several best ones it is, is open.

use crate::ledger::Ledger;
use crate::table::Request;

/// What a grant answered.
#[derive(Clone, Debug, PartialEq, Eq)]
pub struct Grant {
    pub problem: u32,
    pub delay: u32,
    pub cost: u32,
    pub path: Vec<u32>,
}

/// An error that says what does not hold.
pub fn require(holds: bool, what: &str) -> Result<(), String> {
    if holds {
        Ok(())
    } else {
        Err(what.to_string())
    }
}

/// Whether a grant is what document 01 allows, where the ledger says problem `problem` with least kept weight `least`.
pub fn grant(ledger: &Ledger, request: &Request, problem: u32, least: u64, grant: &Grant) -> Result<(), String> {
    let path = &grant.path;
    require(ledger.table.is_path(path), "the links are not a path")?;
    let nodes = ledger.table.nodes_along(path).unwrap_or_default();
    require(nodes.first() == Some(&request.s), "the path does not begin at s")?;
    require(nodes.last() == Some(&request.t), "the path does not end at t")?;
    let search = ledger.search(request).ok_or("no usable path exists")?;
    let numbers = || path.iter().map(|&number| number as usize);
    require(numbers().all(|number| search.usable[number]), "a link is not usable")?;
    let held: u64 = nodes[1..nodes.len() - 1].iter().map(|&node| u64::from(ledger.table.holds[node as usize])).sum();
    let delay: u64 = held + numbers().map(|number| u64::from(ledger.table.links[number].delay)).sum::<u64>();
    let cost: u64 = numbers().map(|number| u64::from(ledger.table.links[number].cost)).sum();
    require(
        u64::from(grant.delay) == delay,
        "the delay is not the sum of the links' delays and the inner nodes' hold times",
    )?;
    require(u64::from(grant.cost) == cost, "the cost is not the sum of the links' costs")?;
    require(delay <= u64::from(request.delay_bound), "the delay bound is not met")?;
    require(cost <= u64::from(request.cost_bound), "the cost bound is not met")?;
    require(grant.problem == problem, &format!("problem {} grants it", problem))?;
    let kept = if problem == 1 { delay } else { cost };
    require(kept == least, &format!("the least kept weight is {least}"))?;
    let reduced = search.problem(problem);
    let (_, scaled) = reduced.sums(path);
    require(reduced.within(kept, scaled), "the path does not solve the problem")
}
