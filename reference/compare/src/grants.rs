//! Replies to requests: a refusal has the ledger's number, a grant is judged, and the same network and request always
//! get the same path. Where nodes hold messages, an answer is set beside the one without hold times.

use crate::hold_tally::Beside;
use crate::hold_times::delays;
use crate::memory::Memory;
use crate::station::{refused, Answer, Checked};
use document01::judge::{self, require, Grant};
use document01::ledger::{PATH_WORDS, WORK_WORDS};
use document01::{Ledger, Reply, Rule};
use line::Request;
use std::collections::{BTreeMap, HashMap};

/// All that the choice among equal solutions may depend on besides n and the links' ends and costs: which links are
/// usable, their delays for paths to t, and the request but for its units.
type Asked = (Vec<bool>, Vec<u32>, [u32; 5]);

/// A problem and a path that were granted, and the hold times then.
struct Chosen {
    problem: u32,
    path: Vec<u32>,
    hold_times: Vec<u32>,
}

/// What was granted for each of them, where n and the links' ends and costs are the same.
#[derive(Default)]
pub struct Choices {
    granted: HashMap<Asked, Chosen>,
    /// How often the same was asked again, and how often with other hold times.
    pub repeated: u64,
    pub other_holds: u64,
    /// The answers where nodes hold messages.
    pub beside: BTreeMap<Beside, u64>,
}

impl Choices {
    fn agree(&mut self, ledger: &Ledger, r: &Request, grant: &Grant) -> Result<(), String> {
        let usable = if ledger.rules().hold(Rule::ChoiceByUsable) { ledger.usable(r.units) } else { Vec::new() };
        let request = [r.s, r.t, r.delay_bound, r.cost_bound, r.coefficient];
        let asked = (usable, delays(&ledger.table, r.t), request);
        let hold_times = ledger.table.holds.clone();
        match self.granted.get(&asked) {
            None => {
                let chosen = Chosen { problem: grant.problem, path: grant.path.clone(), hold_times };
                self.granted.insert(asked, chosen);
            }
            Some(Chosen { problem, path, hold_times: before }) => {
                let same = *problem == grant.problem && *path == grant.path;
                require(same, &format!("the same request got problem {problem} and path {path:?} before"))?;
                self.repeated += 1;
                self.other_holds += u64::from(*before != hold_times);
            }
        }
        Ok(())
    }

    /// Sets an answer of a search, a grant or 10, beside what the same request gets where every hold time is 0.
    fn beside(&mut self, ledger: &Ledger, request: &document01::Request, grant: Option<&Grant>) {
        if ledger.table.holds.iter().all(|&time| time == 0) || !ledger.rules().all_hold() {
            return;
        }
        let mut without = ledger.clone();
        without.table.holds.fill(0);
        let beside = match (without.quote(WORK_WORDS, PATH_WORDS, request), grant) {
            (Reply::Refused(_), _) => Beside::Alike,
            (Reply::Granted { .. }, None) => Beside::RefusedInstead,
            (Reply::Granted { problem, least }, Some(grant)) => {
                let delay = grant.path.iter().map(|&link| ledger.table.links[link as usize].delay).sum();
                let same_path = Grant { delay, ..grant.clone() };
                match judge::grant(&without, request, problem, least, &same_path) {
                    Ok(()) => Beside::Alike,
                    Err(_) => Beside::OtherPath,
                }
            }
        };
        *self.beside.entry(beside).or_default() += 1;
    }
}

pub fn document_request(r: &Request) -> document01::Request {
    document01::Request {
        s: r.s,
        t: r.t,
        units: r.units,
        delay_bound: r.delay_bound,
        cost_bound: r.cost_bound,
        coefficient: r.coefficient,
    }
}

pub fn line_request(r: &document01::Request) -> Request {
    Request {
        s: r.s,
        t: r.t,
        units: r.units,
        delay_bound: r.delay_bound,
        cost_bound: r.cost_bound,
        coefficient: r.coefficient,
    }
}

/// What the archive replied, code, answer array and path buffer, against the ledger's reply.
pub fn judged(
    ledger: &Ledger,
    code: u32,
    reply: Reply,
    r: &Request,
    memory: &Memory,
    choices: &mut Choices,
) -> Checked {
    let (problem, least) = match reply {
        Reply::Refused(number) => {
            let answer = refused(code, number, memory)?;
            refusal_is_due(ledger, number, r, choices)?;
            return Ok(answer);
        }
        Reply::Granted { problem, least } => (problem, least),
    };
    require(code == 0, &format!("gave {code}, expected a grant by problem {problem} with {least}"))?;
    let numbers: [u32; 4] = memory.answer.array();
    let links = numbers[3] as usize;
    require((1..=31).contains(&links), &format!("answered {links} links"))?;
    require(memory.out.same_from(links), "a word of the path buffer past the path changed")?;
    let path = memory.out.slice()[..links].to_vec();
    let grant = Grant { problem: numbers[0], delay: numbers[1], cost: numbers[2], path };
    grant_is_due(ledger, (problem, least), r, &grant, choices)?;
    Ok(Answer { code, numbers: numbers.to_vec(), path: grant.path })
}

/// A grant where the ledger says which problem grants and with what least kept weight.
pub fn grant_is_due(
    ledger: &Ledger,
    (problem, least): (u32, u64),
    r: &Request,
    grant: &Grant,
    choices: &mut Choices,
) -> Result<(), String> {
    let request = document_request(r);
    judge::grant(ledger, &request, problem, least, grant).map_err(|why| format!("{grant:?}: {why}"))?;
    choices.agree(ledger, r, grant)?;
    choices.beside(ledger, &request, Some(grant));
    Ok(())
}

/// A refusal that the ledger says.
pub fn refusal_is_due(ledger: &Ledger, number: u32, r: &Request, choices: &mut Choices) -> Result<(), String> {
    no_grant_is_due(ledger, number, r)?;
    if number == 10 {
        choices.beside(ledger, &document_request(r), None);
    }
    Ok(())
}

/// Where a search is refused with 10, no listed path is overqualified.
fn no_grant_is_due(ledger: &Ledger, number: u32, r: &Request) -> Result<(), String> {
    if number != 10 || !ledger.rules().hold_beside(&[Rule::Overqualified]) {
        return Ok(());
    }
    let due = ledger.search(&document_request(r)).is_some_and(|search| search.has_overqualified());
    require(!due, "an overqualified path was not enough")
}
