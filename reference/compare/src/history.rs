//! A case run on the archive, then run once more with its quotes struck.

use crate::apart::{check_classes, class, load, read_link_file, sample_classes};
use crate::buffer::Buffer;
use crate::cases::{Call, Case};
use crate::damage::Damage;
use crate::grants::Choices;
use crate::memory::Memory;
use crate::station::{Answer, Checked, Station};
use crate::tally::Tally;
use document01::judge::require;
use document01::{area, Entry, Ledger, Rule, Rules, Table};

/// Which call of the list failed, and how; one past the last where the two runs differ.
#[derive(Clone, Debug)]
pub struct Failure {
    pub call: usize,
    pub what: String,
}

/// What a run leaves: the answers that must stay when quotes are struck, the bookings, and their words in the area.
#[derive(PartialEq, Eq)]
struct Outcome {
    answers: Vec<Answer>,
    bookings: Option<Vec<Entry>>,
    circuits: Vec<u32>,
}

/// What turns the contents of every buffer into others in the second run.
const OTHER: u64 = 0x7f4a_7c15_9e37_79b9;

/// Runs a case; what was seen goes into the tally.
pub fn run(case: &Case, rules: Rules, tally: &mut Tally) -> Result<(), Failure> {
    let mut choices = Choices::default();
    let all: Vec<(usize, &Call)> = case.calls.iter().enumerate().collect();
    let first = play(case, &all, rules, 0, &mut choices, tally)?;
    let mut struck: Vec<(usize, &Call)> = all.into_iter().filter(|(_, call)| call.books()).collect();
    if !rules.hold(Rule::QuotesAlone) && !struck.is_empty() {
        struck.remove(0);
    }
    tally.replayed += struck.len() as u64;
    let second = play(case, &struck, rules, OTHER, &mut choices, tally)
        .map_err(|failure| Failure { what: format!("with the quotes struck: {}", failure.what), ..failure })?;
    tally.repeated += choices.repeated;
    tally.holds.answered(&choices.beside, choices.other_holds);
    let at_end = |what: &str| Failure { call: case.calls.len(), what: what.to_string() };
    if first.answers != second.answers {
        return Err(at_end("with the quotes struck another call answered otherwise"));
    }
    if first.bookings != second.bookings {
        return Err(at_end("with the quotes struck the bookings are others"));
    }
    if first.circuits != second.circuits {
        return Err(at_end("with the quotes struck the words of circuits are others"));
    }
    Ok(())
}

/// Loads the table and makes the calls, with buffers of the same lengths and, by `other`, other contents.
fn play(
    case: &Case,
    calls: &[(usize, &Call)],
    rules: Rules,
    other: u64,
    choices: &mut Choices,
    tally: &mut Tally,
) -> Result<Outcome, Failure> {
    let mut memory = Memory { other, ..Memory::default() };
    let mut station = loaded(case, rules, other, tally).map_err(|what| Failure { call: 0, what })?;
    let mut answers = Vec::new();
    for (number, call) in calls {
        let answer = one(&mut station, call, rules, &mut memory, choices, tally)
            .map_err(|what| Failure { call: *number, what })?;
        if call.books() {
            answers.push(answer);
        }
    }
    Ok(Outcome { answers, bookings: station.bookings(), circuits: station.circuits().to_vec() })
}

/// The area that a case begins at.
fn loaded(case: &Case, rules: Rules, other: u64, tally: &mut Tally) -> Result<Station, String> {
    let table = Table::checked(case.n, &case.words, &case.hold_times)
        .map_err(|number| format!("a table of the case is refused: {number}"))?;
    let mut memory = Memory { other, ..Memory::default() };
    load(case.n, &case.words, &case.hold_times, case.area, &mut memory, tally)?;
    Ok(Station { area: Buffer::of(memory.out.slice()), ledger: Some(Ledger::new(table, rules)) })
}

fn one(
    station: &mut Station,
    call: &Call,
    rules: Rules,
    memory: &mut Memory,
    choices: &mut Choices,
    tally: &mut Tally,
) -> Checked {
    match call {
        Call::CheckClasses { rows } => check_classes(rows, rules, memory, tally),
        Call::Class { rows, class: number } => class(rows, *number, rules, memory, tally),
        Call::SampleClasses => sample_classes(memory, tally),
        Call::Load { n, words, hold_times, area } => load(*n, words, hold_times, *area, memory, tally),
        Call::ReadLinkFile { file, table } => read_link_file(file, *table, rules, memory, tally),
        Call::Folded { request, work, path } => folded(
            station,
            &Call::Quote { request: *request, work: *work, path: *path },
            request.t,
            memory,
            choices,
            tally,
        ),
        Call::Damaged { damage, call } => damaged(station, damage, call, rules, memory, choices, tally),
        _ => station.call(call, memory, choices, tally),
    }
}

/// A call on a damaged copy of the area.
fn damaged(
    station: &Station,
    damage: &Damage,
    call: &Call,
    rules: Rules,
    memory: &mut Memory,
    choices: &mut Choices,
    tally: &mut Tally,
) -> Checked {
    let area = station.area.slice();
    let words = damage.done(area);
    let mut copy = Station::of_words(&words, rules);
    let mut apart = Choices::default();
    let choices = if same_net(&words, area) { choices } else { &mut apart };
    let formed = copy.ledger.is_some();
    let answer = copy.call(call, memory, choices, tally)?;
    let Some(place) = damage.place(area).filter(|_| words != area) else {
        return Ok(answer);
    };
    // What these fields ask for is so by their kind, whatever the other implementation makes of the area.
    let Damage { field, .. } = *damage;
    require(answer.code == 5 || field.may_stay(), &format!("gave {}, but {field:?} damaged gives 5", answer.code))?;
    require(answer.code != 5 || field.may_spoil(), &format!("gave 5 for {field:?} damaged"))?;
    tally.damaged(field, formed);
    tally.holds.damaged(field, words.get(place).copied().unwrap_or(0), formed);
    tally.order.damaged(field, place);
    Ok(answer)
}

/// A quote to t, and again where the hold times stand in the links' delays: all that is answered is the same.
fn folded(
    station: &mut Station,
    quote: &Call,
    t: u32,
    memory: &mut Memory,
    choices: &mut Choices,
    tally: &mut Tally,
) -> Checked {
    let answer = station.call(quote, memory, choices, tally)?;
    let Some(mut copy) = station.folded(t) else {
        return Ok(answer);
    };
    let again = copy.call(quote, memory, choices, tally)?;
    let same = answer == again;
    require(same, &format!("gave {answer:?}, and {again:?} where the hold times stand in the delays"))?;
    tally.holds.folded(answer.code);
    Ok(answer)
}

/// Whether two areas have the same nodes and the same links but for capacities, delays and hold times.
fn same_net(words: &[u32], others: &[u32]) -> bool {
    let whole = words.len() >= area::AREA_WORDS && words[..2] == others[..2];
    let links = |words: &[u32]| {
        words[3..area::FIRST_CIRCUIT].chunks(5).map(|link| [link[0], link[1], link[3]]).collect::<Vec<_>>()
    };
    whole && links(words) == links(others)
}
