//! Cases that go through everything once instead of drawing it: each word of two areas and each hold word of 32 nodes
//! set to each of the numbers at which a range ends, circuits out of their order and words past their paths, buffers of
//! every length around each limit, the longest path with the greatest weights, with and without hold times, class
//! tables of every word count and hold lists of every length, with each number at and past both ends of its range, and
//! a search that takes all rounds. Those of all jobs in one call stand in `job_cases`.

use crate::buffer::{Holds, Lent};
use crate::cases::{Call, Case};
use crate::class_tables;
use crate::damage::{field_at, Change, Damage, Field, EDGES};
use crate::hold_times;
use crate::job_cases;
use crate::job_lists::job;
use crate::nets::Style;
use document01::area::{AREA_WORDS, CIRCUIT_WORDS, FIRST_CIRCUIT, FIRST_HOLD};
use document01::ledger::PATH_WORDS;
use document01::opening::ANSWER_WORDS;
use document01::table::{MOST_COST_BOUND, MOST_HOLD};
use line::Request;

/// A case takes so many words of an area, after one setting up of its circuits.
const WORDS: usize = 12;

const CASES_AN_AREA: u64 = AREA_WORDS.div_ceil(WORDS) as u64;

/// How many cases there are beside those of all jobs in one call: the words of two areas, the order of circuits in both,
/// hold words, lengths, the longest path twice, class tables, hold lists and all rounds.
const BEFORE_JOBS: u64 = 2 * CASES_AN_AREA + 9;

pub const COUNT: u64 = BEFORE_JOBS + job_cases::COUNT;

pub const ENOUGH_WORK: Lent = Lent { words: 16_384, holds: Holds::Kept };
const ENOUGH_PATH: Lent = Lent { words: 31, holds: Holds::Kept };

/// A triangle with a parallel link and a way back; the capacities leave room for 64 circuits of one unit.
const SMALL: [u32; 25] = [0, 1, 2, 5, 70, 1, 2, 2, 5, 70, 0, 2, 9, 1, 70, 0, 2, 9, 2, 3, 2, 0, 1, 1, 70];
const SMALL_HOLDS: [u32; 3] = [5, 3, 8];

pub fn request(s: u32, t: u32) -> Request {
    Request { s, t, units: 1, delay_bound: 12, cost_bound: 20, coefficient: 4 }
}

fn admit(circuit: u32) -> Call {
    let request = match circuit % 3 {
        0 => request(0, 1),
        1 => Request { delay_bound: 8, ..request(0, 2) },
        _ => request(1, 2),
    };
    Call::Admit { circuit, request, work: ENOUGH_WORK, path: ENOUGH_PATH }
}

/// Admissions of all numbers up to `held`, which is 5 or 64: no factor of 29, so that each comes once. They come in an
/// order in which circuits are put before and between others.
fn admissions(held: u32) -> Vec<Call> {
    (0..held).map(|i| admit(1 + 29 * i % held)).collect()
}

/// One of the six calls on an area.
fn call(which: usize) -> Call {
    match which % 6 {
        0 => Call::Quote { request: request(0, 2), work: ENOUGH_WORK, path: ENOUGH_PATH },
        1 => Call::Admit { circuit: 100, request: request(0, 2), work: ENOUGH_WORK, path: ENOUGH_PATH },
        2 => Call::Release { circuit: 2 },
        3 => Call::List { numbers: Lent { words: 64, holds: Holds::Ones } },
        4 => Call::AdmitJobs {
            jobs: [job(100, &request(0, 2)), job(1, &request(0, 2)), job(0, &request(2, 2))].concat(),
            work: ENOUGH_WORK,
            answers: Lent { words: 110, holds: Holds::Ones },
        },
        _ => Call::FreeUnits { link: 2 },
    }
}

pub fn with_calls(seed: u64, calls: Vec<Call>) -> Case {
    let area = Lent { words: AREA_WORDS, holds: Holds::Random(seed) };
    let (words, hold_times) = (SMALL.to_vec(), SMALL_HOLDS.to_vec());
    Case { seed, style: Style::Tiny, n: 3, words, hold_times, area, calls }
}

/// Some words of an area with so many circuits held, each set to each number and increased and decreased by one. The
/// area held `holds` before Load, which leaves the hold words past n: random words are not in range, ones are.
fn damaged(seed: u64, first: usize, held: u32, holds: Holds) -> Case {
    let mut calls = admissions(held);
    for word in first..AREA_WORDS.min(first + WORDS) {
        let changes = EDGES.map(Change::To).into_iter().chain([Change::Add(1), Change::Add(u32::MAX)]);
        for (which, change) in changes.enumerate() {
            let damage = Damage { field: field_at(word, SMALL_HOLDS.len()), word, change };
            calls.push(Call::Damaged { damage, call: Box::new(call(which + word)) });
        }
    }
    Case { area: Lent { words: AREA_WORDS, holds }, ..with_calls(seed, calls) }
}

/// With so many circuits held: each two neighbours exchanged, each number given to its neighbour, either way, and each
/// unused path word and each word past the last circuit set to another word than 0. Where a field stands at fewer
/// places, the first ones come again.
fn out_of_order(seed: u64, held: u32) -> Case {
    let mut calls = admissions(held);
    let (pairs, places) = (held as usize - 1, held as usize);
    let paths = PATH_WORDS * places;
    let past = FIRST_HOLD - FIRST_CIRCUIT - CIRCUIT_WORDS * places;
    let kinds = [
        (Field::Exchanged, Change::Exchange, pairs),
        (Field::Twice, Change::AsBehind, pairs),
        (Field::Twice, Change::BehindAs, pairs),
        (Field::UnusedPath, Change::To(1), paths),
        (Field::UnusedPath, Change::To(u32::MAX), paths),
        (Field::PastCircuits, Change::To(1), past),
    ];
    for (field, change, count) in kinds {
        for word in 0..count {
            let damage = Damage { field, word, change };
            calls.push(Call::Damaged { damage, call: Box::new(call(word)) });
        }
    }
    with_calls(seed, calls)
}

/// Every length around each limit, for every buffer of every call.
fn lengths(seed: u64) -> Case {
    let lent = |words| Lent { words, holds: Holds::Random(words as u64) };
    let mut calls = admissions(5);
    for words in (0..4).chain(16_376..16_393) {
        calls.push(Call::Quote { request: request(0, 2), work: lent(words), path: ENOUGH_PATH });
        calls.push(Call::Admit { circuit: 200, request: request(0, 2), work: lent(words), path: ENOUGH_PATH });
        calls.push(Call::Release { circuit: 200 });
        let (jobs, answers) = (job(200, &request(0, 2)).to_vec(), lent(36));
        calls.push(Call::AdmitJobs { jobs, work: lent(words), answers });
        calls.push(Call::Release { circuit: 200 });
    }
    for words in 0..48 {
        calls.push(Call::Quote { request: request(0, 2), work: ENOUGH_WORK, path: lent(words) });
        calls.push(Call::Admit { circuit: 200, request: request(0, 2), work: ENOUGH_WORK, path: lent(words) });
        calls.push(Call::Release { circuit: 200 });
        calls.push(Call::List { numbers: lent(words) });
        let file = document01::link_file::write(b"notes", 3, &SMALL);
        calls.push(Call::ReadLinkFile { file, table: lent(words) });
    }
    let load = |words, area| Call::Load { n: 3, words, hold_times: SMALL_HOLDS.to_vec(), area };
    for words in (0..6).chain(3_450..3_500) {
        calls.push(load(SMALL.to_vec(), lent(words)));
        for which in 0..6 {
            let damage = Damage { field: Field::Length, word: 0, change: Change::Cut(words) };
            calls.push(Call::Damaged { damage, call: Box::new(call(which)) });
        }
    }
    for words in (0..32).chain(1_270..1_292) {
        let words = SMALL.iter().copied().cycle().take(words).collect();
        calls.push(load(words, lent(AREA_WORDS)));
    }
    with_calls(seed, calls)
}

/// 32 nodes in a line, eight links of the greatest weights from each to the next, and eight links back from the last.
fn line(seed: u64, hold: u32, calls: Vec<Call>) -> Case {
    let link = |i: u32| [i % 31, i % 31 + 1, 1_000_000, 1_000_000, 65_535];
    let words = (0..256).flat_map(|i| if i < 248 { link(i) } else { [31, i - 248, 1_000_000, 0, 1] }).collect();
    Case { n: 32, words, hold_times: vec![hold; 32], ..with_calls(seed, calls) }
}

/// Each hold word of 32 nodes set to each number.
fn held(seed: u64) -> Case {
    let damaged = |(which, word): (usize, usize)| {
        let damage = move |value| Damage { field: Field::Hold, word, change: Change::To(value) };
        EDGES.map(|value| Call::Damaged { damage: damage(value), call: Box::new(call(which)) })
    };
    line(seed, 0, (FIRST_HOLD..AREA_WORDS).enumerate().flat_map(damaged).collect())
}

/// From end to end of the line: x is 248, and every path adds up to the greatest cost bound, and with the greatest hold
/// times to the greatest delay bound. A bound of 1 makes the greatest scaled weights. Once singly, once all in one call.
fn longest(seed: u64, hold: u32) -> Case {
    let (delay, cost) = (31 * 1_000_000 + 30 * hold, MOST_COST_BOUND);
    let (mut calls, mut jobs) = (Vec::new(), Vec::new());
    let bounds =
        [delay, delay - 1, 1].map(|delay_bound| [cost, cost - 1, 1].map(|cost_bound| (delay_bound, cost_bound)));
    for (delay_bound, cost_bound) in bounds.into_iter().flatten() {
        for units in [1, 65_535] {
            let request = Request { s: 0, t: 31, units, delay_bound, cost_bound, coefficient: 8 };
            calls.push(Call::Quote { request, work: ENOUGH_WORK, path: ENOUGH_PATH });
            calls.push(Call::Admit { circuit: units, request, work: ENOUGH_WORK, path: ENOUGH_PATH });
            calls.push(Call::FreeUnits { link: 0 });
            jobs.push(job(100 + jobs.len() as u32, &request));
        }
    }
    let answers = Lent { words: ANSWER_WORDS * jobs.len(), holds: Holds::Ones };
    calls.push(Call::AdmitJobs { jobs: jobs.concat(), work: ENOUGH_WORK, answers });
    line(seed, hold, calls)
}

/// 32 nodes in a line whose links stand in the table from the last to the first and cost nothing: each round reaches one
/// node more.
fn all_rounds(seed: u64) -> Case {
    let words = (0..31).rev().flat_map(|i| [i, i + 1, 1, 0, 1]).collect();
    let quote = |delay_bound| {
        let request = Request { s: 0, t: 31, units: 1, delay_bound, cost_bound: 1, coefficient: 1 };
        Call::Quote { request, work: Lent { words: 16_384, holds: Holds::Random(seed) }, path: ENOUGH_PATH }
    };
    Case { n: 32, words, hold_times: vec![0; 32], ..with_calls(seed, (30..62).map(quote).collect()) }
}

/// The case of a number below `COUNT`.
pub fn case(number: u64) -> Case {
    if let Some(which) = number.checked_sub(BEFORE_JOBS) {
        return job_cases::case(number, which);
    }
    let first = WORDS * (number % CASES_AN_AREA) as usize;
    match number / CASES_AN_AREA {
        0 => damaged(number, first, 5, Holds::Random(number)),
        1 => damaged(number, first, 64, Holds::Ones),
        _ => match BEFORE_JOBS - number {
            9 => out_of_order(number, 5),
            8 => out_of_order(number, 64),
            7 => held(number),
            6 => lengths(number),
            5 => longest(number, 0),
            4 => longest(number, MOST_HOLD),
            3 => with_calls(number, class_tables::all()),
            2 => with_calls(number, hold_times::all()),
            _ => all_rounds(number),
        },
    }
}
