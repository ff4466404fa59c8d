//! The last table: each call of the C interface at its largest or slowest input, in the proved archive alone.
//!
//! The net is the one on which neither problem ends its rounds early: 32 nodes in a row, 256 links. The circuits that are
//! held go from end to end, so each has 31 links.

use crate::nets;
use crate::proved::{Opened, Proved, NO_HOLDS};
use crate::requests;
use crate::timing::{median, REPETITIONS};
use std::time::Instant;

const NODES: u32 = 32;
const LINKS: u32 = 256;
const CIRCUITS: u32 = 64;
const JOBS: usize = 64;

/// So many quick calls are timed in a row, and so many of the one for the sample table, which is the quickest by far. A slow
/// one is timed alone, and the slowest by far so many times.
const QUICK: usize = 64;
const QUICKEST: usize = 4096;
const SLOWEST: usize = 5;

/// An area with as many circuits as it can hold, all from end to end, numbered from 1.
fn full_area(proved: &mut Proved, words: &[u32]) -> Result<Vec<u32>, String> {
    let mut area = Proved::load(NODES, words).map_err(|refusal| format!("a net was not loaded: {refusal}"))?;
    let request = requests::wide(0, NODES - 1, NODES - 1);
    for number in 1..=CIRCUITS {
        let granted = proved.admit(&mut area, number, &request);
        granted.map_err(|refusal| format!("a circuit to hold was refused: {refusal}"))?;
        if proved.path().len() != NODES as usize - 1 {
            return Err(format!("a circuit to hold has {} links", proved.path().len()));
        }
    }
    Ok(area)
}

/// The link file of these links, with no notes.
fn link_file(words: &[u32]) -> Vec<u8> {
    let trailer = [0, LINKS, NODES];
    let mut bytes: Vec<u8> = words.iter().chain(&trailer).flat_map(|word| word.to_le_bytes()).collect();
    bytes.extend(b"RTLK");
    bytes
}

/// Prints a row. A repetition makes so many calls on words that are again as they were at first; all must give this
/// code, else nothing is printed but an error.
fn row<Lent: Clone>(
    name: &str,
    input: &str,
    calls: (usize, u32),
    lent: &Lent,
    call: impl FnMut(&mut Lent, usize) -> u32,
) -> Result<(), String> {
    repeated(REPETITIONS, name, input, calls, lent, call)
}

/// The same with fewer repetitions.
fn repeated<Lent: Clone>(
    repetitions: usize,
    name: &str,
    input: &str,
    (calls, expected): (usize, u32),
    lent: &Lent,
    mut call: impl FnMut(&mut Lent, usize) -> u32,
) -> Result<(), String> {
    let mut times = Vec::with_capacity(repetitions);
    for _ in 0..repetitions {
        let mut words = lent.clone();
        let mut others = 0;
        let start = Instant::now();
        for i in 0..calls {
            others += u32::from(call(&mut words, i) != expected);
        }
        times.push(start.elapsed().as_secs_f64() * 1e6 / calls as f64);
        if others != 0 {
            return Err(format!("{name} did not give {expected}"));
        }
    }
    println!("{name:<20}  {input:<53}{:>10.3}", median(times));
    Ok(())
}

/// The calls that search: no round ends early in either problem, which then has no solution.
fn searches(proved: &mut Proved, full: &Vec<u32>) -> Result<(), String> {
    let request = requests::request(0, NODES - 1, 1, 1);
    row("line_quote", "refused 10, x = 248, no round ends early, 64 held", (1, 10), full, |area, _| {
        proved.quote(area, &request).err().unwrap_or(0)
    })?;
    let mut area = full.clone();
    Proved::release(&mut area, CIRCUITS).map_err(|refusal| format!("a circuit was not released: {refusal}"))?;
    row("line_admit", "refused 10, x = 248, no round ends early, 63 held", (1, 10), &area, |area, _| {
        proved.admit(area, CIRCUITS, &request).err().unwrap_or(0)
    })?;
    let r = request;
    let list = [CIRCUITS, r.s, r.t, r.units, r.delay_bound, r.cost_bound, r.coefficient].repeat(JOBS);
    let mut opened = Opened::new(JOBS);
    repeated(SLOWEST, "line_admit_jobs", "64 jobs, each as for line_admit", (1, 0), &area, |area, _| {
        opened.admit_jobs(area, &list)
    })
}

/// The other calls on an area that is full of circuits. The first circuit is released, so that all others move.
fn bookings(full: &[u32]) -> Result<(), String> {
    let areas = vec![full.to_vec(); QUICK];
    row("line_release", "the first of 64 circuits", (QUICK, 0), &areas, |areas, i| line::release(&mut areas[i], 1))?;
    let numbers = [0; CIRCUITS as usize];
    row("line_list", "64 circuits", (QUICK, 0), &numbers, |numbers, _| line::list(full, numbers, &mut [0]))?;
    row("line_free_units", "the last link, 64 circuits", (QUICK, 0), &[0], |answer, _| {
        line::free_units(full, LINKS - 1, answer)
    })
}

pub fn worst() -> Result<(), String> {
    let mut proved = Proved::new();
    let words = nets::slow_row(NODES, LINKS);
    let full = full_area(&mut proved, &words)?;
    let file = link_file(&words);
    let table = vec![0; words.len()];

    println!("Microseconds for each call at its largest or slowest input: median of {REPETITIONS} repetitions.");
    println!("{NODES} nodes in a row, {LINKS} links; each circuit that is held has {} links.", NODES - 1);
    println!("{:<20}  {:<53}{:>10}", "call", "input", "proved");
    row("line_load", "256 links", (QUICK, 0), &full, |area, _| line::load(NODES, &words, &NO_HOLDS, area))?;
    searches(&mut proved, &full)?;
    bookings(&full)?;
    let rows: Vec<u32> = [1, 400, 60, 8].repeat(64);
    row("line_check_classes", "64 rows", (QUICK, 0), &rows, |rows, _| line::check_classes(rows))?;
    row("line_class", "the last of 64 rows", (QUICK, 0), &[0; 4], |answer, _| line::class(&rows, 63, answer))?;
    row("line_sample_classes", "", (QUICKEST, 0), &[0; 24], |answer, _| line::sample_classes(answer))?;
    row("line_read_link_file", "256 links", (QUICK, 0), &table, |table, _| {
        line::read_link_file(&file, table, &mut [0; 2])
    })
}
