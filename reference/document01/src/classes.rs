//! Class tables. Rows are taken off the front of the words until no whole row is left; and a row's numbers are in range
//! where a request with them, between two nodes, passes check 8.

use crate::rules::{Rule, Rules};
use crate::table::Request;

/// Units, D, C and coefficient.
pub type Row = [u32; 4];

/// Document 01's classes: card, PIN, tank, prices, service, pictures.
pub const SAMPLE: [Row; 6] =
    [[1, 400, 60, 8], [1, 250, 80, 8], [2, 2000, 40, 4], [2, 5000, 30, 2], [8, 800, 300, 6], [16, 3000, 600, 2]];

/// The request of a row.
pub fn request(row: Row, s: u32, t: u32) -> Request {
    let [units, delay_bound, cost_bound, coefficient] = row;
    Request { s, t, units, delay_bound, cost_bound, coefficient }
}

fn whole_rows(mut words: &[u32], rules: Rules) -> Option<Vec<Row>> {
    let mut rows = Vec::new();
    while let Some((row, rest)) = words.split_first_chunk() {
        rows.push(*row);
        words = rest;
    }
    let most = if rules.hold(Rule::FullClassTable) { 64 } else { 63 };
    (words.is_empty() && !rows.is_empty() && rows.len() <= most).then_some(rows)
}

/// 20, 21, else the table's rows.
pub fn checked(words: &[u32], rules: Rules) -> Result<Vec<Row>, u32> {
    let rows = whole_rows(words, rules).ok_or(20u32)?;
    let looked_at = if rules.hold(Rule::EveryRow) { &rows[..] } else { &rows[..1] };
    if looked_at.iter().all(|&row| request(row, 0, 1).in_range(2, rules)) {
        Ok(rows)
    } else {
        Err(21)
    }
}

/// 20, 21, 16, else the class's row.
pub fn class(words: &[u32], number: u32, rules: Rules) -> Result<Row, u32> {
    if !rules.hold(Rule::TableBeforeClass) && number as usize >= words.len() / 4 {
        return Err(16);
    }
    checked(words, rules)?.get(number as usize).copied().ok_or(16)
}
