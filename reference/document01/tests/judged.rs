//! The judge refuses each kind of wrong grant: one that is wrong in a single point is not let through.

use document01::judge::{self, Grant};
use document01::{Ledger, Request, Rules, Table};

/// From 0 to 3 by 0 1 2 or, with more delay, by 3; links 4 and 5 are a way round from 1 to 1; link 6 lies beside link 1
/// and costs more; link 7 has no capacity.
const NET: [u32; 40] = [
    0, 1, 2, 5, 10, 1, 2, 2, 5, 10, 2, 3, 2, 5, 10, 0, 3, 9, 1, 10, 1, 4, 0, 0, 10, 4, 1, 0, 0, 10, 1, 2, 2, 7, 10, 0,
    3, 6, 15, 0,
];

const REQUEST: Request = Request { s: 0, t: 3, units: 1, delay_bound: 9, cost_bound: 20, coefficient: 8 };

fn why(problem: u32, delay: u32, cost: u32, path: &[u32]) -> Option<String> {
    let ledger = Ledger::new(Table::checked(5, &NET, &[0; 5]).unwrap(), Rules::all());
    judge::grant(&ledger, &REQUEST, 1, 6, &Grant { problem, delay, cost, path: path.to_vec() }).err()
}

fn refuses(problem: u32, delay: u32, cost: u32, path: &[u32], because: &str) {
    let why = why(problem, delay, cost, path).expect("a wrong grant was let through");
    assert!(why.contains(because), "{why}");
}

#[test]
fn a_best_path_is_let_through() {
    assert_eq!(why(1, 6, 15, &[0, 1, 2]), None);
}

#[test]
fn what_is_no_path_from_s_to_t() {
    refuses(1, 0, 0, &[], "not a path");
    refuses(1, 6, 15, &[0, 2, 1], "not a path");
    refuses(1, 6, 15, &[0, 4, 5, 1, 2], "not a path");
    refuses(1, 6, 15, &[0, 1, 8], "not a path");
    refuses(1, 4, 10, &[1, 2], "begin at s");
    refuses(1, 4, 10, &[0, 1], "end at t");
    refuses(1, 6, 15, &[7], "not usable");
}

#[test]
fn totals_that_are_not_the_paths() {
    refuses(1, 5, 15, &[0, 1, 2], "sum of the links' delays");
    refuses(1, 6, 14, &[0, 1, 2], "sum of the links' costs");
    refuses(1, 6, 15, &[0, 6, 2], "sum of the links' costs");
}

#[test]
fn another_problem_or_more_than_the_least() {
    refuses(2, 6, 15, &[0, 1, 2], "problem 1 grants it");
    refuses(1, 9, 1, &[3], "least kept weight");
}

#[test]
fn a_path_of_the_least_delay_that_rounding_rules_out() {
    // With x = 3 links 0, 1 and 2 scale to 1 + 1 + 1 and links 0, 6 and 2 to 1 + 2 + 1, though their cost is within 20.
    let request = Request { coefficient: 3, ..REQUEST };
    let ledger = Ledger::new(Table::checked(5, &NET, &[0; 5]).unwrap(), Rules::all());
    let grant = Grant { problem: 1, delay: 6, cost: 15, path: vec![0, 1, 2] };
    assert_eq!(judge::grant(&ledger, &request, 1, 6, &grant), Ok(()));
    let grant = Grant { problem: 1, delay: 6, cost: 17, path: vec![0, 6, 2] };
    let why = judge::grant(&ledger, &request, 1, 6, &grant).expect_err("a wrong grant was let through");
    assert!(why.contains("does not solve"), "{why}");
}
