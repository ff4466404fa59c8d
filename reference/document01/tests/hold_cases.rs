//! The cases of hold times of docs/hold-times.md, copied from there: the other implementation must give them too.

use document01::{Ledger, Reply, Request, Rules, Table};

const NET_H: [u32; 30] =
    [0, 1, 2, 5, 10, 1, 3, 2, 5, 10, 0, 2, 3, 6, 10, 2, 3, 2, 3, 10, 3, 1, 0, 1, 10, 1, 0, 0, 1, 10];
const NONE: [u32; 4] = [0; 4];
const INNER: [u32; 4] = [0, 5, 1, 0];
const ALL: [u32; 4] = [1_000_000, 5, 1, 1_000_000];

const REFUSED: Reply = Reply::Refused(10);

fn granted(problem: u32, least: u64) -> Reply {
    Reply::Granted { problem, least }
}

fn ledger(holds: [u32; 4]) -> Ledger {
    Ledger::new(Table::checked(4, &NET_H, &holds).unwrap(), Rules::all())
}

fn request([s, t]: [u32; 2], units: u32, [delay_bound, cost_bound, coefficient]: [u32; 3]) -> Request {
    Request { s, t, units, delay_bound, cost_bound, coefficient }
}

/// What one unit between these nodes is answered on net H with these hold times.
fn quote(holds: [u32; 4], ends: [u32; 2], bounds: [u32; 3]) -> Reply {
    ledger(holds).quote(16_384, 31, &request(ends, 1, bounds))
}

#[test]
fn h1_to_h5_and_h7_from_0_to_3() {
    let cases = [
        (NONE, [4, 20, 8], granted(1, 4)),
        (INNER, [4, 20, 8], REFUSED),
        (ALL, [4, 20, 8], REFUSED),
        (ALL, [8, 10, 1], granted(2, 9)),
        (ALL, [10, 20, 8], granted(1, 6)),
        (NONE, [8, 10, 1], granted(1, 4)),
        (INNER, [8, 10, 1], granted(2, 9)),
        (NONE, [10, 20, 8], granted(1, 4)),
        (INNER, [10, 20, 8], granted(1, 6)),
        (INNER, [6, 20, 8], granted(1, 6)),
        (INNER, [5, 20, 8], REFUSED),
        (NONE, [6, 9, 8], granted(2, 9)),
        (INNER, [6, 9, 8], REFUSED),
        (INNER, [7, 9, 8], granted(2, 9)),
    ];
    for (holds, bounds, reply) in cases {
        assert_eq!(quote(holds, [0, 3], bounds), reply, "{holds:?} {bounds:?}");
    }
}

#[test]
fn h2_and_h8_between_other_nodes() {
    let cases = [
        (ALL, [0, 1], [2, 20, 8], granted(1, 2)),
        (INNER, [2, 1], [2, 20, 8], granted(1, 2)),
        (ALL, [2, 1], [1_000_002, 20, 8], granted(1, 1_000_002)),
        (ALL, [2, 1], [1_000_001, 20, 8], REFUSED),
        (NONE, [3, 0], [0, 20, 8], granted(1, 0)),
        (INNER, [3, 0], [0, 20, 8], REFUSED),
        (INNER, [3, 0], [5, 20, 8], granted(1, 5)),
        (ALL, [3, 1], [0, 20, 8], granted(1, 0)),
    ];
    for (holds, ends, bounds, reply) in cases {
        assert_eq!(quote(holds, ends, bounds), reply, "{holds:?} {ends:?} {bounds:?}");
    }
}

#[test]
fn h6_by_31_links() {
    let words: Vec<u32> = (0..31).flat_map(|node| [node, node + 1, 1_000_000, 0, 10]).collect();
    let row = Ledger::new(Table::checked(32, &words, &[1_000_000; 32]).unwrap(), Rules::all());
    let quote = |delay_bound| row.quote(16_384, 31, &request([0, 31], 1, [delay_bound, 31_000_000, 8]));
    assert_eq!(quote(61_000_000), granted(1, 61_000_000));
    assert_eq!(quote(60_999_999), REFUSED);
}

#[test]
fn h9_an_admission_leaves_the_hold_times() {
    let mut h = ledger(INNER);
    assert_eq!(h.admission(16_384, 31, 1, &request([0, 3], 10, [10, 20, 8])), granted(1, 6));
    h.admit(1, 10, &[2, 3]);
    let quote = |bounds| h.quote(16_384, 31, &request([0, 3], 1, bounds));
    assert_eq!(quote([10, 20, 8]), granted(1, 9));
    assert_eq!(quote([8, 20, 8]), REFUSED);
}
