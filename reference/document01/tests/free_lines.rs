//! The cases of bounds of 0 of docs/free-lines.md, copied from there: the other implementation must give them too.

use document01::{Ledger, Reply, Request, Rules, Table};

const NET_A: [u32; 20] = [0, 1, 2, 5, 10, 1, 2, 2, 5, 10, 2, 3, 2, 5, 10, 0, 3, 9, 1, 10];
const NET_F: [u32; 30] = [0, 1, 3, 0, 5, 1, 2, 0, 0, 2, 2, 3, 3, 0, 5, 0, 3, 4, 1, 10, 0, 1, 0, 5, 10, 2, 3, 0, 5, 10];

fn ledger(words: &[u32]) -> Ledger {
    Ledger::new(Table::checked(4, words, &[0; 4]).unwrap(), Rules::all())
}

fn request(units: u32, delay_bound: u32, cost_bound: u32, coefficient: u32) -> Request {
    Request { s: 0, t: 3, units, delay_bound, cost_bound, coefficient }
}

fn quote(ledger: &Ledger, units: u32, delay_bound: u32, cost_bound: u32, coefficient: u32) -> Reply {
    ledger.quote(16_384, 31, &request(units, delay_bound, cost_bound, coefficient))
}

fn granted(problem: u32, least: u64) -> Reply {
    Reply::Granted { problem, least }
}

#[test]
fn f1_to_f3_on_net_a() {
    for (delay_bound, cost_bound) in [(0, 20), (9, 0), (0, 0)] {
        assert_eq!(quote(&ledger(&NET_A), 1, delay_bound, cost_bound, 8), Reply::Refused(10));
    }
}

#[test]
fn f4_to_f7_where_nothing_may_be_paid() {
    let mut f = ledger(&NET_F);
    assert_eq!(quote(&f, 1, 10, 0, 8), granted(1, 6));
    assert_eq!(f.search(&request(1, 10, 0, 8)).unwrap().x, 8);
    assert!(f.search(&request(1, 10, 0, 8)).unwrap().has_overqualified());
    assert_eq!(quote(&f, 1, 5, 0, 8), Reply::Refused(10));
    assert_eq!(quote(&f, 3, 10, 0, 8), Reply::Refused(10));
    assert_eq!(f.admission(16_384, 31, 1, &request(2, 10, 0, 8)), granted(1, 6));
    f.admit(1, 2, &[0, 1, 2]);
    assert_eq!(quote(&f, 1, 10, 0, 8), Reply::Refused(10));
    assert_eq!(quote(&f, 1, 10, 1, 8), granted(1, 4));
}

#[test]
fn f8_to_f12_where_no_time_may_pass() {
    let f = ledger(&NET_F);
    assert_eq!(quote(&f, 1, 0, 10, 8), granted(1, 0));
    assert_eq!(quote(&f, 1, 0, 10, 5), granted(2, 10));
    assert_eq!(quote(&f, 1, 0, 9, 8), Reply::Refused(10));
    let between = Request { s: 1, t: 2, ..request(1, 0, 0, 1) };
    assert_eq!(f.quote(16_384, 31, &between), granted(1, 0));
    assert_eq!(quote(&f, 1, 0, 0, 8), Reply::Refused(10));
}
