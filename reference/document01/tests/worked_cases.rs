//! Document 01's cases M1 to M11 and its six class lines, from its text: the other implementation must give them before
//! anything is compared with it.

use document01::{classes, Entry, Ledger, Reply, Request, Rules, Table};

const NET_A: [u32; 20] = [0, 1, 2, 5, 10, 1, 2, 2, 5, 10, 2, 3, 2, 5, 10, 0, 3, 9, 1, 10];
const NET_B: [u32; 20] = [1, 2, 0, 1, 5, 2, 1, 0, 1, 5, 1, 3, 1, 1, 5, 0, 1, 1, 1, 5];

fn ledger(words: &[u32]) -> Ledger {
    Ledger::new(Table::checked(4, words, &[0; 4]).unwrap(), Rules::all())
}

fn request(units: u32, delay_bound: u32, cost_bound: u32, coefficient: u32) -> Request {
    Request { s: 0, t: 3, units, delay_bound, cost_bound, coefficient }
}

fn quote(ledger: &Ledger, units: u32, delay_bound: u32, cost_bound: u32, coefficient: u32) -> Reply {
    ledger.quote(16_384, 31, &request(units, delay_bound, cost_bound, coefficient))
}

fn granted(problem: u32, least: u64) -> Reply {
    Reply::Granted { problem, least }
}

#[test]
fn m1_to_m7_on_net_a() {
    let a = ledger(&NET_A);
    assert_eq!(quote(&a, 1, 8, 20, 5), Reply::Refused(10));
    assert_eq!(quote(&a, 1, 8, 20, 6), granted(1, 6));
    assert_eq!(quote(&a, 1, 8, 20, 8), granted(1, 6));
    assert_eq!(quote(&a, 1, 8, 15, 8), granted(2, 15));
    assert_eq!(quote(&a, 1, 8, 14, 8), Reply::Refused(10));
    assert_eq!(quote(&a, 1, 9, 20, 8), granted(1, 6));
    assert_eq!(quote(&a, 10, 8, 20, 8), granted(1, 6));
    assert_eq!(quote(&a, 11, 8, 20, 8), Reply::Refused(9));
}

#[test]
fn m3_meets_the_condition_with_equality_and_m2_does_not() {
    let a = ledger(&NET_A);
    assert!(a.search(&request(1, 8, 20, 8)).unwrap().has_overqualified());
    assert!(!a.search(&request(1, 8, 20, 6)).unwrap().has_overqualified());
}

#[test]
fn m8_after_an_admission() {
    let mut a = ledger(&NET_A);
    assert_eq!(a.admission(16_384, 31, 1, &request(4, 8, 20, 8)), granted(1, 6));
    a.admit(1, 4, &[0, 1, 2]);
    assert_eq!(quote(&a, 6, 8, 20, 8), granted(1, 6));
    assert_eq!(quote(&a, 7, 8, 20, 8), Reply::Refused(10));
    assert_eq!(quote(&a, 7, 9, 20, 8), granted(1, 9));
    assert_eq!(a.release(1), Ok(()));
    assert_eq!(a.entries, Vec::<Entry>::new());
    assert_eq!(quote(&a, 7, 8, 20, 8), granted(1, 6));
}

#[test]
fn m9_to_m11() {
    let same_ends = Request { t: 0, ..request(1, 8, 20, 8) };
    assert_eq!(ledger(&NET_A).quote(16_384, 31, &same_ends), Reply::Refused(8));
    assert_eq!(quote(&ledger(&[]), 1, 8, 20, 8), Reply::Refused(9));
    assert_eq!(quote(&ledger(&NET_B), 1, 2, 8, 4), granted(1, 2));
    assert_eq!(ledger(&NET_B).search(&request(1, 2, 8, 4)).unwrap().x, 8);
}

#[test]
fn the_class_lines_of_net_a() {
    let a = ledger(&NET_A);
    let sample = classes::SAMPLE.concat();
    let class = |number| classes::class(&sample, number, Rules::all());
    let quoted: Vec<Reply> = (0..6)
        .map(|number| {
            let [units, delay_bound, cost_bound, coefficient] = class(number).unwrap();
            quote(&a, units, delay_bound, cost_bound, coefficient)
        })
        .collect();
    let six = granted(1, 6);
    assert_eq!(quoted, [six, six, six, granted(1, 9), six, Reply::Refused(9)]);
    assert_eq!(class(6), Err(16));
}

/// Words, a class, and what the check and the class give, by hand.
#[test]
fn class_tables() {
    let card = [1, 400, 60, 8];
    let with = |place: usize, number: u32| {
        let mut rows = [card, card].concat();
        rows[place] = number;
        rows
    };
    let cases: [(Vec<u32>, u32, Result<classes::Row, u32>); 19] = [
        (vec![], 0, Err(20)),
        (vec![1; 3], 0, Err(20)),
        (vec![1; 5], 0, Err(20)),
        (vec![1; 255], 0, Err(20)),
        (vec![1; 257], 0, Err(20)),
        (vec![1; 260], 0, Err(20)),
        (card.to_vec(), 0, Ok(card)),
        (card.to_vec(), 1, Err(16)),
        (card.repeat(64), 63, Ok(card)),
        (card.repeat(64), 64, Err(16)),
        (with(4, 65_536), 0, Err(21)),
        (with(5, 61_000_001), 9, Err(21)),
        (with(6, 0), 1, Ok([1, 400, 0, 8])),
        (with(5, 0), 1, Ok([1, 0, 60, 8])),
        (with(5, 61_000_000), 1, Ok([1, 61_000_000, 60, 8])),
        (with(6, 31_000_001), 9, Err(21)),
        (with(4, 0), 0, Err(21)),
        (with(7, 9), 0, Err(21)),
        (vec![0; 6], 9, Err(20)),
    ];
    for (rows, number, expected) in cases {
        assert_eq!(classes::class(&rows, number, Rules::all()), expected, "{rows:?}, class {number}");
        let accepted = classes::checked(&rows, Rules::all()).map(|_| ());
        assert_eq!(accepted, if let Err(20 | 21) = expected { expected.map(|_| ()) } else { Ok(()) });
    }
}
