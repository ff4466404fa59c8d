//! Hold times by hand: what loads, what an area says, and answers that hold times decide.
//!
//! Net Q has n = 4. From 0 to 3 lead two paths, 0 1 by node 1 and 2 3 by node 2; from 0 to 1 leads link 0 alone.
//! Without hold times they take 8 and 4. Node 1 holds a message for 2 and node 2 for 7, so they take 10 and 11; nodes 0
//! and 3 hold it for 1,000,000, which counts where they are passed and not where a path begins or ends. Bounds are
//! (D, C, coefficient), and x is twice the coefficient.

use document01::judge::{self, Grant};
use document01::{area, Ledger, Reply, Request, Rules, Table};

const NET_Q: [u32; 20] = [0, 1, 4, 1, 5, 1, 3, 4, 2, 5, 0, 2, 2, 2, 5, 2, 3, 2, 2, 5];
const HOLDS: [u32; 4] = [1_000_000, 2, 7, 1_000_000];

fn ledger(holds: [u32; 4]) -> Ledger {
    Ledger::new(Table::checked(4, &NET_Q, &holds).unwrap(), Rules::all())
}

fn request(delay_bound: u32, cost_bound: u32, coefficient: u32) -> Request {
    Request { s: 0, t: 3, units: 1, delay_bound, cost_bound, coefficient }
}

/// What Net Q answers to the same request with its hold times and without.
fn both(request: Request) -> [Reply; 2] {
    [HOLDS, [0; 4]].map(|holds| ledger(holds).quote(16_384, 31, &request))
}

fn granted(problem: u32, least: u64) -> Reply {
    Reply::Granted { problem, least }
}

#[test]
fn the_way_that_is_quicker_without_hold_times_is_slower_with_them() {
    assert_eq!(both(request(11, 4, 1)), [granted(1, 10), granted(1, 4)]);
    assert_eq!(both(request(9, 10, 8)), [Reply::Refused(10), granted(1, 4)]);
    let to_a_holding_node = Request { t: 1, ..request(4, 10, 8) };
    assert_eq!(both(to_a_holding_node), [granted(1, 4), granted(1, 4)]);
}

#[test]
fn problem_two_scales_a_link_together_with_the_hold_time_behind_it() {
    // C = 3 leaves path 0 1, whose links' costs scale to 1 + 2 > 2. With D = 12 its delays scale to ⌈6·2/12⌉ + ⌈4·2/12⌉
    // = 2 (apart, 4, 2 and 4 would scale to 3), with D = 11 to 2 + 1.
    assert_eq!(both(request(12, 3, 1)), [granted(2, 3), granted(2, 3)]);
    assert_eq!(both(request(11, 3, 1)), [Reply::Refused(10), granted(2, 3)]);
}

#[test]
fn overqualified_by_delay_with_hold_times() {
    // 10·2 + 2·D ≤ 3·D from D = 20 on; without hold times 8·2 + 2·D ≤ 3·D from D = 16 on.
    for (holds, least) in [(HOLDS, 20), ([0; 4], 16)] {
        let has = |delay_bound| ledger(holds).search(&request(delay_bound, 3, 1)).unwrap().has_overqualified();
        assert!(has(least) && !has(least - 1));
    }
}

#[test]
fn where_no_time_may_pass_no_node_may_hold() {
    let words = [0, 1, 0, 0, 5, 1, 2, 0, 0, 5];
    let quote = |hold| {
        let table = Table::checked(3, &words, &[9, hold, 9]).unwrap();
        Ledger::new(table, Rules::all()).quote(16_384, 31, &Request { t: 2, ..request(0, 0, 8) })
    };
    assert_eq!([quote(0), quote(1)], [granted(1, 0), Reply::Refused(10)]);
}

#[test]
fn the_longest_path_adds_up_to_the_greatest_bound() {
    let words: Vec<u32> = (0..31).flat_map(|node| [node, node + 1, 1_000_000, 0, 5]).collect();
    let longest = Ledger::new(Table::checked(32, &words, &[1_000_000; 32]).unwrap(), Rules::all());
    let quote =
        |delay_bound, cost_bound| longest.quote(16_384, 31, &Request { t: 31, ..request(delay_bound, cost_bound, 8) });
    assert_eq!(quote(61_000_000, 31_000_000), granted(1, 61_000_000));
    assert_eq!(quote(60_999_999, 31_000_000), Reply::Refused(10));
    assert_eq!(quote(61_000_001, 31_000_000), Reply::Refused(8));
    assert_eq!(quote(61_000_000, 31_000_001), Reply::Refused(8));
}

#[test]
fn what_loads() {
    let checked = |n, words: &[u32], holds: &[u32]| Table::checked(n, words, holds).map(|table| table.holds);
    let most = [1_000_000; 4];
    assert_eq!(checked(4, &NET_Q, &most), Ok(most.to_vec()));
    let over = [0, 0, 0, 1_000_001];
    for wrong in [&[][..], &[0; 3], &[0; 5], &over] {
        assert_eq!(checked(4, &NET_Q, wrong), Err(22));
        assert_eq!(checked(4, &[0, 4, 4, 1, 5], wrong), Err(4));
        assert_eq!(checked(4, &NET_Q[1..], wrong), Err(3));
        assert_eq!(checked(1, &NET_Q, wrong), Err(2));
    }
}

#[test]
fn what_an_area_says() {
    let mut words = [&[4, 4, 0][..], &NET_Q].concat();
    words.resize(area::AREA_WORDS, u32::MAX);
    words[area::FIRST_HOLD..area::FIRST_HOLD + 4].copy_from_slice(&HOLDS);
    let read = |words: &[u32]| area::read(words, Rules::all()).map(|ledger| ledger.table.holds);
    assert_eq!(read(&words), Some(HOLDS.to_vec()));
    assert_eq!(read(&words[..3_490]), None);
    for (node, hold) in HOLDS.into_iter().enumerate() {
        words[area::FIRST_HOLD + node] = 1_000_001;
        assert_eq!(read(&words), None);
        words[area::FIRST_HOLD + node] = hold;
    }
    for n in [5, 33, u32::MAX] {
        words[0] = n;
        assert_eq!(read(&words), None);
    }
}

#[test]
fn totals_without_hold_times_or_with_those_of_the_ends() {
    let judged = |delay| {
        let grant = Grant { problem: 1, delay, cost: 3, path: vec![0, 1] };
        judge::grant(&ledger(HOLDS), &request(5_000_000, 4, 1), 1, 10, &grant)
    };
    assert_eq!(judged(10), Ok(()));
    for delay in [8, 1_000_010, 2_000_010] {
        assert!(judged(delay).is_err_and(|why| why.contains("inner nodes' hold times")));
    }
}
