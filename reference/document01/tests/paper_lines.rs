//! The cases of docs/paper-lines.md, copied from there: the paper's lines must leave these tables. And on drawn networks
//! d is what every path says, and with a line changed it is not.

use document01::lines::{ebf, least_of_paths, Lines};
use document01::{Ledger, Request, Rule, Rules, Table};
use seeded::Random;

const NET_P: [u32; 40] = [
    2, 3, 2, 0, 9, //
    1, 2, 2, 0, 9, //
    0, 1, 2, 1, 9, //
    0, 1, 2, 0, 9, //
    0, 1, 2, 0, 9, //
    0, 3, 8, 0, 9, //
    0, 2, 1, 0, 0, //
    1, 3, 1, 2, 9,
];

const INF: Option<u64> = None;
const NIL: Option<usize> = None;

fn request(delay_bound: u32) -> Request {
    Request { s: 0, t: 3, units: 1, delay_bound, cost_bound: 2, coefficient: 2 }
}

fn with_room_on_link_6() -> [u32; 40] {
    let mut words = NET_P;
    words[5 * 6 + 4] = 9;
    words
}

/// What the lines leave for this problem on net P with this D.
fn left(words: &[u32], problem: u32, delay_bound: u32, rules: Rules) -> Lines {
    let ledger = Ledger::new(Table::checked(4, words, &[0; 4]).unwrap(), Rules::all());
    let request = request(delay_bound);
    let search = ledger.search(&request).unwrap();
    ebf(&search.problem(problem).graph(), rules)
}

fn problem_one(rules: Rules) -> Lines {
    left(&NET_P, 1, 6, rules)
}

#[test]
fn links_5_and_6_by_hand() {
    let ledger = Ledger::new(Table::checked(4, &NET_P, &[0; 4]).unwrap(), Rules::all());
    let search = ledger.search(&request(6)).unwrap();
    let graph = search.problem(1).graph();
    assert_eq!(graph.x, 2);
    assert_eq!(graph.edges.iter().map(|edge| edge.link).collect::<Vec<_>>(), [0, 1, 2, 3, 4, 5, 7]);
}

#[test]
fn p1_and_p2_problem_one() {
    let d = [[0, 0, 0], [2, 2, 2], [4, 4, 4], [6, 6, 3]];
    let pi = [[NIL; 3], [Some(3), Some(2), Some(2)], [Some(1); 3], [Some(0), Some(0), Some(7)]];
    for delay_bound in [6, 4] {
        let lines = left(&NET_P, 1, delay_bound, Rules::all());
        assert_eq!(lines.d, d.map(|row| row.map(Some).to_vec()));
        assert_eq!(lines.pi, pi.map(|row| row.to_vec()));
    }
}

#[test]
fn p3_problem_two() {
    let d = [[Some(0); 3], [INF, INF, Some(0)], [INF; 3], [INF; 3]];
    let pi = [[NIL; 3], [NIL, NIL, Some(3)], [NIL; 3], [NIL; 3]];
    let lines = left(&NET_P, 2, 2, Rules::all());
    assert_eq!(lines.d, d.map(|row| row.to_vec()));
    assert_eq!(lines.pi, pi.map(|row| row.to_vec()));
}

/// What each line is needed for.
#[test]
fn with_a_line_changed() {
    assert_eq!(left(&with_room_on_link_6(), 1, 6, Rules::all()).d[2], [Some(1); 3]);
    let changed = |rule| problem_one(Rules::without(rule));
    assert_eq!(changed(Rule::LinksRise).pi[1][0], Some(4));
    assert_eq!(changed(Rule::KRises).pi[1], [Some(3); 3]);
    assert_eq!(changed(Rule::EveryRound).d[3][0], Some(8));
    assert_eq!(changed(Rule::LinkKept).pi[1][0], Some(0));
    assert_eq!(changed(Rule::LessAlone).pi[1][0], Some(4));
    let short = changed(Rule::LastColumn).d;
    assert_eq!([short[1][2], short[2][2], short[3][2]], [INF; 3]);
}

/// A network of small weights, many of them 0, with hold times and links of no room.
fn drawn(rng: &mut Random) -> Ledger {
    let n = rng.range(2, 7);
    let mut words = Vec::new();
    for _ in 0..rng.range(1, 3 * n) {
        let from = rng.range(0, n - 1);
        let to = (from + rng.range(1, n - 1)) % n;
        words.extend([from, to, rng.range(0, 4), rng.range(0, 4), rng.range(0, 4)]);
    }
    let holds: Vec<u32> = (0..n).map(|_| rng.range(0, 2)).collect();
    Ledger::new(Table::checked(n, &words, &holds).unwrap(), Rules::all())
}

#[test]
fn on_drawn_networks_d_is_what_every_path_says() {
    let mut rng = Random::new(5);
    let (mut looked_at, mut noticed) = (0, [0; 3]);
    for _ in 0..2_000 {
        let ledger = drawn(&mut rng);
        let n = ledger.table.n;
        let s = rng.range(0, n - 1);
        let t = (s + rng.range(1, n - 1)) % n;
        let (delay_bound, cost_bound) = (rng.range(0, 12), rng.range(0, 12));
        let request = Request { s, t, units: 1, delay_bound, cost_bound, coefficient: rng.range(1, 4) };
        let Some(search) = ledger.search(&request) else {
            continue;
        };
        for problem in [1, 2] {
            let graph = search.problem(problem).graph();
            let lines = ebf(&graph, Rules::all());
            let least = least_of_paths(&ledger.table, &search.usable, &graph);
            assert_eq!(least, Some(lines.d), "{:?} {request:?}", ledger.table);
            looked_at += 1;
            for (count, rule) in noticed.iter_mut().zip([Rule::SourceAtEachK, Rule::LastColumn, Rule::EveryRound]) {
                *count += u32::from(least != Some(ebf(&graph, Rules::without(rule)).d));
            }
        }
    }
    assert!(looked_at > 1_000 && noticed.iter().all(|&count| count > 50), "{looked_at} tables, {noticed:?} noticed");
}
