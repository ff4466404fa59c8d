//! The list of calls of the program `history` (docs/history.md): its stored output, judged line by line. The rows are
//! copied from the table there.

use document01::judge::{self, Grant};
use document01::{Entry, Ledger, Reply, Request, Rules, Table};

const NET_A: [u32; 20] = [0, 1, 2, 5, 10, 1, 2, 2, 5, 10, 2, 3, 2, 5, 10, 0, 3, 9, 1, 10];

enum Row {
    /// s, t, units, D, C, coefficient, and the lengths of work memory and path buffer.
    Quote([u32; 6], usize, usize),
    Admission(u32, [u32; 6], usize, usize),
    Release(u32),
    /// All of `JOBS` in one call, and the lengths of work memory and answer buffer.
    Jobs(usize, usize),
}
use Row::{Admission, Jobs, Quote, Release};

/// Circuit number, s, t, units, D, C, coefficient.
const JOBS: [(u32, [u32; 6]); 4] =
    [(21, [0, 3, 6, 8, 20, 8]), (22, [0, 3, 1, 8, 20, 8]), (21, [0, 1, 1, 2, 5, 1]), (22, [0, 1, 1, 2, 5, 1])];
const ANSWER_WORDS: usize = 36;

const W: usize = 16_384;
const ROWS: [Row; 30] = [
    Quote([0, 3, 1, 8, 20, 8], W, 31),
    Admission(7, [0, 3, 4, 8, 20, 8], W, 31),
    Quote([0, 3, 6, 8, 20, 8], W, 31),
    Quote([0, 3, 7, 8, 20, 8], W, 31),
    Admission(7, [0, 3, 1, 8, 20, 8], W, 31),
    Admission(0, [0, 3, 1, 8, 20, 8], W, 31),
    Admission(8, [0, 3, 7, 9, 20, 8], W, 31),
    Quote([0, 3, 7, 9, 20, 8], W, 31),
    Admission(9, [0, 3, 6, 8, 20, 8], W, 31),
    Quote([0, 3, 1, 8, 20, 8], W, 31),
    Release(7),
    Quote([0, 3, 4, 8, 20, 8], W, 31),
    Release(7),
    Admission(7, [0, 3, 2, 8, 15, 8], W, 31),
    Quote([0, 3, 3, 8, 20, 8], W, 31),
    Admission(10, [0, 3, 1, 8, 20, 8], 8, 31),
    Quote([0, 3, 1, 8, 20, 8], W, 30),
    Quote([0, 0, 1, 8, 20, 8], W, 31),
    Admission(65_535, [1, 3, 2, 4, 10, 8], W, 31),
    Quote([0, 3, 1, 8, 20, 8], W, 31),
    Quote([1, 2, 1, 8, 20, 8], W, 31),
    Release(8),
    Quote([0, 3, 10, 9, 1, 1], W, 31),
    Admission(8, [0, 3, 10, 9, 1, 1], W, 31),
    Admission(65_536, [0, 3, 1, 9, 1, 1], W, 31),
    Release(9),
    Jobs(W, 149),
    Quote([0, 1, 2, 2, 5, 1], W, 31),
    Jobs(8, 149),
    Jobs(W, 143),
];

fn request(r: &[u32; 6]) -> Request {
    Request { s: r[0], t: r[1], units: r[2], delay_bound: r[3], cost_bound: r[4], coefficient: r[5] }
}

fn numbers(text: &str) -> Vec<u32> {
    text.split(' ').map(|field| field.parse().unwrap()).collect()
}

/// The printed answer to a request, against the ledger's reply; gives the path of a grant.
fn judged(ledger: &Ledger, request: &Request, reply: Reply, printed: &str) -> Vec<u32> {
    match reply {
        Reply::Refused(number) => {
            assert_eq!(printed, format!("0 {number}"));
            Vec::new()
        }
        Reply::Granted { problem, least } => {
            let fields = numbers(printed);
            let path = fields[3..].to_vec();
            let grant = Grant { problem: fields[0], delay: fields[1], cost: fields[2], path };
            assert_eq!(judge::grant(ledger, request, problem, least, &grant), Ok(()), "{printed}");
            grant.path
        }
    }
}

/// The printed answer to an admission, which is entered in the ledger where it is granted.
fn judge_admission(ledger: &mut Ledger, number: u32, r: &[u32; 6], work: usize, path: usize, printed: &str) {
    let granted = judged(ledger, &request(r), ledger.admission(work, path, number, &request(r)), printed);
    if !granted.is_empty() {
        ledger.admit(number, r[2], &granted);
    }
}

/// The words that answer a job, as an admission's answer is printed: a refusal, or problem, delay, cost and links. Those
/// that are not used must be 0.
fn as_printed(words: &[u32]) -> String {
    let (used, unused) = match words[0] {
        0 => words.split_at(5 + words[4] as usize),
        _ => words.split_at(1),
    };
    assert!(unused.iter().all(|&word| word == 0), "{words:?}");
    let fields = match used {
        [0, problem, delay, cost, _, path @ ..] => [&[*problem, *delay, *cost], path].concat(),
        _ => vec![0, words[0]],
    };
    fields.iter().map(u32::to_string).collect::<Vec<_>>().join(" ")
}

/// The printed answer to all jobs in one call: each job of it is one admission, with a path buffer of 31 words.
fn judge_jobs(ledger: &mut Ledger, work: usize, answers: usize, printed: &str) {
    let needed = ANSWER_WORDS * JOBS.len();
    if work < W || answers < needed {
        assert_eq!(printed, format!("0 {}", if work < W { 6 } else { 24 }));
        return;
    }
    let fields = numbers(printed);
    assert_eq!((fields[0] as usize, fields.len()), (JOBS.len(), 1 + needed));
    for ((number, r), words) in JOBS.iter().zip(fields[1..].chunks(ANSWER_WORDS)) {
        judge_admission(ledger, *number, r, work, 31, &as_printed(words));
    }
}

fn judge_row(ledger: &mut Ledger, row: &Row, name: &str, printed: &str) {
    match row {
        Quote(r, work, path) => {
            assert_eq!(name, "quote");
            judged(ledger, &request(r), ledger.quote(*work, *path, &request(r)), printed);
        }
        Admission(number, r, work, path) => {
            assert_eq!(name, "admission");
            judge_admission(ledger, *number, r, *work, *path, printed);
        }
        Release(number) => {
            assert_eq!(name, "release");
            let expected = ledger.release(*number).map_or_else(|number| format!("0 {number}"), |()| "released".into());
            assert_eq!(printed, expected);
        }
        Jobs(work, answers) => {
            assert_eq!(name, "jobs");
            judge_jobs(ledger, *work, *answers, printed);
        }
    }
}

/// One of the two runs; `all` says whether the quotes are in it.
fn judge_run(text: &str, all: bool) {
    let mut ledger = Ledger::new(Table::checked(4, &NET_A, &[0; 4]).unwrap(), Rules::all());
    let mut lines = text.lines();
    assert_eq!(lines.next(), Some("loaded"));
    for (number, row) in ROWS.iter().enumerate().filter(|(_, row)| all || !matches!(row, Quote(..))) {
        let line = lines.next().unwrap();
        let [place, name, printed] = line.splitn(3, ' ').collect::<Vec<_>>()[..] else { panic!("{line}") };
        assert_eq!(place, number.to_string());
        judge_row(&mut ledger, row, name, printed);
    }
    let (circuits, free): (Vec<&str>, Vec<&str>) = lines.partition(|line| line.starts_with("circuit "));
    let held: Vec<Entry> = circuits
        .iter()
        .map(|line| numbers(&line["circuit ".len()..]))
        .map(|words| Entry { number: words[0], units: words[1], path: words[2..].to_vec() })
        .collect();
    assert_eq!(held, ledger.bookings());
    let expected: Vec<String> =
        ledger.free().iter().enumerate().map(|(link, free)| format!("free {link} {free}")).collect();
    assert_eq!(free, expected);
}

#[test]
fn the_stored_output_of_the_history() {
    let stored = concat!(env!("CARGO_MANIFEST_DIR"), "/../../crates/history/stdout");
    let text = std::fs::read_to_string(stored).unwrap();
    let (first, second) = text.split_once("quotes struck\n").unwrap();
    judge_run(first, true);
    judge_run(second, false);
}
