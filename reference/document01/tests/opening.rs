//! All jobs in one call by hand: which lists are taken, what each job is answered and what its 36 words are, where jobs
//! take from each other and where one makes room for another.

use document01::judge::{self, Grant};
use document01::opening::{said, Job, ANSWER_WORDS, JOB_WORDS, MOST_JOBS};
use document01::{Entry, Ledger, Reply, Rules, Table};

const NET_A: [u32; 20] = [0, 1, 2, 5, 10, 1, 2, 2, 5, 10, 2, 3, 2, 5, 10, 0, 3, 9, 1, 10];

const W: usize = 16_384;

/// Circuit number, s, t, units, D, C, coefficient.
type Words = [u32; JOB_WORDS];

/// The words that answer it, up to where only zeros follow: refusal or 0, problem, delay, cost, l and the path.
type Answer = &'static [u32];

fn ledger(n: u32, words: &[u32]) -> Ledger {
    Ledger::new(Table::checked(n, words, &vec![0; n as usize]).unwrap(), Rules::all())
}

fn entry((number, units, path): (u32, u32, &[u32])) -> Entry {
    Entry { number, units, path: path.to_vec() }
}

fn whole(answer: &[u32]) -> Vec<u32> {
    [answer, &vec![0; ANSWER_WORDS - answer.len()][..]].concat()
}

/// The answer's words, judged; gives the path of a grant.
fn judged(ledger: &Ledger, job: &Job, reply: Reply, answer: Answer) -> Vec<u32> {
    let said = said(&whole(answer), &[u32::MAX; ANSWER_WORDS], Rules::all()).unwrap();
    match reply {
        Reply::Refused(number) => {
            assert_eq!(said, Err(number), "{job:?}");
            Vec::new()
        }
        Reply::Granted { problem, least } => {
            let grant: Grant = said.unwrap_or_else(|number| panic!("{job:?} was refused with {number}"));
            assert_eq!(judge::grant(ledger, &job.request, problem, least, &grant), Ok(()), "{job:?}");
            grant.path
        }
    }
}

/// One call, whose jobs are answered so; gives what the call gave.
fn called(ledger: &mut Ledger, jobs: &[(Words, Answer)]) -> u32 {
    let words: Vec<u32> = jobs.iter().flat_map(|(job, _)| *job).collect();
    let read = ledger.jobs(W, &words, ANSWER_WORDS * jobs.len()).unwrap();
    let mut answers = jobs.iter().map(|(_, answer)| *answer);
    let judge = |ledger: &Ledger, job: &Job, reply| Ok(judged(ledger, job, reply, answers.next().unwrap()));
    let count = ledger.admit_jobs(W, &read, judge).unwrap();
    assert_eq!(answers.next(), None);
    count
}

/// What a job is answered alone.
fn alone(ledger: &Ledger, [number, s, t, units, delay_bound, cost_bound, coefficient]: Words) -> Reply {
    let request = document01::Request { s, t, units, delay_bound, cost_bound, coefficient };
    ledger.admission(W, 31, number, &request)
}

/// M3 and M8 in one call. The third job has the number that the second was refused, 10 units are gone after it, and from
/// then on link 3 alone has some.
const ON_NET_A: [(Words, Answer); 10] = [
    ([1, 0, 3, 4, 8, 20, 8], &[0, 1, 6, 15, 3, 0, 1, 2]),
    ([2, 0, 3, 7, 8, 20, 8], &[10]),
    ([2, 0, 3, 6, 8, 20, 8], &[0, 1, 6, 15, 3, 0, 1, 2]),
    ([1, 0, 3, 1, 9, 20, 8], &[11]),
    ([3, 0, 3, 7, 9, 20, 8], &[0, 1, 9, 1, 1, 3]),
    ([4, 0, 0, 1, 8, 20, 8], &[8]),
    ([4, 1, 2, 1, 8, 20, 8], &[9]),
    ([4, 0, 3, 3, 9, 1, 1], &[0, 1, 9, 1, 1, 3]),
    ([0, 0, 3, 1, 8, 20, 8], &[11]),
    ([5, 0, 3, 1, 9, 20, 8], &[9]),
];

#[test]
fn jobs_take_what_later_ones_want() {
    let mut a = ledger(4, &NET_A);
    assert_eq!(called(&mut a, &ON_NET_A), 10);
    let held: [(u32, u32, &[u32]); 4] = [(1, 4, &[0, 1, 2]), (2, 6, &[0, 1, 2]), (3, 7, &[3]), (4, 3, &[3])];
    assert_eq!(a.entries, held.map(entry));
    assert_eq!(a.free(), [0; 4]);
}

/// The second, the seventh and the last are refused only because others came before them.
#[test]
fn jobs_that_would_be_granted_alone() {
    let fresh = ledger(4, &NET_A);
    let replies = [1, 6, 9].map(|at: usize| alone(&fresh, ON_NET_A[at].0));
    assert_eq!(replies, [6, 2, 6].map(|least| Reply::Granted { problem: 1, least }));
}

/// M1, which is refused on a fresh area: with link 3 full the distance is 3 and x is 15, and 3 · ⌈5·15/20⌉ = 12.
#[test]
fn a_job_that_is_granted_only_behind_another() {
    let m1 = [2, 0, 3, 1, 8, 20, 5];
    assert_eq!(alone(&ledger(4, &NET_A), m1), Reply::Refused(10));
    let mut a = ledger(4, &NET_A);
    let jobs: [(Words, Answer); 2] = [([1, 0, 3, 10, 9, 1, 1], &[0, 1, 9, 1, 1, 3]), (m1, &[0, 1, 6, 15, 3, 0, 1, 2])];
    assert_eq!(called(&mut a, &jobs), 2);
}

/// M4, by problem two, between two jobs that are refused.
#[test]
fn problem_two_and_refused_jobs_around_it() {
    let mut a = ledger(4, &NET_A);
    let jobs: [(Words, Answer); 3] = [
        ([9, 0, 3, 1, 8, 14, 8], &[10]),
        ([9, 0, 3, 1, 8, 15, 8], &[0, 2, 6, 15, 3, 0, 1, 2]),
        ([9, 0, 3, 1, 8, 15, 8], &[11]),
    ];
    assert_eq!(called(&mut a, &jobs), 3);
    assert_eq!(a.entries, [entry((9, 1, &[0, 1, 2]))]);
}

#[test]
fn calls_and_single_admissions_mixed() {
    let mut a = ledger(4, &NET_A);
    assert_eq!(called(&mut a, &ON_NET_A[..2]), 2);
    assert_eq!(alone(&a, ON_NET_A[2].0), Reply::Granted { problem: 1, least: 6 });
    a.admit(2, 6, &[0, 1, 2]);
    assert_eq!(called(&mut a, &[]), 0);
    assert_eq!(a.release(1), Ok(()));
    // 4 units are free again.
    assert_eq!(called(&mut a, &[([1, 0, 3, 4, 8, 20, 8], &[0, 1, 6, 15, 3, 0, 1, 2])]), 1);
    assert_eq!(a.entries, [entry((2, 6, &[0, 1, 2])), entry((1, 4, &[0, 1, 2]))]);
}

/// One link that weighs nothing, with room for 100 units. Where 64 are held a held number gives 11 all the same.
#[test]
fn up_to_64_circuits() {
    let job = |number| [number, 0, 1, 1, 0, 0, 1];
    let granted: Answer = &[0, 1, 0, 0, 1, 0];
    let mut one_link = ledger(2, &[0, 1, 0, 0, 100]);
    let jobs: Vec<(Words, Answer)> = (1..=64).map(|number| (job(number), granted)).collect();
    let mut full = one_link.clone();
    assert_eq!(called(&mut full, &jobs), 64);
    assert_eq!(full.free(), [36]);
    assert_eq!(called(&mut full, &[(job(65), &[12]), (job(64), &[11])]), 2);
    assert_eq!(called(&mut one_link, &jobs[1..]), 63);
    assert_eq!(called(&mut one_link, &[(job(1), granted), (job(65), &[12]), (job(1), &[11])]), 3);
}

/// 31 links fill all 36 words.
#[test]
fn the_longest_path() {
    let words: Vec<u32> = (0..31).flat_map(|node| [node, node + 1, 1, 0, 1]).collect();
    let path: Vec<u32> = (0..31).collect();
    let answer = [&[0, 1, 31, 0, 31][..], &path].concat().leak();
    let mut line = ledger(32, &words);
    assert_eq!(called(&mut line, &[([7, 0, 31, 1, 31, 0, 1], answer)]), 1);
    assert_eq!(line.entries, [entry((7, 1, &path))]);
}

#[test]
fn lists_that_are_taken() {
    let a = ledger(4, &NET_A);
    for (words, room) in [(0, 0), (0, 9), (7, 36), (7, 37), (14, 72), (441, 2_268), (448, 2_304), (448, 9_999)] {
        assert_eq!(a.jobs(W, &vec![1; words], room).map(|jobs| jobs.len()), Ok(words / JOB_WORDS));
    }
    assert_eq!(MOST_JOBS, 64);
}

#[test]
fn lists_that_are_refused() {
    let a = ledger(4, &NET_A);
    let refused = |work, words, room| a.jobs(work, &vec![1; words], room).unwrap_err();
    for words in [1, 6, 8, 13, 447, 449, 455, 460, 896] {
        assert_eq!(refused(W, words, 9_999), 23, "{words} words");
        assert_eq!(refused(W, words, 0), 23, "{words} words and no room");
        assert_eq!(refused(W - 1, words, 0), 6);
    }
    for (words, room) in [(7, 0), (7, 35), (14, 36), (14, 71), (448, 2_303), (448, 2_268)] {
        assert_eq!(refused(W, words, room), 24, "{words} words, room for {room}");
        assert_eq!(refused(0, words, room), 6);
    }
}

#[test]
fn unused_answer_words_are_0() {
    let read = |words: &[u32]| said(words, &[7; ANSWER_WORDS], Rules::all());
    let grant = Grant { problem: 2, delay: 6, cost: 15, path: vec![0, 1, 2] };
    for (answer, used, answered) in [(&[9][..], 1, Err(9)), (&[0, 2, 6, 15, 3, 0, 1, 2], 8, Ok(grant))] {
        assert_eq!(read(&whole(answer)), Ok(answered));
        for at in used..ANSWER_WORDS {
            for other in [1, 7, u32::MAX] {
                let mut words = whole(answer);
                words[at] = other;
                assert!(read(&words).is_err_and(|why| why.contains(&format!("answer word {at} is {other}"))));
            }
        }
    }
    for links in [0, 32, u32::MAX] {
        assert!(read(&whole(&[0, 1, 6, 15, links])).is_err());
    }
}
