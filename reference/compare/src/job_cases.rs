//! Cases that go through all jobs in one call: every word count of a job list up to past the last limit, each with an
//! answer buffer just long enough and one word short; each number of the first, a middle and the last job at and past the
//! ends of its range; the last places; and jobs that take from each other, with what is refused before them.

use crate::buffer::{Holds, Lent};
use crate::cases::{Call, Case};
use crate::class_tables;
use crate::damage::{Change, Damage, Field, EDGES};
use crate::job_lists::job;
use crate::sweep::{request, with_calls, ENOUGH_WORK};
use document01::opening::{ANSWER_WORDS, JOB_WORDS, MOST_JOBS};
use line::Request;

/// One for each count of whole jobs up to past the most, three for the numbers of a job, and two more.
pub const COUNT: u64 = MOST_JOBS as u64 + 2 + 3 + 2;

/// A job on the small network of the sweep, which is granted there as long as there is a place.
fn granted(circuit: u32) -> [u32; JOB_WORDS] {
    let request = match circuit % 3 {
        0 => request(0, 1),
        1 => Request { delay_bound: 8, ..request(0, 2) },
        _ => request(1, 2),
    };
    job(circuit, &request)
}

/// Jobs with the numbers 1 to 64 and then 65 on: the first 64 in an order in which circuits are put before and between
/// others.
fn jobs(count: usize) -> Vec<u32> {
    let number = |i| if i < 64 { 1 + 37 * i % 64 } else { 1 + i };
    (0..count as u32).flat_map(|i| granted(number(i))).collect()
}

fn all(jobs: Vec<u32>, room: usize) -> Call {
    let answers = Lent { words: room, holds: Holds::Random(room as u64) };
    Call::AdmitJobs { jobs, work: ENOUGH_WORK, answers }
}

/// With room for just these jobs.
fn exact(jobs: &[[u32; JOB_WORDS]]) -> Call {
    all(jobs.concat(), ANSWER_WORDS * jobs.len())
}

fn releases(numbers: impl IntoIterator<Item = u32>) -> impl Iterator<Item = Call> {
    numbers.into_iter().map(|circuit| Call::Release { circuit })
}

/// So many whole jobs and up to six words more, each with an answer buffer one word short and just long enough. Then with
/// words past the last job's, every third job from its own target; and all of them again, where the others are held.
fn lists(seed: u64, count: usize) -> Case {
    let mut calls = Vec::new();
    let room = ANSWER_WORDS * count;
    for words in JOB_WORDS * count..JOB_WORDS * (count + 1) {
        let jobs = jobs(count + 1)[..words].to_vec();
        calls.extend(room.checked_sub(1).map(|short| all(jobs.clone(), short)));
        calls.push(all(jobs, room));
    }
    calls.extend(releases(1..=64));
    let mut some_refused = jobs(count);
    some_refused.chunks_mut(3 * JOB_WORDS).for_each(|three| three[2] = three[1]);
    calls.push(all(some_refused, room + 1 + count));
    calls.push(all(jobs(count), room));
    with_calls(seed, calls)
}

/// Numbers at and past the ends of the ranges of a word of a job.
fn ends(word: usize) -> Vec<u32> {
    let of_row = word.checked_sub(3).map(class_tables::ends);
    EDGES.into_iter().chain(of_row.into_iter().flatten()).collect()
}

/// Three jobs; each word of one of them set to each number.
fn numbers(seed: u64, which: usize) -> Case {
    let mut calls = Vec::new();
    for word in 0..JOB_WORDS {
        for end in ends(word) {
            let mut three = [granted(1), granted(2), granted(3)];
            three[which][word] = end;
            calls.push(exact(&three));
            calls.extend(releases([1, 2, 3, three[which][0]]));
        }
    }
    with_calls(seed, calls)
}

/// 62 circuits, and then the last places: two are granted, then 12, but a held number gives 11 and a number out of range
/// of the request gives 8. With a place free again it is taken.
fn last_places(seed: u64) -> Case {
    let jobs: Vec<_> = (1..=62).map(granted).collect();
    let from_itself = job(99, &request(1, 1));
    let more = [granted(99), from_itself, granted(70), granted(71), granted(99), granted(0), from_itself, granted(72)];
    let calls = vec![
        exact(&jobs),
        exact(&more),
        exact(&more),
        Call::Release { circuit: 31 },
        exact(&[granted(30), granted(72), granted(31), granted(73)]),
        exact(&[]),
    ];
    with_calls(seed, calls)
}

/// Document 01's M8 and more of it on net A: jobs that take what later ones want; the number of a refused job; jobs that
/// with a coefficient of 1, 2 or 5 are granted only where link 3 is full; and problem two between two refused jobs.
fn on_net_a(seed: u64) -> Case {
    let taking = [
        [1, 0, 3, 4, 8, 20, 8],
        [2, 0, 3, 7, 8, 20, 8],
        [2, 0, 3, 6, 8, 20, 8],
        [1, 0, 3, 1, 9, 20, 8],
        [3, 0, 3, 7, 9, 20, 8],
        [4, 0, 0, 1, 8, 20, 8],
        [4, 1, 2, 1, 8, 20, 8],
        [4, 0, 3, 3, 9, 1, 1],
        [0, 0, 3, 1, 8, 20, 8],
        [5, 0, 3, 1, 9, 20, 8],
    ];
    let mut calls = vec![exact(&taking)];
    calls.extend(releases(1..=5));
    for coefficient in 1..=8 {
        calls.push(exact(&[[1, 0, 3, 10, 9, 1, 1], [2, 0, 3, 1, 8, 20, coefficient]]));
        calls.extend(releases(1..=2));
    }
    calls.push(exact(&[[9, 0, 3, 1, 8, 14, 8], [9, 0, 3, 1, 8, 15, 8], [9, 0, 3, 1, 8, 15, 8]]));
    calls.extend(refused_first(&taking.concat()));
    let words = vec![0, 1, 2, 5, 10, 1, 2, 2, 5, 10, 2, 3, 2, 5, 10, 0, 3, 9, 1, 10];
    Case { n: 4, words, hold_times: vec![0; 4], ..with_calls(seed, calls) }
}

/// What is refused before the jobs are looked at, each with all that comes after it: 5, 6, 23 and 24.
fn refused_first(jobs: &[u32]) -> Vec<Call> {
    let damage = Damage { field: Field::Held, word: 2, change: Change::To(65) };
    let mut calls = Vec::new();
    for words in [jobs.len(), jobs.len() - 1, 0] {
        for room in [0, ANSWER_WORDS * (words / JOB_WORDS)] {
            for work in [0, 16_383, 16_384] {
                let work = Lent { words: work, holds: Holds::Random(seed_of(words, room)) };
                let answers = Lent { words: room, holds: Holds::AllBits };
                let call = Call::AdmitJobs { jobs: jobs[..words].to_vec(), work, answers };
                calls.push(Call::Damaged { damage, call: Box::new(call.clone()) });
                calls.push(call);
            }
        }
    }
    calls
}

fn seed_of(words: usize, room: usize) -> u64 {
    (words + 1_000 * room) as u64
}

/// The case of a number below `COUNT`.
pub fn case(seed: u64, number: u64) -> Case {
    match COUNT - number {
        1 => on_net_a(seed),
        2 => last_places(seed),
        left @ 3..=5 => numbers(seed, left as usize - 3),
        _ => lists(seed, number as usize),
    }
}
