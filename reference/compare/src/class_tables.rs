//! Class tables: rows in range, then perhaps another word count, or one number at or past an end of its range.

use crate::cases::Call;
use seeded::Random;

/// The least and the greatest of units, D, C and coefficient.
pub const RANGES: [(u32, u32); 4] = [(1, 65_535), (0, 61_000_000), (0, 31_000_000), (1, 8)];

/// Word counts on both sides of every limit.
pub const COUNTS: [usize; 13] = [0, 1, 2, 3, 4, 5, 7, 8, 252, 255, 256, 257, 260];

/// The numbers at and past both ends of the range of a word; nothing is below a bound of 0.
pub fn ends(place: usize) -> Vec<u32> {
    let (least, greatest) = RANGES[place % 4];
    least.checked_sub(1).into_iter().chain([least, greatest, greatest + 1]).collect()
}

fn number(rng: &mut Random, place: usize) -> u32 {
    let (least, greatest) = RANGES[place % 4];
    if rng.one_in(3) {
        rng.pick(&[least, greatest])
    } else {
        rng.range(least, greatest)
    }
}

fn table(rng: &mut Random) -> Vec<u32> {
    let rows = if rng.one_in(8) { rng.range(60, 64) } else { rng.range(1, 8) } as usize;
    let mut words: Vec<u32> = (0..4 * rows).map(|place| number(rng, place)).collect();
    match rng.range(0, 3) {
        0 => words.resize(rng.pick(&COUNTS), 1),
        1 => {
            let place = rng.range(0, words.len() as u32 - 1) as usize;
            words[place] = if rng.one_in(6) { u32::MAX } else { rng.pick(&ends(place)) };
        }
        _ => {}
    }
    words
}

/// A class on either side of the row count, or any.
fn class(rng: &mut Random, words: &[u32]) -> u32 {
    let rows = words.len() as u32 / 4;
    match rng.range(0, 4) {
        0 => rng.range(0, rows + 2),
        1 => rng.pick(&[256, u32::MAX, rows * 4]),
        _ => (rows + rng.range(0, 2)).saturating_sub(1),
    }
}

/// A table that is only checked, or a class of it.
pub fn call(rng: &mut Random) -> Call {
    let rows = table(rng);
    if rng.one_in(3) {
        return Call::CheckClasses { rows };
    }
    let class = class(rng, &rows);
    Call::Class { rows, class }
}

/// Every word count up to past the last limit, each number of a short and of a full table at and past both ends of its
/// range, and every class up to past the last row.
pub fn all() -> Vec<Call> {
    let mut calls = vec![Call::SampleClasses];
    for count in 0..=270 {
        let rows = vec![1; count];
        let classes = [0, count as u32 / 4, (count as u32 / 4).saturating_sub(1)];
        calls.extend(classes.map(|class| Call::Class { rows: rows.clone(), class }));
        calls.push(Call::CheckClasses { rows });
        // Past every range, so that 20 has to come ahead of 21.
        calls.push(Call::CheckClasses { rows: vec![0; count] });
        calls.push(Call::Class { rows: vec![0; count], class: 99 });
    }
    for count in [4, 8, 256] {
        for place in 0..count {
            for end in ends(place) {
                let mut rows = vec![1; count];
                rows[place] = end;
                calls.push(Call::CheckClasses { rows: rows.clone() });
                calls.push(Call::Class { rows: rows.clone(), class: 0 });
                calls.push(Call::Class { rows, class: place as u32 / 4 });
            }
        }
    }
    let rows: Vec<u32> = (0..256).map(|place| RANGES[place % 4].1 - (place as u32 / 4) % 2).collect();
    calls.extend((0..=66).map(|class| Call::Class { rows: rows.clone(), class }));
    calls
}
