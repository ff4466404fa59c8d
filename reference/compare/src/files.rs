//! Link files, whole and damaged.

use crate::nets::Net;
use document01::link_file;
use seeded::Random;

/// Bytes of a file, most of them a link file or nearly one.
pub fn file(rng: &mut Random, net: &Net) -> Vec<u8> {
    let notes: Vec<u8> = (0..rng.pick(&[0, 0, 1, 3, 4, 19, 20, 21, 64])).map(|_| rng.word() as u8).collect();
    let file = link_file::write(&notes, net.n, &net.words);
    if rng.one_in(3) {
        return file;
    }
    damaged(rng, file)
}

/// Puts a word where a trailer has its offset (0), m (1) or n (2).
fn put(file: &mut [u8], which: usize, word: u32) {
    let at = file.len() - 16 + 4 * which;
    file[at..at + 4].copy_from_slice(&word.to_le_bytes());
}

fn get(file: &[u8], which: usize) -> u32 {
    let at = file.len() - 16 + 4 * which;
    u32::from_le_bytes(file[at..at + 4].try_into().unwrap())
}

fn damaged(rng: &mut Random, mut file: Vec<u8>) -> Vec<u8> {
    let (offset, m) = (get(&file, 0), get(&file, 1));
    match rng.range(0, 8) {
        0 => file.truncate(rng.range(0, file.len() as u32) as usize),
        1 => file.truncate(rng.pick(&[0, 4, 15, 16])),
        2 => {
            let at = file.len() - rng.range(1, 4) as usize;
            file[at] ^= 1 << rng.range(0, 7);
        }
        3 => put(&mut file, 0, rng.pick(&[offset + 1, offset.wrapping_sub(1), offset + 20, u32::MAX])),
        4 => put(&mut file, 1, rng.pick(&[m + 1, m.wrapping_sub(1), 256, 257, u32::MAX])),
        // Another split of the same bytes into notes and records.
        5 if m > 0 => {
            put(&mut file, 0, offset + 20);
            put(&mut file, 1, m - 1);
        }
        // Sums that fit once they wrap at 2^32.
        6 => {
            put(&mut file, 0, offset.wrapping_sub(20));
            put(&mut file, 1, m + 1);
        }
        7 => file = (0..rng.range(0, 60)).map(|_| rng.word() as u8).chain(*b"RTLK").collect(),
        _ => file.insert(0, 0),
    }
    file
}
