//! The link file, read from its end: the trailer says where the records are.

use crate::rules::{Rule, Rules};

/// What a link file holds: n, m and the links' words.
#[derive(Clone, Debug, PartialEq, Eq)]
pub struct Contents {
    pub n: u32,
    pub m: u32,
    pub words: Vec<u32>,
}

fn words_of(bytes: &[u8]) -> Vec<u32> {
    bytes.chunks_exact(4).map(|four| u32::from_le_bytes(four.try_into().unwrap())).collect()
}

/// 17, 18 and 19, else the contents; `room` is the length of the table buffer.
pub fn read(file: &[u8], room: usize, rules: Rules) -> Result<Contents, u32> {
    let body = file.strip_suffix(b"RTLK").filter(|body| body.len() >= 12).ok_or(17u32)?;
    let (records, trailer) = body.split_at(body.len() - 12);
    let [offset, m, n] = words_of(trailer)[..] else { unreachable!("twelve bytes are three words") };
    let whole = u64::from(offset) + 20 * u64::from(m) == records.len() as u64;
    if m > 256 || !whole {
        return Err(18);
    }
    if (room as u64) < 5 * u64::from(m) {
        return Err(19);
    }
    let from = if rules.hold(Rule::RecordsFromOffset) { offset as usize } else { 0 };
    Ok(Contents { n, m, words: words_of(&records[from..from + 20 * m as usize]) })
}

/// A link file of these parts.
pub fn write(notes: &[u8], n: u32, words: &[u32]) -> Vec<u8> {
    let mut file = notes.to_vec();
    let trailer = [notes.len() as u32, words.len() as u32 / 5, n];
    file.extend(words.iter().chain(&trailer).flat_map(|word| word.to_le_bytes()));
    file.extend(b"RTLK");
    file
}
