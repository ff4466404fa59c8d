//! A lent slice of words with guard words on both sides, and what it held before a call.

const GUARD: usize = 8;

/// What a buffer holds before a call.
#[derive(Clone, Copy, Debug)]
pub enum Holds {
    Random(u64),
    /// What the last call left in it.
    Kept,
    Zeros,
    Ones,
    AllBits,
}

/// How long a buffer is, and what it holds.
#[derive(Clone, Copy, Debug)]
pub struct Lent {
    pub words: usize,
    pub holds: Holds,
}

#[derive(Clone)]
pub struct Buffer {
    words: Vec<u32>,
    before: Vec<u32>,
}

impl Default for Buffer {
    fn default() -> Buffer {
        Buffer::of(&[])
    }
}

fn guard(at: usize) -> u32 {
    0x5bd1_e995u32.wrapping_mul(at as u32 + 1)
}

/// Random words, quickly (xorshift).
fn scribble(words: &mut [u32], seed: u64) {
    let mut z = seed | 1;
    for two in words.chunks_mut(2) {
        z ^= z << 13;
        z ^= z >> 7;
        z ^= z << 17;
        two[0] = z as u32;
        if let Some(word) = two.get_mut(1) {
            *word = (z >> 32) as u32;
        }
    }
}

impl Buffer {
    pub fn of(words: &[u32]) -> Buffer {
        let mut buffer = Buffer { words: Vec::new(), before: Vec::new() };
        buffer.lend(Lent { words: words.len(), holds: Holds::Zeros });
        buffer.slice_mut().copy_from_slice(words);
        buffer.mark();
        buffer
    }

    /// Makes it as long as asked and fills it; guard words stand before and behind.
    pub fn lend(&mut self, lent: Lent) {
        self.words.resize(lent.words + 2 * GUARD, 0);
        match lent.holds {
            Holds::Random(seed) => scribble(self.slice_mut(), seed),
            Holds::Kept => {}
            Holds::Zeros => self.slice_mut().fill(0),
            Holds::Ones => self.slice_mut().fill(1),
            Holds::AllBits => self.slice_mut().fill(u32::MAX),
        }
        for at in 0..GUARD {
            self.words[at] = guard(at);
            let behind = GUARD + lent.words + at;
            self.words[behind] = guard(behind);
        }
    }

    pub fn slice(&self) -> &[u32] {
        &self.words[GUARD..self.words.len() - GUARD]
    }

    pub fn slice_mut(&mut self) -> &mut [u32] {
        let end = self.words.len() - GUARD;
        &mut self.words[GUARD..end]
    }

    /// An array of N words, where it was lent as so many.
    pub fn array<const N: usize>(&self) -> [u32; N] {
        self.slice().try_into().expect("lent as so many words")
    }

    pub fn array_mut<const N: usize>(&mut self) -> &mut [u32; N] {
        self.slice_mut().try_into().expect("lent as so many words")
    }

    /// Remembers the words as they stand before a call.
    pub fn mark(&mut self) {
        self.before.clear();
        self.before.extend_from_slice(&self.words[GUARD..self.words.len() - GUARD]);
    }

    pub fn before(&self) -> &[u32] {
        &self.before
    }

    /// Whether all words from `from` on are those that were marked.
    pub fn same_from(&self, from: usize) -> bool {
        self.slice()[from..] == self.before[from..]
    }

    /// Whether the words from `from` on, up to but without `to`, are those that were marked.
    pub fn same_between(&self, from: usize, to: usize) -> bool {
        self.slice()[from..to] == self.before[from..to]
    }

    pub fn guards_stand(&self) -> bool {
        let behind = self.words.len() - GUARD;
        (0..GUARD).all(|at| self.words[at] == guard(at) && self.words[behind + at] == guard(behind + at))
    }
}
