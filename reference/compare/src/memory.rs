//! The buffers beside the area, each between guard words: work memory, the one that a call writes its path, its list, its
//! jobs' answers or its table into, the answer array, and words that a call only reads: a table or a job list and, for
//! Load, hold times.

use crate::buffer::{Buffer, Holds, Lent};
use document01::judge::require;
use document01::ledger::WORK_WORDS;

#[derive(Default)]
pub struct Memory {
    pub work: Buffer,
    pub out: Buffer,
    pub answer: Buffer,
    pub read: Buffer,
    pub hold_times: Buffer,
    /// The x of the table that an earlier call left in work memory, if it stands there.
    pub table: Option<u64>,
    /// Turns the contents of every buffer into others of the same length.
    pub other: u64,
}

impl Memory {
    fn turned(&self, lent: Lent) -> Lent {
        match lent.holds {
            Holds::Random(seed) => Lent { holds: Holds::Random(seed ^ self.other), ..lent },
            Holds::Zeros if self.other != 0 => Lent { holds: Holds::AllBits, ..lent },
            Holds::Ones if self.other != 0 => Lent { holds: Holds::Kept, ..lent },
            _ => lent,
        }
    }

    pub fn lend_work(&mut self, lent: Lent) {
        let lent = self.turned(lent);
        if !matches!(lent.holds, Holds::Kept) || lent.words < WORK_WORDS {
            self.table = None;
        }
        self.work.lend(lent);
        self.work.mark();
    }

    /// A buffer that a call writes into, and an answer array of so many words.
    pub fn lend_out(&mut self, lent: Lent, answer: usize) {
        let lent = self.turned(lent);
        self.out.lend(lent);
        self.lend_answer(answer);
    }

    /// An answer array alone.
    pub fn lend_answer(&mut self, words: usize) {
        self.out.mark();
        self.answer.lend(Lent { words, holds: Holds::Random(0x2545_f491_4f6c_dd1d) });
        self.answer.mark();
    }

    /// Words that a call only reads; others stand around them.
    pub fn lend_read(&mut self, words: &[u32]) {
        self.read = Buffer::of(words);
    }

    /// The hold times that Load reads besides.
    pub fn lend_hold_times(&mut self, times: &[u32]) {
        self.hold_times = Buffer::of(times);
    }

    /// Whether a call wrote nothing but work memory.
    pub fn untouched(&self) -> Result<(), String> {
        require(self.out.same_from(0), "a refused call changed a lent buffer")?;
        require(self.answer.same_from(0), "a refused call changed the answer array")
    }

    /// Whether the words around every buffer stand, and those that were only to be read.
    pub fn guarded(&self) -> Result<(), String> {
        let buffers = [&self.work, &self.out, &self.answer, &self.read, &self.hold_times];
        require(buffers.iter().all(|buffer| buffer.guards_stand()), "a word beside a buffer changed")?;
        let kept = self.read.same_from(0) && self.hold_times.same_from(0);
        require(kept, "words that were only to be read changed")
    }
}
