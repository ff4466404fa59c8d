//! The calls that need no held area: Load, those on class tables and the link file.

use crate::buffer::Lent;
use crate::memory::Memory;
use crate::station::{refused, Answer, Checked};
use crate::tally::Tally;
use document01::area::{AREA_WORDS, FIRST_HOLD};
use document01::judge::require;
use document01::{classes, link_file, Rules, Table};

pub fn check_classes(rows: &[u32], rules: Rules, memory: &mut Memory, tally: &mut Tally) -> Checked {
    memory.lend_answer(0);
    memory.lend_read(rows);
    let code = line::check_classes(memory.read.slice());
    let expected = classes::checked(rows, rules).err().unwrap_or(0);
    refused(code, expected, memory)?;
    memory.guarded()?;
    tally.saw("check classes", code);
    tally.class_table(rows, code);
    Ok(Answer::default())
}

pub fn class(rows: &[u32], class: u32, rules: Rules, memory: &mut Memory, tally: &mut Tally) -> Checked {
    memory.lend_answer(4);
    memory.lend_read(rows);
    let code = line::class(memory.read.slice(), class, memory.answer.array_mut());
    match classes::class(rows, class, rules) {
        Err(number) => drop(refused(code, number, memory)?),
        Ok(row) => {
            let answered = memory.answer.array();
            require(code == 0 && answered == row, &format!("gave {code} {answered:?}, expected {row:?}"))?;
        }
    }
    memory.guarded()?;
    tally.saw("class", code);
    tally.class_of(class as usize, rows.len() / 4, code);
    Ok(Answer::default())
}

pub fn sample_classes(memory: &mut Memory, tally: &mut Tally) -> Checked {
    memory.lend_answer(24);
    let code = line::sample_classes(memory.answer.array_mut());
    let answered: [u32; 24] = memory.answer.array();
    require(code == 0 && answered[..] == classes::SAMPLE.concat(), &format!("gave {code} {answered:?}"))?;
    memory.guarded()?;
    tally.saw("sample classes", code);
    Ok(Answer::default())
}

/// Load, on an area of its own, which is left in the memory.
pub fn load(n: u32, words: &[u32], hold_times: &[u32], lent: Lent, memory: &mut Memory, tally: &mut Tally) -> Checked {
    memory.lend_out(lent, 0);
    memory.lend_read(words);
    memory.lend_hold_times(hold_times);
    let code = line::load(n, memory.read.slice(), memory.hold_times.slice(), memory.out.slice_mut());
    let expected = if lent.words < AREA_WORDS { Err(1) } else { Table::checked(n, words, hold_times) };
    match expected {
        Err(number) => drop(refused(code, number, memory)?),
        Ok(table) => {
            require(code == 0, &format!("gave {code}, expected to be loaded"))?;
            let (area, past, end) = (memory.out.slice(), 3 + words.len(), FIRST_HOLD + hold_times.len());
            require(area[..3] == [n, table.links.len() as u32, 0], "n, m and 0 were not written")?;
            require(area[3..past] == *words, "the links were not written")?;
            require(memory.out.same_between(past, FIRST_HOLD), "a word past the links changed")?;
            require(area[FIRST_HOLD..end] == *hold_times, "the hold times were not written")?;
            require(memory.out.same_from(end), "a word past the hold times changed")?;
        }
    }
    memory.guarded()?;
    tally.saw("load", code);
    tally.holds.loaded(n, hold_times, code);
    Ok(Answer::default())
}

/// The file lies between other bytes, so that a read past its ends would find them.
pub fn read_link_file(file: &[u8], lent: Lent, rules: Rules, memory: &mut Memory, tally: &mut Tally) -> Checked {
    memory.lend_out(lent, 2);
    let around = [&b"RTLK"[..], file, &b"KLTRKLTR"[..]].concat();
    let lent_file = &around[4..4 + file.len()];
    let code = line::read_link_file(lent_file, memory.out.slice_mut(), memory.answer.array_mut());
    match link_file::read(file, lent.words, rules) {
        Err(number) => drop(refused(code, number, memory)?),
        Ok(contents) => {
            require(code == 0, &format!("gave {code}, expected to be read"))?;
            let answered = memory.answer.array();
            require(answered == [contents.n, contents.m], &format!("read n and m {answered:?}"))?;
            let words = contents.words.len();
            require(memory.out.slice()[..words] == contents.words[..], "the table has other words than the file")?;
            require(memory.out.same_from(words), "a word past the table changed")?;
        }
    }
    memory.guarded()?;
    tally.saw("read link file", code);
    Ok(Answer::default())
}
