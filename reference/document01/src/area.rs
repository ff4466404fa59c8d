//! A station area: its ledger where it is well formed, and the words in which a ledger's entries stand there.

use crate::ledger::{Entry, Ledger, MOST_HELD, PATH_WORDS};
use crate::rules::{Rule, Rules};
use crate::table::{Table, LINK_WORDS, MOST_LINKS, MOST_UNITS};

pub const AREA_WORDS: usize = 3_491;
pub const FIRST_LINK: usize = 3;
pub const FIRST_CIRCUIT: usize = 1_283;
pub const CIRCUIT_WORDS: usize = 34;
pub const FIRST_HOLD: usize = 3_459;

/// What a well-formed area says, or nothing where it is too short or not well formed: then a call gives 5.
pub fn read(words: &[u32], rules: Rules) -> Option<Ledger> {
    if words.len() < AREA_WORDS {
        return None;
    }
    let (n, m, held) = (words[0], words[1] as usize, words[2] as usize);
    if m > MOST_LINKS || held > MOST_HELD {
        return None;
    }
    // The hold words of nodes that are not there may hold anything.
    let holds = words[FIRST_HOLD..AREA_WORDS].get(..n as usize)?;
    let table = Table::checked(n, &words[FIRST_LINK..FIRST_LINK + LINK_WORDS * m], holds).ok()?;
    let mut ledger = Ledger::new(table, rules);
    for circuit in words[FIRST_CIRCUIT..].chunks(CIRCUIT_WORDS).take(held) {
        read_circuit(&mut ledger, circuit)?;
    }
    // A sort that leaves equal numbers as they stand: whether they may be equal is another rule.
    let rising = ledger.by_number().into_iter().eq(&ledger.entries);
    let over = ledger.free().iter().any(|&free| free < 0);
    (rising && !over).then_some(ledger)
}

fn read_circuit(ledger: &mut Ledger, words: &[u32]) -> Option<()> {
    let (number, units, count) = (words[0], words[1], words[2] as usize);
    let in_range = |word: u32| (1..=MOST_UNITS).contains(&word);
    if !in_range(number) || !in_range(units) || !(1..=PATH_WORDS).contains(&count) {
        return None;
    }
    if ledger.holds(number) && ledger.rules().hold(Rule::NumbersDiffer) {
        return None;
    }
    let (path, unused) = words[3..].split_at(count);
    if !ledger.table.is_path(path) {
        return None;
    }
    if unused.iter().any(|&word| word != 0) && ledger.rules().hold(Rule::UnusedClear) {
        return None;
    }
    ledger.admit(number, units, path);
    Some(())
}

/// The first 34 × h words of circuits of every area with these h entries. Entries are kept as they came and sorted here;
/// no word of an area is read or moved.
pub fn circuits(ledger: &Ledger) -> Vec<u32> {
    let placed = ledger.rules().hold(Rule::PlacedByNumber);
    let entries = if placed { ledger.by_number() } else { ledger.entries.iter().collect() };
    entries.into_iter().flat_map(words_of).collect()
}

/// A circuit's words: number, units, link count, path, and 0 in each path word that is left.
fn words_of(entry: &Entry) -> Vec<u32> {
    let mut words = vec![entry.number, entry.units, entry.path.len() as u32];
    words.extend(&entry.path);
    words.resize(CIRCUIT_WORDS, 0);
    words
}
