//! Areas with one word changed, with two circuits exchanged, or with too few words.

use document01::area::{AREA_WORDS, CIRCUIT_WORDS, FIRST_CIRCUIT, FIRST_HOLD};
use document01::ledger::PATH_WORDS;
use document01::table::MOST_NODES;
use seeded::Random;

/// What is changed. `Exchanged` are two neighbouring circuits, all their words; `Twice` is a number that its neighbour
/// gets as well; `UnusedPath` are the held circuits' path words past their links. No rule reads `PastCircuits`, which
/// are words past the last circuit, and `PastHolds`, which are hold words of nodes that are not there.
#[derive(Clone, Copy, Debug, PartialEq, Eq, PartialOrd, Ord)]
pub enum Field {
    Nodes,
    Links,
    Held,
    From,
    To,
    Delay,
    Cost,
    Capacity,
    Number,
    Units,
    Count,
    PathWord,
    Length,
    Hold,
    PastHolds,
    Exchanged,
    Twice,
    UnusedPath,
    PastCircuits,
}

pub const FIELDS: [Field; 19] = [
    Field::Nodes,
    Field::Links,
    Field::Held,
    Field::From,
    Field::To,
    Field::Delay,
    Field::Cost,
    Field::Capacity,
    Field::Number,
    Field::Units,
    Field::Count,
    Field::PathWord,
    Field::Length,
    Field::Hold,
    Field::PastHolds,
    Field::Exchanged,
    Field::Twice,
    Field::UnusedPath,
    Field::PastCircuits,
];

impl Field {
    /// Whether it stands where the held circuits put it, so that its place is not known before the area is.
    fn is_found(self) -> bool {
        matches!(self, Field::Exchanged | Field::Twice | Field::UnusedPath | Field::PastCircuits)
    }

    /// Whether an area may stay well formed with another word there.
    pub fn may_stay(self) -> bool {
        !matches!(self, Field::Exchanged | Field::Twice | Field::UnusedPath)
    }

    /// Whether an area may be spoilt by another word there.
    pub fn may_spoil(self) -> bool {
        !matches!(self, Field::PastCircuits | Field::PastHolds)
    }
}

#[derive(Clone, Copy, Debug)]
pub enum Change {
    To(u32),
    Add(u32),
    /// The word that stands at another place.
    As(usize),
    /// The area's length.
    Cut(usize),
    /// The circuit that begins there and the one behind it, each in the other's place.
    Exchange,
    /// The number there, as that of the circuit behind it; or the other way about.
    AsBehind,
    BehindAs,
}

#[derive(Clone, Copy, Debug)]
pub struct Damage {
    pub field: Field,
    /// For a field that is found: which of the places where it stands, counted from the first one and round again.
    pub word: usize,
    pub change: Change,
}

/// Numbers at which a range of document 01 ends, and the next ones.
pub const EDGES: [u32; 16] =
    [0, 1, 2, 31, 32, 33, 64, 65, 255, 256, 257, 65_535, 65_536, 1_000_000, 1_000_001, u32::MAX];

/// Lengths of an area around those at which its links, its circuits and its hold times end.
const LENGTHS: [usize; 10] = [0, 1, 3, 1_283, 3_458, 3_459, 3_460, AREA_WORDS - 1, AREA_WORDS, AREA_WORDS + 1];

/// Where a field stands in link `i` and circuit `j`; `k` is a place in its path, `v` a node or one that is not there.
fn place(field: Field, i: usize, j: usize, k: usize, v: usize) -> usize {
    let (link, circuit) = (3 + 5 * i, FIRST_CIRCUIT + CIRCUIT_WORDS * j);
    match field {
        Field::Nodes => 0,
        Field::Links => 1,
        Field::Held => 2,
        Field::From => link,
        Field::To => link + 1,
        Field::Delay => link + 2,
        Field::Cost => link + 3,
        Field::Capacity => link + 4,
        Field::Number => circuit,
        Field::Units => circuit + 1,
        Field::Count => circuit + 2,
        Field::PathWord => circuit + 3 + k,
        Field::Hold | Field::PastHolds => FIRST_HOLD + v,
        _ => 0,
    }
}

/// Where the held circuits of an area begin.
fn held(area: &[u32]) -> impl Iterator<Item = usize> {
    (0..area[2] as usize).map(|place| FIRST_CIRCUIT + CIRCUIT_WORDS * place)
}

/// All places where a field that is found stands in an area, which is well formed.
pub fn found(field: Field, area: &[u32]) -> Vec<usize> {
    match field {
        Field::Exchanged | Field::Twice => held(area).take((area[2] as usize).saturating_sub(1)).collect(),
        Field::UnusedPath => held(area).flat_map(|at| at + 3 + area[at + 2] as usize..at + 3 + PATH_WORDS).collect(),
        _ => (FIRST_CIRCUIT + CIRCUIT_WORDS * area[2] as usize..FIRST_HOLD).collect(),
    }
}

/// Damage to a field that is found, at any of its places.
fn anywhere(rng: &mut Random, field: Field) -> Damage {
    let change = match field {
        Field::Exchanged => Change::Exchange,
        Field::Twice => rng.pick(&[Change::AsBehind, Change::BehindAs]),
        // A word that could be a link's number, or any; 0 is what stands there.
        _ => Change::To(if rng.one_in(2) { rng.range(1, 12) } else { rng.word().max(1) }),
    };
    Damage { field, word: rng.word() as usize, change }
}

/// The field that word `word` of an area of n nodes belongs to; unused path words are path words here.
pub fn field_at(word: usize, n: usize) -> Field {
    match word {
        0 => Field::Nodes,
        1 => Field::Links,
        2 => Field::Held,
        3..FIRST_CIRCUIT => [Field::From, Field::To, Field::Delay, Field::Cost, Field::Capacity][(word - 3) % 5],
        FIRST_CIRCUIT..FIRST_HOLD => match (word - FIRST_CIRCUIT) % CIRCUIT_WORDS {
            0 => Field::Number,
            1 => Field::Units,
            2 => Field::Count,
            _ => Field::PathWord,
        },
        _ if word < FIRST_HOLD + n => Field::Hold,
        _ => Field::PastHolds,
    }
}

/// A node, or one that is not there.
fn node(rng: &mut Random, field: Field, n: u32) -> usize {
    let node = if field == Field::PastHolds { rng.range(n, MOST_NODES - 1) } else { rng.range(0, n - 1) };
    node as usize
}

pub fn damage(rng: &mut Random, n: u32, m: u32) -> Damage {
    let field = rng.pick(&FIELDS);
    let field = if field == Field::PastHolds && n == MOST_NODES { Field::Hold } else { field };
    if field.is_found() {
        return anywhere(rng, field);
    }
    if field == Field::Length {
        return Damage { field, word: 0, change: Change::Cut(rng.pick(&LENGTHS)) };
    }
    let (i, j, k) = (rng.range(0, m.max(1) - 1) as usize, rng.pick(&[0, 0, 1, 2, 5]), rng.pick(&[0, 0, 1, 2, 30]));
    let word = place(field, i, j, k, node(rng, field, n));
    let change = match rng.range(0, 3) {
        0 => Change::To(rng.pick(&EDGES)),
        1 => Change::Add(rng.pick(&[1, 2, u32::MAX])),
        2 => Change::As(place(field, i / 2, rng.pick(&[0, 1, 3]), k / 2, node(rng, field, n))),
        _ => Change::To(rng.range(0, 12)),
    };
    Damage { field, word, change }
}

impl Damage {
    /// The damaged copy of an area's words.
    pub fn done(&self, area: &[u32]) -> Vec<u32> {
        let mut words = area.to_vec();
        let Some(at) = self.place(area) else {
            return words;
        };
        let behind = at + CIRCUIT_WORDS;
        match self.change {
            Change::To(value) => words[at] = value,
            Change::Add(more) => words[at] = words[at].wrapping_add(more),
            Change::As(other) => words[at] = words[other],
            Change::Cut(length) => words.resize(length, 7),
            Change::Exchange => words[at..behind + CIRCUIT_WORDS].rotate_left(CIRCUIT_WORDS),
            Change::AsBehind => words[at] = words[behind],
            Change::BehindAs => words[behind] = words[at],
        }
        words
    }

    /// Where an area is changed, or nowhere where its circuits leave no place for this damage.
    pub fn place(&self, area: &[u32]) -> Option<usize> {
        if !self.field.is_found() {
            return Some(self.word);
        }
        let places = found(self.field, area);
        (!places.is_empty()).then(|| places[self.word % places.len()])
    }
}
