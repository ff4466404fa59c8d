//! The order of circuits by hand: where they stand after admissions and releases, what a listing gives, and which areas
//! are not well formed.

use document01::area::{self, AREA_WORDS, CIRCUIT_WORDS, FIRST_CIRCUIT, FIRST_HOLD};
use document01::{Ledger, Rules, Table};

const NET_A: [u32; 20] = [0, 1, 2, 5, 10, 1, 2, 2, 5, 10, 2, 3, 2, 5, 10, 0, 3, 9, 1, 10];

/// Circuit number, units and path.
type Booked = (u32, u32, &'static [u32]);

const SEVEN: Booked = (7, 4, &[0, 1, 2]);
const TWO: Booked = (2, 1, &[3]);
const FIVE: Booked = (5, 2, &[1, 2]);

/// Their words by hand, up to where only zeros follow.
const SEVEN_WORDS: [u32; 6] = [7, 4, 3, 0, 1, 2];
const TWO_WORDS: [u32; 4] = [2, 1, 1, 3];
const FIVE_WORDS: [u32; 5] = [5, 2, 2, 1, 2];

fn admitted(booked: &[Booked]) -> Ledger {
    let mut ledger = Ledger::new(Table::checked(4, &NET_A, &[0; 4]).unwrap(), Rules::all());
    booked.iter().for_each(|&(number, units, path)| ledger.admit(number, units, path));
    ledger
}

/// Circuits one behind the other, 34 words each.
fn stand(circuits: &[&[u32]]) -> Vec<u32> {
    let whole = |words: &&[u32]| [words, &vec![0; CIRCUIT_WORDS - words.len()][..]].concat();
    circuits.iter().flat_map(whole).collect()
}

/// An area with these circuits; every word that no rule reads has all its bits.
fn area(circuits: &[u32]) -> Vec<u32> {
    let held = (circuits.len() / CIRCUIT_WORDS) as u32;
    let mut words = [&[4, 4, held][..], &NET_A].concat();
    words.resize(AREA_WORDS, u32::MAX);
    words[FIRST_CIRCUIT..FIRST_CIRCUIT + circuits.len()].copy_from_slice(circuits);
    words[FIRST_HOLD..FIRST_HOLD + 4].fill(0);
    words
}

fn is_well_formed(words: &[u32]) -> bool {
    area::read(words, Rules::all()).is_some()
}

fn all_three() -> Vec<u32> {
    stand(&[&TWO_WORDS, &FIVE_WORDS, &SEVEN_WORDS])
}

#[test]
fn circuits_stand_by_rising_number_with_unused_words_0() {
    assert_eq!(area::circuits(&admitted(&[SEVEN])), stand(&[&SEVEN_WORDS]));
    assert_eq!(area::circuits(&admitted(&[SEVEN, TWO])), stand(&[&TWO_WORDS, &SEVEN_WORDS]));
    assert_eq!(area::circuits(&admitted(&[SEVEN, TWO, FIVE])), all_three());
    assert_eq!(area::circuits(&admitted(&[])), []);
}

#[test]
fn equal_books_are_the_same_words() {
    for (one, other, third) in [(TWO, FIVE, SEVEN), (FIVE, SEVEN, TWO), (SEVEN, TWO, FIVE)] {
        assert_eq!(area::circuits(&admitted(&[one, other, third])), all_three());
        assert_eq!(area::circuits(&admitted(&[other, one, third])), all_three());
    }
}

#[test]
fn a_release_closes_the_gap() {
    let mut ledger = admitted(&[SEVEN, TWO, FIVE]);
    assert_eq!(ledger.release(5), Ok(()));
    assert_eq!(area::circuits(&ledger), stand(&[&TWO_WORDS, &SEVEN_WORDS]));
    ledger.admit(5, 2, &[1, 2]);
    assert_eq!(area::circuits(&ledger), all_three());
    assert_eq!(ledger.release(7), Ok(()));
    assert_eq!(area::circuits(&ledger), stand(&[&TWO_WORDS, &FIVE_WORDS]));
}

#[test]
fn a_listing_is_rising() {
    let mut ledger = admitted(&[SEVEN, TWO, FIVE]);
    assert_eq!(ledger.listing(3), Ok(vec![2, 5, 7]));
    assert_eq!(ledger.listing(2), Err(14));
    assert_eq!(ledger.release(5), Ok(()));
    assert_eq!(ledger.listing(2), Ok(vec![2, 7]));
}

#[test]
fn an_area_that_is_read_has_the_words_of_its_ledger() {
    let read = area::read(&area(&all_three()), Rules::all()).unwrap();
    assert_eq!(read.bookings(), admitted(&[SEVEN, TWO, FIVE]).bookings());
    assert_eq!(area::circuits(&read), all_three());
}

#[test]
fn numbers_that_do_not_rise_are_not_well_formed() {
    let (two, five, seven) = (&TWO_WORDS[..], &FIVE_WORDS[..], &SEVEN_WORDS[..]);
    assert!(is_well_formed(&area(&stand(&[two, five, seven]))));
    for order in [[five, two, seven], [two, seven, five], [seven, five, two], [five, seven, two], [seven, two, five]] {
        assert!(!is_well_formed(&area(&stand(&order))));
    }
    assert!(!is_well_formed(&area(&stand(&[two, two]))));
    for (place, number) in [(0, 5), (1, 2), (1, 7), (2, 5), (0, 7), (2, 2)] {
        let mut words = area(&all_three());
        words[FIRST_CIRCUIT + CIRCUIT_WORDS * place] = number;
        assert!(!is_well_formed(&words), "{number} at place {place}");
    }
}

#[test]
fn unused_path_words_are_0() {
    for (place, links) in [1, 2, 3].into_iter().enumerate() {
        for word in 3 + links..CIRCUIT_WORDS {
            for value in [1, 3, u32::MAX] {
                let mut words = area(&all_three());
                words[FIRST_CIRCUIT + CIRCUIT_WORDS * place + word] = value;
                assert!(!is_well_formed(&words), "{value} in word {word} at place {place}");
            }
        }
    }
}

#[test]
fn words_past_the_last_circuit_hold_anything() {
    for held in 0..=3 {
        let whole = area(&all_three());
        let end = FIRST_CIRCUIT + CIRCUIT_WORDS * held;
        for value in [0, 1, 2, u32::MAX] {
            let mut words = whole.clone();
            words[2] = held as u32;
            assert!(is_well_formed(&words));
            words[end..FIRST_HOLD].fill(value);
            assert!(is_well_formed(&words));
            assert_eq!(area::circuits(&area::read(&words, Rules::all()).unwrap()), whole[FIRST_CIRCUIT..end]);
        }
    }
}
