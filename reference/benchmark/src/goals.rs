//! The goals, held against the rows of the first table, with most circuits held of the second, and of the table of all jobs in
//! one call. A missed goal is printed and changes nothing else.

use crate::answer::Outcome;
use crate::implementations::Call;
use crate::timing::Times;

const LARGEST: (u32, u32) = (32, 256);
const OF_ALL_ROUNDS: f64 = 0.35;
const OF_EARLY_STOP: f64 = 1.2;

/// With so many circuits held on the smallest nets a quote, and an admission with its release.
const SMALLEST: (u32, u32) = (8, 64);
const MOST_HELD: u32 = 63;
const QUOTE_HELD: f64 = 1.25;
const ADMISSION_HELD: f64 = 1.4;

/// All jobs in one call, of single admissions: on the smallest nets where problem one grants them, and anywhere.
const OPENING: f64 = 0.9;
const OPENING_ANYWHERE: f64 = 1.02;

/// The greatest ratio so far, and its row.
#[derive(Default)]
struct Worst {
    ratio: f64,
    place: String,
}

impl Worst {
    fn take(&mut self, ratio: f64, place: &str) {
        if ratio > self.ratio {
            *self = Worst { ratio, place: place.to_string() };
        }
    }

    fn print(&self, goal: &str, most: f64) {
        let met = if self.ratio <= most { "met" } else { "missed" };
        println!("goal: {goal}: {:.2} at {}, {met}", self.ratio, self.place);
    }
}

#[derive(Default)]
pub struct Goals {
    of_all_rounds: Worst,
    of_early_stop: Worst,
    of_own_stop: Worst,
    quote_held: Worst,
    admission_held: Worst,
    opening: Worst,
    opening_anywhere: Worst,
}

impl Goals {
    pub fn take(&mut self, size: (u32, u32), place: &str, times: &Times) {
        if size == LARGEST {
            self.of_all_rounds.take(times.of_all_rounds(), place);
        }
        self.of_early_stop.take(times.of_early_stop(), place);
        self.of_own_stop.take(times.of_own_stop(), place);
    }

    /// A row of the second table.
    pub fn take_held(&mut self, size: (u32, u32), circuits: u32, call: Call, times: &Times) {
        if (size, circuits) == (SMALLEST, MOST_HELD) {
            let place = format!("({}, {}), {circuits} held", size.0, size.1);
            match call {
                Call::Quote => self.quote_held.take(times.of_early_stop(), &place),
                Call::Admission => self.admission_held.take(times.of_early_stop(), &place),
            }
        }
    }

    /// A row of the table of all jobs in one call.
    pub fn take_opening(&mut self, size: (u32, u32), outcome: Outcome, place: &str, ratio: f64) {
        if size == SMALLEST && outcome == Outcome::ProblemOne {
            self.opening.take(ratio, place);
        }
        self.opening_anywhere.take(ratio, place);
    }

    pub fn print(&self) {
        let (n, m) = LARGEST;
        self.of_all_rounds.print(&format!("at ({n}, {m}) at most {OF_ALL_ROUNDS} of all rounds"), OF_ALL_ROUNDS);
        self.of_early_stop.print(&format!("nowhere more than {OF_EARLY_STOP} of early stop"), OF_EARLY_STOP);
        let held = format!("with {MOST_HELD} circuits held at most");
        self.quote_held.print(&format!("a quote {held} {QUOTE_HELD} of early stop"), QUOTE_HELD);
        self.admission_held.print(&format!("an admission {held} {ADMISSION_HELD} of early stop"), ADMISSION_HELD);
        let (n, m) = SMALLEST;
        self.opening.print(&format!("all jobs in one call at ({n}, {m}) at most {OPENING} of single ones"), OPENING);
        let goal = format!("and nowhere more than {OPENING_ANYWHERE}");
        self.opening_anywhere.print(&goal, OPENING_ANYWHERE);
        let Worst { ratio, place } = &self.of_own_stop;
        println!("besides: with the proved search's own stop the plain one gives at most {ratio:.2}, at {place}");
    }
}
