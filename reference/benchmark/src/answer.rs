//! What a quote or an admission answers, in either implementation, and the three outcomes that are timed.

/// The problem, 1 or 2, and the path's totals.
#[derive(Clone, Copy, Debug)]
pub struct Grant {
    pub problem: u32,
    pub delay: u32,
    pub cost: u32,
}

impl Grant {
    /// The total that the problem keeps. Of several best paths any may be granted, so the other total may differ.
    fn kept(&self) -> u32 {
        if self.problem == 1 {
            self.delay
        } else {
            self.cost
        }
    }
}

/// A grant, or document 01's refusal number.
pub type Answer = Result<Grant, u32>;

/// Whether both refuse with the same number, or both grant by the same problem with the same kept total.
pub fn agree(one: &Answer, other: &Answer) -> bool {
    match (one, other) {
        (Ok(a), Ok(b)) => a.problem == b.problem && a.kept() == b.kept(),
        (Err(a), Err(b)) => a == b,
        _ => false,
    }
}

#[derive(Clone, Copy, PartialEq, Eq)]
pub enum Outcome {
    ProblemOne,
    ProblemTwo,
    Refused,
}

impl Outcome {
    pub const ALL: [Outcome; 3] = [Outcome::ProblemOne, Outcome::ProblemTwo, Outcome::Refused];

    pub fn of(answer: &Answer) -> Option<Outcome> {
        match answer {
            Ok(grant) if grant.problem == 1 => Some(Outcome::ProblemOne),
            Ok(_) => Some(Outcome::ProblemTwo),
            Err(10) => Some(Outcome::Refused),
            Err(_) => None,
        }
    }

    pub fn name(self) -> &'static str {
        match self {
            Outcome::ProblemOne => "problem one",
            Outcome::ProblemTwo => "problem two",
            Outcome::Refused => "refused 10",
        }
    }
}
