//! The implementations that are compared, each with memory of its own, and the two calls that are timed.

use crate::answer::Answer;
use crate::jobs::Job;
use crate::plain::{Rounds, Search};
use crate::proved::Proved;

/// The number of the circuit that a timed admission books.
const TIMED: u32 = 30_000;

/// The number of the held circuit of this index. Half of them stand behind the timed one, and move when it comes and goes.
pub fn held_number(index: u32) -> u32 {
    let aside = 1 + index / 2;
    if index.is_multiple_of(2) {
        TIMED + aside
    } else {
        TIMED - aside
    }
}

/// A quote, or an admission with the release of what it booked. A refused admission has nothing to release.
#[derive(Clone, Copy, PartialEq, Eq)]
pub enum Call {
    Quote,
    Admission,
}

#[derive(Clone, Copy)]
pub enum Which {
    Proved,
    AllRounds,
    EarlyStop,
    OwnStop,
}

pub struct Implementations {
    pub proved: Proved,
    all_rounds: Search,
    early_stop: Search,
    own_stop: Search,
}

impl Implementations {
    pub fn new() -> Implementations {
        Implementations {
            proved: Proved::new(),
            all_rounds: Search::new(Rounds::All),
            early_stop: Search::new(Rounds::UntilUnchanged),
            own_stop: Search::new(Rounds::UntilSettled),
        }
    }

    pub fn call(&mut self, which: Which, call: Call, job: &mut Job) -> Answer {
        match which {
            Which::Proved => call_proved(&mut self.proved, call, job),
            Which::AllRounds => call_plain(&mut self.all_rounds, call, job),
            Which::EarlyStop => call_plain(&mut self.early_stop, call, job),
            Which::OwnStop => call_plain(&mut self.own_stop, call, job),
        }
    }
}

fn call_proved(proved: &mut Proved, call: Call, job: &mut Job) -> Answer {
    if call == Call::Quote {
        return proved.quote(&job.area, &job.request);
    }
    let grant = proved.admit(&mut job.area, TIMED, &job.request)?;
    Proved::release(&mut job.area, TIMED)?;
    Ok(grant)
}

fn call_plain(search: &mut Search, call: Call, job: &mut Job) -> Answer {
    if call == Call::Quote {
        return search.quote(&job.network, &job.request);
    }
    let grant = search.admit(&mut job.network, TIMED, &job.request)?;
    job.network.release(TIMED)?;
    Ok(grant)
}
