//! One area with its ledger: each call is made on the archive and held against the ledger, word by word.

use crate::buffer::{Buffer, Lent};
use crate::cases::Call;
use crate::grants::{document_request, judged, Choices};
use crate::hold_times;
use crate::memory::Memory;
use crate::opening::ALL_JOBS;
use crate::tables;
use crate::tally::Tally;
use document01::area::{CIRCUIT_WORDS, FIRST_CIRCUIT, FIRST_HOLD};
use document01::judge::require;
use document01::{area, Entry, Ledger, Reply, Rules};
use line::Request;

/// What a call answered: its number, the answer array where granted, and the path.
#[derive(Clone, Debug, Default, PartialEq, Eq)]
pub struct Answer {
    pub code: u32,
    pub numbers: Vec<u32>,
    pub path: Vec<u32>,
}

pub type Checked = Result<Answer, String>;

/// A refusal: it has this number and leaves every buffer but work memory as it was.
pub fn refused(code: u32, expected: u32, memory: &Memory) -> Checked {
    require(code == expected, &format!("gave {code}, expected {expected}"))?;
    memory.untouched()?;
    Ok(Answer { code, ..Answer::default() })
}

pub struct Station {
    pub area: Buffer,
    /// Nothing where the area is not well formed: then every call gives 5.
    pub ledger: Option<Ledger>,
}

impl Station {
    pub fn of_words(words: &[u32], rules: Rules) -> Station {
        Station { area: Buffer::of(words), ledger: area::read(words, rules) }
    }

    /// The same station, but that the hold times stand in the delays of the links, for paths to t. There is none where
    /// no node holds a message.
    pub fn folded(&self, t: u32) -> Option<Station> {
        let ledger = self.ledger.as_ref().filter(|ledger| ledger.table.holds.iter().any(|&time| time > 0))?;
        let words = hold_times::folded(self.area.slice(), &ledger.table, t)?;
        Some(Station::of_words(&words, ledger.rules()))
    }

    /// Makes a call that concerns the area.
    pub fn call(&mut self, call: &Call, memory: &mut Memory, choices: &mut Choices, tally: &mut Tally) -> Checked {
        self.area.mark();
        let (name, answer) = match call {
            Call::Quote { request, work, path } => {
                ("quote", self.quote(request, [*work, *path], memory, choices, tally))
            }
            Call::Admit { circuit, request, work, path } => {
                ("admit", self.admit(*circuit, request, [*work, *path], memory, choices, tally))
            }
            Call::Release { circuit } => ("release", self.release(*circuit)),
            Call::AdmitJobs { jobs, work, answers } => {
                (ALL_JOBS, self.admit_jobs(jobs, [*work, *answers], memory, choices, tally))
            }
            Call::List { numbers } => ("list", self.list(*numbers, memory)),
            Call::FreeUnits { link } => ("free units", self.free_units(*link, memory)),
            _ => return Err("not a call on the area".to_string()),
        };
        let answer = answer?;
        require(self.area.guards_stand(), "a word beside the area changed")?;
        memory.guarded()?;
        if answer.code != 0 || !call.books() {
            require(self.area.same_from(0), "a call that books nothing changed the area")?;
        }
        tally.saw(name, answer.code);
        if let (Call::Quote { request, .. } | Call::Admit { request, .. }, 0 | 10) = (call, answer.code) {
            let problem = answer.numbers.first().copied().unwrap_or(0);
            tally.searched(request.delay_bound, request.cost_bound, problem);
        }
        if let (0, Some(ledger)) = (answer.code, &self.ledger) {
            self.granted(ledger, name, call, &answer, tally);
        }
        Ok(answer)
    }

    /// What the tally keeps of a granted call.
    fn granted(&self, ledger: &Ledger, name: &'static str, call: &Call, answer: &Answer, tally: &mut Tally) {
        if !answer.path.is_empty() {
            tally.granted(answer.numbers[0], answer.path.len(), ledger.table.links.len());
            tally.holds.granted(answer.numbers[1]);
        }
        let held = ledger.entries.iter().map(|entry| entry.number);
        match call {
            Call::Admit { circuit, .. } if self.cleared(ledger, *circuit, answer.path.len()) => tally.order.cleared(),
            Call::List { .. } if !held.clone().eq(answer.numbers.iter().copied()) => tally.order.other_order(),
            _ => {}
        }
        if let Call::Admit { circuit, .. } | Call::Release { circuit } = call {
            tally.order.booked(name, *circuit, held);
        }
    }

    /// Whether a circuit with so many links now has a 0 where another word stood before it was admitted.
    fn cleared(&self, ledger: &Ledger, circuit: u32, links: usize) -> bool {
        let place = ledger.by_number().iter().take_while(|entry| entry.number < circuit).count();
        let at = FIRST_CIRCUIT + CIRCUIT_WORDS * place;
        self.area.before()[at + 3 + links..at + CIRCUIT_WORDS].iter().any(|&word| word != 0)
    }

    fn quote(
        &mut self,
        r: &Request,
        [work, path]: [Lent; 2],
        memory: &mut Memory,
        choices: &mut Choices,
        tally: &mut Tally,
    ) -> Checked {
        memory.lend_work(work);
        memory.lend_out(path, 4);
        let (lent_work, lent_path) = (memory.work.slice_mut(), memory.out.slice_mut());
        let code = line::quote(self.area.slice(), lent_work, lent_path, r, memory.answer.array_mut());
        let Some(ledger) = &self.ledger else {
            return refused(code, 5, memory);
        };
        let reply = ledger.quote(work.words, path.words, &document_request(r));
        let answer = judged(ledger, code, reply, r, memory, choices)?;
        tables::agree(ledger, r, &answer, memory, &mut tally.tables)?;
        Ok(answer)
    }

    fn admit(
        &mut self,
        circuit: u32,
        r: &Request,
        [work, path]: [Lent; 2],
        memory: &mut Memory,
        choices: &mut Choices,
        tally: &mut Tally,
    ) -> Checked {
        memory.lend_work(work);
        memory.lend_out(path, 4);
        let (lent_work, lent_path) = (memory.work.slice_mut(), memory.out.slice_mut());
        let code = line::admit(self.area.slice_mut(), lent_work, lent_path, circuit, r, memory.answer.array_mut());
        let Some(ledger) = &mut self.ledger else {
            return refused(code, 5, memory);
        };
        let reply = ledger.admission(work.words, path.words, circuit, &document_request(r));
        let answer = judged(ledger, code, reply, r, memory, choices)?;
        tables::agree(ledger, r, &answer, memory, &mut tally.tables)?;
        if let Reply::Granted { .. } = reply {
            ledger.admit(circuit, r.units, &answer.path);
            self.books_agree()?;
        }
        Ok(answer)
    }

    fn release(&mut self, circuit: u32) -> Checked {
        let code = line::release(self.area.slice_mut(), circuit);
        let expected = match &mut self.ledger {
            None => 5,
            Some(ledger) => ledger.release(circuit).err().unwrap_or(0),
        };
        require(code == expected, &format!("gave {code}, expected {expected}"))?;
        if code == 0 {
            self.books_agree()?;
        }
        Ok(Answer { code, ..Answer::default() })
    }

    fn list(&mut self, numbers: Lent, memory: &mut Memory) -> Checked {
        memory.lend_out(numbers, 1);
        let code = line::list(self.area.slice(), memory.out.slice_mut(), memory.answer.array_mut());
        let held = match self.ledger.as_ref().map_or(Err(5), |ledger| ledger.listing(numbers.words)) {
            Err(number) => return refused(code, number, memory),
            Ok(held) => held,
        };
        require(code == 0, &format!("gave {code}, expected {} numbers", held.len()))?;
        let [count] = memory.answer.array();
        require(count as usize == held.len(), &format!("listed {count}, {} are held", held.len()))?;
        let listed = memory.out.slice()[..held.len()].to_vec();
        require(listed == held, &format!("listed {listed:?}, expected {held:?}"))?;
        require(memory.out.same_from(held.len()), "a word past the listed numbers changed")?;
        Ok(Answer { code, numbers: listed, path: Vec::new() })
    }

    fn free_units(&mut self, link: u32, memory: &mut Memory) -> Checked {
        memory.lend_answer(1);
        let code = line::free_units(self.area.slice(), link, memory.answer.array_mut());
        let free = match self.ledger.as_ref().map_or(Err(5), |ledger| ledger.free_units(link)) {
            Err(number) => return refused(code, number, memory),
            Ok(free) => free,
        };
        require(code == 0, &format!("gave {code}, expected {free} free units"))?;
        let [answered] = memory.answer.array();
        require(i64::from(answered) == free, &format!("{answered} free units, expected {free}"))?;
        Ok(Answer { code, numbers: vec![answered], path: Vec::new() })
    }

    /// After admissions or a release: n, m, the links, the hold times and the words past them are untouched, the
    /// circuits' words are those of the entries, and so the area is well formed and its bookings are the entries.
    pub fn books_agree(&self) -> Result<(), String> {
        let (now, before) = (self.area.slice(), self.area.before());
        let links = 3..FIRST_CIRCUIT;
        let kept =
            now[..2] == before[..2] && now[links.clone()] == before[links] && now[FIRST_HOLD..] == before[FIRST_HOLD..];
        require(kept, "a word that is not a circuit's changed")?;
        self.ledger.as_ref().map_or(Ok(()), |ledger| self.circuits_agree(ledger))?;
        let entries = self.ledger.as_ref().map(Ledger::bookings);
        let bookings = self.bookings();
        require(bookings == entries, &format!("the area holds {bookings:?}, the ledger {entries:?}"))
    }

    /// Word for word: equal books are the same words.
    fn circuits_agree(&self, ledger: &Ledger) -> Result<(), String> {
        let (held, entries) = (self.area.slice()[2] as usize, ledger.entries.len());
        require(held == entries, &format!("h is {held}, the ledger has {entries} entries"))?;
        let (stand, expected) = (self.circuits(), area::circuits(ledger));
        match (0..expected.len()).find(|&at| stand[at] != expected[at]) {
            None => Ok(()),
            Some(at) => {
                let (place, word) = (at / CIRCUIT_WORDS, at % CIRCUIT_WORDS);
                Err(format!("word {word} of circuit {place} is {}, expected {}", stand[at], expected[at]))
            }
        }
    }

    /// The first 34 × h words of circuits.
    pub fn circuits(&self) -> &[u32] {
        let end = FIRST_CIRCUIT + CIRCUIT_WORDS * self.area.slice()[2] as usize;
        &self.area.slice()[FIRST_CIRCUIT..end]
    }

    pub fn bookings(&self) -> Option<Vec<Entry>> {
        area::read(self.area.slice(), Rules::all()).map(|ledger| ledger.bookings())
    }
}
