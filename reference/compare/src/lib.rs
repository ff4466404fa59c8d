//! The proved calls, made through the C interface, compared with document 01's other implementation.
//!
//! A case is a link table with hold times and a list of calls, both from one seed (`cases`, `nets`, `hold_times`,
//! `requests`, `job_lists`, `class_tables`, `files`, `damage`), or one of those that go through everything (`sweep`,
//! `job_cases`). It is run on the archive and every call is held against the ledger (`history`, `station`, `grants`,
//! `apart`), all jobs in one call beside single admissions as well (`opening`), in lent memory between guard words
//! (`memory`, `buffer`), and the table that a search leaves in work memory is held against the paper's lines (`tables`);
//! then it is run once more with its quotes struck. A failure is brought down to its smallest list (`smallest`). `tally`,
//! `hold_tally`, `opening_tally`, `order_tally` and `table_tally` say what a run has seen, `faults` which rules of the
//! other implementation are broken to see that the comparison notices.

pub mod apart;
pub mod buffer;
pub mod cases;
pub mod class_tables;
pub mod damage;
pub mod faults;
pub mod files;
pub mod grants;
pub mod history;
pub mod hold_tally;
pub mod hold_times;
pub mod job_cases;
pub mod job_lists;
pub mod memory;
pub mod nets;
pub mod opening;
pub mod opening_tally;
pub mod order_tally;
pub mod requests;
pub mod smallest;
pub mod station;
pub mod sweep;
pub mod table_tally;
pub mod tables;
pub mod tally;
