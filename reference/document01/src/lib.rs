//! Document 01 and the requests that have landed once more, in plain Rust, to compare the proved crates with. It shares
//! neither code nor method with them:
//!
//! - the reduced problems are solved by listing every path and looking at all of them (`paths`), and where there are too
//!   many, by labels taken in order of their kept weight (`labels`); no table d[v, k], no rounds, no trace;
//! - the paper's own table and rounds stand apart, read from the paper (`lines`), and no answer comes of them;
//! - hold times are added along a path, one at each node between its links (`table`);
//! - rows are taken off the front of a class table, and each is held to check 8 as a request (`classes`);
//! - bookings are a ledger's list of entries as they were admitted (`ledger`), an area is only ever read, and the order
//!   of its circuits comes of sorting the entries (`area`);
//! - jobs that come together are taken off the front of their list, and each is an admission (`opening`);
//! - which of several best paths is granted is open, so a grant is judged (`judge`) and not foretold.
//!
//! `Rules` lets a test break one rule at a time, to see that the comparison notices.

pub mod area;
pub mod classes;
pub mod judge;
pub mod labels;
pub mod ledger;
pub mod lines;
pub mod link_file;
pub mod opening;
pub mod paths;
pub mod problems;
pub mod rules;
pub mod table;

pub use ledger::{Entry, Ledger, Reply};
pub use rules::{Rule, Rules};
pub use table::{Link, Request, Table};
