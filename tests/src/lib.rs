//! The object store's library against a model of documents 01 and 02, call by call, and the programs `replay` and `traffic`
//! against one of document 02's call log and one of its repeatable load.
//!
//! `model` is the documents; `store` the trait that model and library share; `case` a list of calls and damages, and
//! how it is run on two stores at once; `generate` makes random lists; `counts` and `seen` say what occurred in them;
//! `shrink` shortens one that fails; `driver` puts them together. `distances` says what a pointer's distances have to do with other
//! calls' answers, `empties` which pointers lead to objects of no bytes, `totals` has the limits of the free total, `single_pass` is
//! another model of release, `commuting` tries two frees or releases in either order, `log` the call log, `traffic` the repeatable load,
//! `casts` the type check before a cast, `orders` the order with few large frames and `overheads` the overhead report, each with its own
//! model, generator and counters.

pub mod case;
pub mod casts;
pub mod commuting;
pub mod counts;
pub mod distances;
pub mod driver;
pub mod empties;
pub mod generate;
pub mod library;
pub mod log;
pub mod model;
pub mod orders;
pub mod overheads;
pub mod random;
pub mod seen;
pub mod shrink;
pub mod single_pass;
pub mod store;
pub mod totals;
pub mod traffic;

/// What a test tells, not by println, which the test harness keeps back.
pub fn print(text: &str) {
    use std::io::Write;
    writeln!(std::io::stdout(), "\n{text}").unwrap();
}
