//! A second implementation, after document 01 as README.md reads it. It shares no
//! code with the oracle and stands in for the port: it reads the same streams and
//! must print what the oracle prints.
//! With a fault it is one of the wrong versions that the streams must tell
//! apart; `is` marks the one place where each departs.

mod added;
mod calls;
mod close;
mod conflicts;
mod faults;
mod file;
mod laws;
mod print;
mod sheet;
mod slot;
mod state;

pub use faults::{Fault, FAULTS};
pub use file::{Table, Trouble};
pub use sheet::{after, answer};
pub use state::State;
