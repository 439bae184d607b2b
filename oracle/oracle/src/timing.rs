//! The Rust's own `Structure::close` on a sheet, once or until it changes nothing, and its `Structure::type_conflicts`, for
//! bench/ to time.

use std::hint::black_box;
use std::time::Duration;

use crate::answer::Answer;
use crate::record::{self, Record};
use crate::Oracle;

/// A sheet carried out up to its first record of a kind.
pub struct Prepared {
    oracle: Oracle,
    kind: u16,
}

/// The kinds that can be timed.
pub const CLOSE: u16 = 13;
pub const CONFLICTS: u16 = 14;
pub const SETTLE: u16 = 15;

impl Prepared {
    /// The records are taken in the order of their chain; none before that of `kind` may be refused.
    pub fn new(sheet: &[u8], kind: u16) -> Prepared {
        let records: Vec<Record> = sheet.chunks(record::BYTES).map(Record::read).collect();
        let mut oracle = Oracle::default();
        let mut index = 0;
        while records[index].kind() != kind {
            let answer = oracle.call(&records[index]);
            assert!(!matches!(answer, Answer::Refused(_)), "record {index} is refused");
            index = usize::from(records[index].next());
            assert!(index != 0, "the sheet has no record of kind {kind}");
        }
        Prepared { oracle, kind }
    }

    /// The line that the record prints in a list of calls, of several the last.
    pub fn line(&self) -> String {
        let lines = self.oracle.clone().call(&Record::of_kind(self.kind)).to_string();
        lines.lines().last().expect("each answer prints").to_string()
    }

    /// The time, by `clock`, of `times` calls.
    pub fn time(&self, times: u64, clock: impl Fn() -> Duration) -> Duration {
        match self.kind {
            CONFLICTS => self.time_reports(times, clock),
            _ => self.time_closes(times, clock),
        }
    }

    /// Closes, or as many times the closes of the settle, each time of a copy of its own. Copies are made before, and
    /// dropped after, the clock runs.
    fn time_closes(&self, times: u64, clock: impl Fn() -> Duration) -> Duration {
        let (_, signature) = self.oracle.parts();
        let mut copies: Vec<_> = (0..times).map(|_| self.oracle.parts().0).collect();
        let start = clock();
        for copy in &mut copies {
            while black_box(black_box(&mut *copy).close(signature)) && self.kind == SETTLE {}
        }
        clock() - start
    }

    /// Reports of one structure, which they leave as it is. Each is dropped on the clock.
    fn time_reports(&self, times: u64, clock: impl Fn() -> Duration) -> Duration {
        let start = clock();
        for _ in 0..times {
            black_box(black_box(&self.oracle).type_conflicts());
        }
        clock() - start
    }
}
