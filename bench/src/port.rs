//! The port's calls, by the archive of `crates/bench_close`.

use std::time::Duration;

use oracle::timing::{CLOSE, CONFLICTS, SETTLE};

use crate::clock;

/// Builds the sheet or the list of so many bytes once and makes the call so many times; words 0, 1, 2 and 4 get the numbers of its
/// answer, and word 3 the last that was read of what the calls returned.
type Calls = unsafe extern "C" fn(*const u8, usize, u64, *mut u64);

extern "C" {
    fn bench_close(bytes: *const u8, length: usize, times: u64, out: *mut u64);
    fn bench_settle(bytes: *const u8, length: usize, times: u64, out: *mut u64);
    fn bench_conflicts(bytes: *const u8, length: usize, times: u64, out: *mut u64);
    fn bench_nothing(bytes: *const u8, length: usize, times: u64, out: *mut u64);
    fn bench_store(bytes: *const u8, length: usize, times: u64, out: *mut u64);
    fn bench_load(bytes: *const u8, length: usize, times: u64, out: *mut u64);
}

/// What is timed.
#[derive(Clone, Copy)]
pub enum Call {
    Close,
    Settle,
    Conflicts,
    /// Takes and gives the structure as a close does, and answers as a close of a fresh one.
    Nothing,
    /// What a list of calls leaves, stored.
    Store,
    /// That file, loaded.
    Load,
}

impl Call {
    fn function(self) -> Calls {
        match self {
            Call::Close => bench_close,
            Call::Settle => bench_settle,
            Call::Conflicts => bench_conflicts,
            Call::Nothing => bench_nothing,
            Call::Store => bench_store,
            Call::Load => bench_load,
        }
    }

    /// The kind of the record that makes the call.
    pub fn kind(self) -> Option<u16> {
        match self {
            Call::Close => Some(CLOSE),
            Call::Settle => Some(SETTLE),
            Call::Conflicts => Some(CONFLICTS),
            Call::Nothing | Call::Store | Call::Load => None,
        }
    }

    fn run(self, sheet: &[u8], times: u64) -> ([u64; 5], Duration) {
        let mut out = [0; 5];
        let start = clock::now();
        // SAFETY: the bytes and the five words are lent for the call, and the proved function stays within them.
        unsafe { self.function()(sheet.as_ptr(), sheet.len(), times, out.as_mut_ptr()) };
        (out, clock::now() - start)
    }

    /// The line that one call prints, of several the last.
    pub fn line(self, sheet: &[u8]) -> String {
        let [first, second, third, _, last] = self.run(sheet, 1).0;
        match self {
            Call::Settle => format!("settle {first} {second}"),
            Call::Conflicts => format!("conflicts {first} {second}"),
            Call::Close | Call::Nothing => format!("close {first} {second} {third} {last}"),
            Call::Store | Call::Load => format!("{first} bytes"),
        }
    }

    /// How many bytes a store writes, or a load reads.
    pub fn bytes(self, sheet: &[u8]) -> Option<u64> {
        match self {
            Call::Store | Call::Load => Some(self.run(sheet, 1).0[0]),
            _ => None,
        }
    }

    /// The time of building the sheet and of `times` calls.
    pub fn time(self, sheet: &[u8], times: u64) -> Duration {
        self.run(sheet, times).1
    }
}
