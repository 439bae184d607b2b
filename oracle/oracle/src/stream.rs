//! Streams of histories, and the oracle's answers to them.

use crate::answer::Answer;
use crate::record::{self, Record, AMBIENT_LOOKUP, BEGIN_AGAIN, ROOT, STORE};
use crate::{sheet, Oracle, Slot};

pub const SHEET: u32 = 0;
pub const LIST: u32 = 1;
pub const LIST_WITH_DUMPS: u32 = 2;
pub const SHEET_WITH_DUMPS: u32 = 3;
pub const LIST_WITH_FLAGS: u32 = 4;

/// One history of a stream.
#[derive(Clone, Debug, PartialEq, Eq)]
pub struct Entry {
    pub mode: u32,
    pub bytes: Vec<u8>,
}

impl Entry {
    pub fn is_list(&self) -> bool {
        [LIST, LIST_WITH_DUMPS, LIST_WITH_FLAGS].contains(&self.mode)
    }

    /// Appends the entry as a stream holds it.
    pub fn write(&self, stream: &mut Vec<u8>) {
        let length = u32::try_from(self.bytes.len()).expect("histories are short");
        stream.extend(self.mode.to_le_bytes());
        stream.extend(length.to_le_bytes());
        stream.extend(&self.bytes);
    }
}

/// The entries of a stream. One that is cut short keeps the bytes that are
/// there; a header that is cut short is no entry.
pub fn entries(mut stream: &[u8]) -> Vec<Entry> {
    let mut entries = Vec::new();
    while let Some((header, rest)) = stream.split_at_checked(8) {
        let word = |at: usize| u32::from_le_bytes([0, 1, 2, 3].map(|i| header[at + i]));
        let length = rest.len().min(word(4) as usize);
        let (bytes, after) = rest.split_at(length);
        entries.push(Entry { mode: word(0), bytes: bytes.to_vec() });
        stream = after;
    }
    entries
}

/// Appends the answers to the entry at `index` of a stream.
pub fn answer_entry(index: usize, entry: &Entry, out: &mut String) {
    *out += &format!("= {index}\n");
    match entry.mode {
        SHEET => sheet::run(&entry.bytes, false, out),
        LIST | LIST_WITH_DUMPS | LIST_WITH_FLAGS => run_list(&entry.bytes, entry.mode, out),
        SHEET_WITH_DUMPS => sheet::run(&entry.bytes, true, out),
        _ => {}
    }
}

/// The answers to a whole stream.
pub fn answer(stream: &[u8]) -> String {
    let mut out = String::new();
    for (index, entry) in entries(stream).iter().enumerate() {
        answer_entry(index, entry, &mut out);
    }
    out
}

/// Runs records as public calls in order. A refused call does not stop the
/// list; bytes past the last whole record are not looked at.
fn run_list(bytes: &[u8], mode: u32, out: &mut String) {
    let mut oracle = Oracle::default();
    let mut slot = Slot::default();
    for chunk in bytes.chunks_exact(record::BYTES) {
        let record = Record::read(chunk);
        let answer = match record.kind() {
            ROOT..=AMBIENT_LOOKUP => oracle.look_up(&record),
            STORE..=BEGIN_AGAIN => slot.call(&mut oracle, &record),
            _ => oracle.call(&record),
        };
        *out += &answer.to_string();
        match mode {
            LIST_WITH_DUMPS => {
                if let Answer::File(_) = answer {
                    slot.dump(out);
                }
                oracle.dump(out);
            }
            LIST_WITH_FLAGS => oracle.dump_flags(out),
            _ => {}
        }
    }
}
