//! The sheet program over the oracle.

use crate::answer::Answer;
use crate::record::{self, Record};
use crate::Oracle;

const MAX_BYTES: usize = 1024 * record::BYTES;

/// Runs a sheet and appends the lines that it prints; with `dumps`, also the
/// structure after each record that was carried out.
pub fn run(bytes: &[u8], dumps: bool, out: &mut String) {
    if bytes.is_empty() || !bytes.len().is_multiple_of(record::BYTES) || bytes.len() > MAX_BYTES {
        *out += "refused 1 at 0\n";
        return;
    }
    let records: Vec<Record> = bytes.chunks(record::BYTES).map(Record::read).collect();
    let mut oracle = Oracle::default();
    let mut index = 0;
    for visited in 1..=records.len() {
        let record = &records[index];
        let next = usize::from(record.next());
        if next >= records.len() || (visited == records.len() && next != 0) {
            *out += &format!("refused 2 at {index}\n");
            return;
        }
        let answer = oracle.call(record);
        match answer {
            Answer::Refused(number) => {
                *out += &format!("refused {number} at {index}\n");
                return;
            }
            Answer::Closed(_) | Answer::Settled { .. } => *out += &answer.to_string(),
            Answer::Conflicts(conflicts) => *out += &format!("{conflicts}\n"),
            _ => {}
        }
        if dumps {
            oracle.dump(out);
        }
        if next == 0 {
            *out += &format!("end {visited}\n");
            return;
        }
        index = next;
    }
}
