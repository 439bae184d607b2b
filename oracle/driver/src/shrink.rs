//! Makes a history on which answers differ as small as dropping records can.

use oracle::record::{self, Record, Table, AMBIENT_LOOKUP, ROOT, ROOT_CONST, TYPE_LOOKUP};
use oracle::stream::{Entry, LIST, LIST_WITH_DUMPS, LIST_WITH_FLAGS, SHEET, SHEET_WITH_DUMPS};

use crate::history::{bytes, chained, Words};

/// The smallest entry found on which `differs` still holds.
pub fn shrink(entry: &Entry, differs: &dyn Fn(&Entry) -> bool) -> Entry {
    let mut best = entry.clone();
    let mut take = |candidate: Entry| {
        let smaller = candidate != best && differs(&candidate);
        if smaller {
            best = candidate;
        }
        smaller
    };
    // With less printed, if that differs too.
    let shorter: &[u32] = match entry.mode {
        LIST_WITH_DUMPS => &[LIST, LIST_WITH_FLAGS],
        LIST_WITH_FLAGS => &[LIST],
        SHEET_WITH_DUMPS => &[SHEET],
        _ => &[],
    };
    let in_mode = |mode: u32| Entry { mode, ..entry.clone() };
    let mode = shorter.iter().copied().find(|&mode| take(in_mode(mode))).unwrap_or(entry.mode);

    let Some(mut records) = plain_records(entry) else {
        return best;
    };
    let form = |records: &[Words]| {
        let bytes = if entry.is_list() { bytes(records) } else { bytes(&chained(records)) };
        Entry { mode, bytes }
    };
    take(form(&records));
    if !differs(&form(&records)) {
        return best;
    }
    let mut size = records.len() / 2;
    while size > 0 {
        let mut dropped = false;
        let mut at = records.len();
        while at > 0 {
            let from = at.saturating_sub(size);
            let fewer = without(&records, from, at);
            if !fewer.is_empty() && take(form(&fewer)) {
                records = fewer;
                dropped = true;
            }
            at = from;
        }
        if !dropped || size > 1 {
            size /= 2;
        }
    }
    best
}

/// The records in the order of the visits, with no next index; none for bytes
/// that are no whole records.
fn plain_records(entry: &Entry) -> Option<Vec<Words>> {
    if entry.bytes.is_empty() || !entry.bytes.len().is_multiple_of(record::BYTES) {
        return None;
    }
    let records: Vec<Words> =
        entry.bytes.chunks(record::BYTES).map(|bytes| Record::read(bytes).words).collect();
    if entry.is_list() {
        return Some(records);
    }
    let mut visited = Vec::new();
    let mut index = 0;
    while visited.len() < records.len() {
        let words = *records.get(index)?;
        visited.push(words);
        index = usize::from(words[0]);
        if index == 0 {
            break;
        }
    }
    Some(visited)
}

/// The records without those from `from` to before `to`. Later numbers move
/// down past the entries that are no longer declared.
fn without(records: &[Words], from: usize, to: usize) -> Vec<Words> {
    let mut kept = records.to_vec();
    for at in (from..to).rev() {
        let gone = kept.remove(at);
        let Some(table) = declared_table(gone[1]) else {
            continue;
        };
        let before = kept[..at].iter().filter(|words| words[1] == gone[1]).count();
        for words in &mut kept[at..] {
            for (word, names) in naming_words(words) {
                if names == table && usize::from(words[word]) > before {
                    words[word] -= 1;
                }
            }
        }
    }
    kept
}

fn declared_table(kind: u16) -> Option<Table> {
    match kind {
        1 => Some(Table::Types),
        2 => Some(Table::Preds),
        3 => Some(Table::Funcs),
        6 => Some(Table::Els),
        _ => None,
    }
}

fn naming_words(words: &Words) -> Vec<(usize, Table)> {
    let record = Record { words: *words };
    match record.kind() {
        ROOT | ROOT_CONST => vec![(2, Table::Els)],
        TYPE_LOOKUP => vec![(2, Table::Types)],
        AMBIENT_LOOKUP => (10..10 + record.args().len()).map(|word| (word, Table::Types)).collect(),
        _ => record.naming_words(),
    }
}
