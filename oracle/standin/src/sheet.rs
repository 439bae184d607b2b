//! Sheets, lists and streams.

use crate::calls::Answer;
use crate::faults::Fault;
use crate::print::{put_bytes, Place};
use crate::slot::Slot;
use crate::state::{State, Words};

/// The answers to a stream, with at most one fault.
pub fn answer(stream: &[u8], fault: Option<Fault>) -> String {
    let mut out = String::new();
    let mut rest = stream;
    let mut index = 0;
    while rest.len() >= 8 {
        let word = |at: usize| u32::from_le_bytes([0, 1, 2, 3].map(|i| rest[at + i]));
        let mode = word(0);
        let end = 8 + (word(4) as usize).min(rest.len() - 8);
        let bytes = &rest[8..end];
        out += &format!("= {index}\n");
        let state = State::new(fault);
        match mode {
            0 | 3 => run_sheet(state, bytes, mode == 3, &mut out),
            1 | 2 | 4 => run_list(state, bytes, mode, &mut out),
            _ => {}
        }
        rest = &rest[end..];
        index += 1;
    }
    out
}

/// What a list of calls leaves; it has none of kinds 105 to 108.
pub fn after(list: &[u8]) -> State {
    let mut state = State::new(None);
    for record in list.chunks_exact(32) {
        state.call(&words(record));
    }
    state
}

fn words(record: &[u8]) -> Words {
    let mut words = [0; 16];
    for (at, word) in words.iter_mut().enumerate() {
        *word = u16::from(record[2 * at]) + 256 * u16::from(record[2 * at + 1]);
    }
    words
}

fn run_list(mut state: State, bytes: &[u8], mode: u32, out: &mut String) {
    let mut slot = Slot::new();
    for record in bytes.chunks_exact(32) {
        let words = words(record);
        let answer = match words[1] {
            105..=108 => state.file_call(&mut slot, &words),
            _ => state.call(&words),
        };
        state.put_answer(out, &answer, Place::List);
        match mode {
            2 => {
                if let Answer::File(_) = answer {
                    put_bytes(out, slot.file());
                }
                state.put_dump(out);
            }
            4 => state.put_flags(out),
            _ => {}
        }
    }
}

fn run_sheet(mut state: State, bytes: &[u8], dumps: bool, out: &mut String) {
    if let Some(number) = refused_at_once(&state, bytes.len()) {
        *out += &format!("refused {number} at 0\n");
        return;
    }
    let sheet: Vec<Words> = bytes.chunks_exact(32).map(words).collect();
    let mut seen = vec![false; sheet.len()];
    let (mut index, mut done) = (0, 0);
    while let Some(record) = sheet.get(index) {
        let next = usize::from(record[0]);
        let astray = is_astray(&state, next, done + 1, sheet.len())
            || (seen[index] && state.is(Fault::NoSecondVisit));
        let late = state.is(Fault::TwoAfterRecord) || state.is(Fault::TwoAfterThree);
        let at = if state.is(Fault::RefusedAtVisit) { done } else { index };
        if astray && !late {
            *out += &format!("refused 2 at {at}\n");
            return;
        }
        let other_call = record[1] > 15 && !state.is(Fault::CallKindsInSheets);
        let answer = if other_call { Answer::Refused(3) } else { state.call(record) };
        let goes_on = state.is(Fault::SheetGoesOnAtFifteen);
        if let Answer::Refused(number) = answer {
            if number != 15 || !goes_on {
                *out += &format!("refused {number} at {at}\n");
                return;
            }
        }
        let prints = match answer {
            Answer::Closed(_) | Answer::Conflicts(_) => true,
            Answer::Settled(_) => !state.is(Fault::SettleUnprinted),
            _ => false,
        };
        if prints && !(astray && state.is(Fault::TwoAfterThree)) {
            state.put_answer(out, &answer, Place::Sheet);
        }
        if astray {
            *out += &format!("refused 2 at {at}\n");
            return;
        }
        if dumps {
            state.put_dump(out);
        }
        seen[index] = true;
        index = next;
        done += 1;
        if index == 0 || done == sheet.len() {
            break;
        }
    }
    let count = if state.is(Fault::EndPrintsSize) { sheet.len() } else { done };
    *out += &format!("end {count}\n");
}

fn refused_at_once(state: &State, length: usize) -> Option<u16> {
    let most = match state.fault {
        Some(Fault::LongSheet) => 1025,
        Some(Fault::ShortSheet) => 1023,
        _ => 1024,
    };
    let empty = length == 0 && !state.is(Fault::EmptySheet);
    let ragged = !length.is_multiple_of(32) && !state.is(Fault::RaggedSheet);
    (empty || ragged || length > most * 32).then_some(1)
}

fn is_astray(state: &State, next: usize, visit: usize, size: usize) -> bool {
    if next == size && state.is(Fault::IndexNIsThere) {
        return false;
    }
    next >= size || (visit == size && next != 0 && !state.is(Fault::LastMayGoOn))
}
