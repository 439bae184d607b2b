//! Damaged files: of the structures of `files` every byte changed to telling values, and
//! the length too. What is to come of each the stand-in's reader says; the oracle, which
//! reads otherwise, must say the same, and so must a command.

use std::fmt;

use oracle::stream::Entry;
use standin::{State, Trouble};

use crate::compare::stream_of;
use crate::files;
use crate::history::History;

/// Lists that damage a file, load it and store what is there then, again and again, and
/// lists that go on with what was loaded.
pub struct Damaged {
    pub entries: Vec<Entry>,
    pub counts: Counts,
}

#[derive(Default)]
pub struct Counts {
    files: usize,
    bytes: usize,
    lengths: usize,
    /// With a count changed, and the length so that it fits.
    counts: usize,
    thirteen: usize,
    fourteen: usize,
    loaded: usize,
    gone_on: usize,
}

impl fmt::Display for Counts {
    fn fmt(&self, f: &mut fmt::Formatter) -> fmt::Result {
        let Counts { files, bytes, lengths, counts, thirteen, fourteen, loaded, gone_on } = self;
        write!(f, "{files} files, {bytes} with a byte changed, {lengths} of another length, ")?;
        write!(f, "{counts} with another count and a length that fits: ")?;
        write!(f, "{thirteen} refused with 13, {fourteen} with 14, {loaded} loaded, ")?;
        write!(f, "{gone_on} of these gone on with")
    }
}

/// How far the bytes that are cut or added go.
const LENGTHS: [u16; 3] = [1, 2, 16];

/// All damages.
pub fn all() -> Damaged {
    of(&files::small(), &files::full())
}

/// The damages of these structures: of small ones at every byte, of others at the ends of
/// their columns.
pub fn of(small: &[History], full: &[History]) -> Damaged {
    let mut damaged = Damaged { entries: Vec::new(), counts: Counts::default() };
    for history in small {
        damaged.add(history, |file| (0..file.len()).collect());
        damaged.add_going_on(history);
    }
    for history in full {
        damaged.add(history, telling_places);
    }
    damaged
}

impl Damaged {
    /// The damages of one file in one list. A refused load leaves the structure, so that
    /// the store after it brings the file back; after one that is accepted the byte is set
    /// back and loaded.
    fn add(&mut self, history: &History, places: impl Fn(&[u8]) -> Vec<usize>) {
        let state = files::after(history);
        let file = state.store();
        let mut h = history.clone();
        h.store().load();
        self.counts.files += 1;
        for place in places(&file) {
            for value in telling_values(&state, &file, place) {
                let mut changed = file.clone();
                changed[place] = value;
                h.set(place as u16, value).load().store();
                self.counts.bytes += 1;
                if self.count(&state, &changed) {
                    h.set(place as u16, file[place]).load();
                }
            }
        }
        for length in LENGTHS {
            for words in [[length, 0], [0, length]] {
                let cut = file.len().saturating_sub(words[0].into());
                let mut changed = file[..cut].to_vec();
                changed.resize(cut + usize::from(words[1]), 0);
                h.resize(words[0], words[1]).load().store();
                self.counts.lengths += 1;
                self.count(&state, &changed);
            }
        }
        for (place, (most, width)) in files::TABLES.into_iter().enumerate() {
            let count = usize::from(file[2 * place]) + 256 * usize::from(file[2 * place + 1]);
            for other in [count.wrapping_sub(1), count + 1, most, most + 1] {
                if other == count || other > most + 1 {
                    continue;
                }
                let mut changed = file.clone();
                changed[2 * place..2 * place + 2].copy_from_slice(&(other as u16).to_le_bytes());
                let length = file.len() + width * other - width * count;
                if length > files::ROOM {
                    continue;
                }
                changed.resize(length, 0);
                let cut = file.len().saturating_sub(length);
                let added = length.saturating_sub(file.len());
                h.resize(cut as u16, added as u16);
                h.set(2 * place as u16, changed[2 * place]);
                h.set(2 * place as u16 + 1, changed[2 * place + 1]).load().store();
                self.counts.counts += 1;
                // What loads is another structure, so that it is loaded again.
                if self.count(&state, &changed) {
                    h.file(&file).load();
                }
            }
        }
        self.entries.push(h.list());
    }

    /// For each damage that loads a list that goes on.
    fn add_going_on(&mut self, history: &History) {
        let state = files::after(history);
        let file = state.store();
        for place in 0..file.len() {
            for value in telling_values(&state, &file, place) {
                let mut changed = file.clone();
                changed[place] = value;
                if state.load(&changed).is_ok() {
                    let mut h = history.clone();
                    h.store().set(place as u16, value).load();
                    files::go_on(&mut h);
                    self.entries.push(h.list());
                    self.counts.gone_on += 1;
                }
            }
        }
    }

    /// Counts what is to come of a file; says whether it loads. One that loads is the file
    /// of what it loads to.
    fn count(&mut self, state: &State, file: &[u8]) -> bool {
        let number = state.troubles(file).first().map(|trouble: &Trouble| trouble.number());
        match number {
            None => {
                self.counts.loaded += 1;
                let loaded =
                    state.load(file).unwrap_or_else(|number| panic!("refused with {number}"));
                assert_eq!(loaded.store(), file, "a file is that of what it loads to");
            }
            Some(13) => self.counts.thirteen += 1,
            Some(_) => self.counts.fourteen += 1,
        }
        number.is_none()
    }

    pub fn stream(&self) -> Vec<u8> {
        stream_of(&self.entries)
    }
}

/// What a byte is set to: numbers at the edges of every table, and the neighbours of what
/// it is.
fn telling_values(state: &State, file: &[u8], place: usize) -> Vec<u8> {
    let now = file[place];
    let mut values = vec![0, 1, 2, 3, 4, 5, 31, 32, 63, 64, 254, 255];
    values.extend([now.wrapping_sub(1), now.wrapping_add(1)]);
    for count in state.sizes() {
        values.extend([count.saturating_sub(1) as u8, count as u8]);
    }
    values.sort();
    values.dedup();
    values.retain(|&value| value != now);
    values
}

/// Of a long file the head, the flags, and the ends of each column.
fn telling_places(file: &[u8]) -> Vec<usize> {
    let word = |at: usize| usize::from(file[at]) + 256 * usize::from(file[at + 1]);
    let [e, f, a, p, i, v, m, q] = [0, 2, 4, 6, 8, 10, 12, 14].map(word);
    let mut rows = vec![e];
    rows.extend([f; 8]);
    rows.extend([a; 12]);
    rows.extend([p; 11]);
    rows.extend([i; 7]);
    rows.extend([v, v, m, m, e, q, q, e, e]);
    let mut places: Vec<usize> = (0..16).collect();
    let mut at = 16;
    for rows in rows {
        if rows > 0 {
            places.extend([at, at + 1, at + rows / 2, at + rows - 1]);
        }
        at += rows;
    }
    places.extend([at, at + 1]);
    assert_eq!(at + 2, file.len());
    places.dedup();
    places
}
