//! Histories in the making.

use oracle::record::{AMBIENT_LOOKUP, ROOT, ROOT_CONST, TYPE_LOOKUP};
use oracle::record::{BEGIN_AGAIN, CHANGE, LOAD, STORE};
use oracle::stream::{Entry, LIST, LIST_WITH_DUMPS, LIST_WITH_FLAGS, SHEET, SHEET_WITH_DUMPS};

pub type Words = [u16; 16];

/// Records in the order in which they are carried out.
#[derive(Clone, Default)]
pub struct History {
    pub records: Vec<Words>,
}

/// A record. Its lists have at most four entries.
pub fn record(kind: u16, a: u16, b: u16, parents: &[u16], args: &[u16]) -> Words {
    let mut words = [0; 16];
    words[1] = kind;
    words[2] = a;
    words[3] = b;
    words[4] = parents.len() as u16;
    words[5] = args.len() as u16;
    words[6..6 + parents.len()].copy_from_slice(parents);
    words[10..10 + args.len()].copy_from_slice(args);
    words
}

/// The bytes of records as they stand.
pub fn bytes(records: &[Words]) -> Vec<u8> {
    let words = records.iter().flatten();
    words.flat_map(|word| word.to_le_bytes()).collect()
}

/// The records with each one's next index set to the one after it.
pub fn chained(records: &[Words]) -> Vec<Words> {
    let mut chained = records.to_vec();
    let last = chained.len().saturating_sub(1);
    for (index, words) in chained.iter_mut().enumerate() {
        words[0] = if index < last { index as u16 + 1 } else { 0 };
    }
    chained
}

impl History {
    pub fn new() -> Self {
        History::default()
    }

    pub fn push(&mut self, words: Words) -> &mut Self {
        self.records.push(words);
        self
    }

    /// The records that a sheet can hold: no finds, no lookups and no files.
    pub fn without_finds(&self) -> History {
        let records = self.records.iter().copied();
        History { records: records.filter(|words| words[1] < ROOT).collect() }
    }

    /// The records that are no calls of files.
    pub fn without_files(&self) -> History {
        let is_of_files = |words: &Words| (STORE..=BEGIN_AGAIN).contains(&words[1]);
        let records = self.records.iter().copied();
        History { records: records.filter(|words| !is_of_files(words)).collect() }
    }

    pub fn has_closes(&self) -> bool {
        self.records.iter().any(|words| words[1] == 13)
    }

    /// The same with one settle for each run of closes.
    pub fn with_settles(&self) -> History {
        let mut settling = History::new();
        let mut before = 0;
        for &words in &self.records {
            if words[1] != 13 {
                settling.push(words);
            } else if before != 13 {
                settling.settle();
            }
            before = words[1];
        }
        settling
    }

    pub fn sheet(&self) -> Entry {
        Entry { mode: SHEET, bytes: bytes(&chained(&self.records)) }
    }

    pub fn sheet_with_dumps(&self) -> Entry {
        Entry { mode: SHEET_WITH_DUMPS, ..self.sheet() }
    }

    pub fn list(&self) -> Entry {
        Entry { mode: LIST, bytes: bytes(&self.records) }
    }

    pub fn list_with_dumps(&self) -> Entry {
        Entry { mode: LIST_WITH_DUMPS, ..self.list() }
    }

    pub fn list_with_flags(&self) -> Entry {
        Entry { mode: LIST_WITH_FLAGS, ..self.list() }
    }

    pub fn plain(&mut self, parents: &[u16]) -> &mut Self {
        self.push(record(1, 0, 0, parents, &[]))
    }

    pub fn model(&mut self, parents: &[u16]) -> &mut Self {
        self.push(record(1, 1, 0, parents, &[]))
    }

    pub fn mor(&mut self, model: u16, parents: &[u16]) -> &mut Self {
        self.push(record(1, 3, model, parents, &[]))
    }

    pub fn pred(&mut self, parents: &[u16], arity: &[u16]) -> &mut Self {
        self.push(record(2, 0, 0, parents, arity))
    }

    pub fn func(&mut self, parents: &[u16], domain: &[u16], codomain: u16) -> &mut Self {
        self.push(record(3, 0, codomain, parents, domain))
    }

    /// `funcs` are dom, cod, id and comp.
    pub fn model_ids(&mut self, typ: u16, mor: u16, funcs: [u16; 4]) -> &mut Self {
        self.push(record(4, typ, mor, &[], &funcs))
    }

    pub fn mor_app(&mut self, func: u16, mor: u16, member: u16) -> &mut Self {
        self.push(record(5, func, 0, &[], &[mor, member]))
    }

    pub fn el(&mut self) -> &mut Self {
        self.push(record(6, 0, 0, &[], &[]))
    }

    pub fn els(&mut self, count: usize) -> &mut Self {
        for _ in 0..count {
            self.el();
        }
        self
    }

    pub fn marked_el(&mut self) -> &mut Self {
        self.push(record(6, 1, 0, &[], &[]))
    }

    pub fn equal(&mut self, a: u16, b: u16) -> &mut Self {
        self.push(record(7, a, b, &[], &[]))
    }

    pub fn impose(&mut self, el: u16, typ: u16, parents: &[u16]) -> &mut Self {
        self.push(record(8, el, typ, parents, &[]))
    }

    pub fn apply(&mut self, func: u16, parents: &[u16], args: &[u16], result: u16) -> &mut Self {
        self.push(record(9, func, result, parents, args))
    }

    pub fn holds(&mut self, pred: u16, parents: &[u16], args: &[u16]) -> &mut Self {
        self.push(record(10, pred, 0, parents, args))
    }

    pub fn var(&mut self, key: u16, el: u16) -> &mut Self {
        self.push(record(11, key, el, &[], &[]))
    }

    pub fn ambient(&mut self, typ: u16, el: u16) -> &mut Self {
        self.push(record(12, typ, el, &[], &[]))
    }

    pub fn close(&mut self) -> &mut Self {
        self.push(record(13, 0, 0, &[], &[]))
    }

    pub fn conflicts(&mut self) -> &mut Self {
        self.push(record(14, 0, 0, &[], &[]))
    }

    pub fn settle(&mut self) -> &mut Self {
        self.push(record(15, 0, 0, &[], &[]))
    }

    pub fn root(&mut self, el: u16) -> &mut Self {
        self.push(record(ROOT, el, 0, &[], &[]))
    }

    pub fn root_const(&mut self, el: u16) -> &mut Self {
        self.push(record(ROOT_CONST, el, 0, &[], &[]))
    }

    pub fn type_lookup(&mut self, typ: u16, parents: &[u16]) -> &mut Self {
        self.push(record(TYPE_LOOKUP, typ, 0, parents, &[]))
    }

    pub fn ambient_lookup(&mut self, types: &[u16]) -> &mut Self {
        self.push(record(AMBIENT_LOOKUP, 0, 0, &[], types))
    }

    pub fn store(&mut self) -> &mut Self {
        self.store_in(u16::MAX)
    }

    pub fn store_in(&mut self, room: u16) -> &mut Self {
        self.push(record(STORE, room, 0, &[], &[]))
    }

    /// Sets a byte of the file.
    pub fn set(&mut self, place: u16, value: u8) -> &mut Self {
        self.push(record(CHANGE, place, value.into(), &[], &[]))
    }

    /// Takes bytes off the end of the file, and then adds zeros.
    pub fn resize(&mut self, cut: u16, added: u16) -> &mut Self {
        let mut words = record(CHANGE, u16::MAX, 0, &[], &[]);
        words[4] = cut;
        words[5] = added;
        self.push(words)
    }

    /// The answer to this is the file as it is.
    pub fn look_at_file(&mut self) -> &mut Self {
        self.resize(0, 0)
    }

    /// Puts these bytes into the slot.
    pub fn file(&mut self, bytes: &[u8]) -> &mut Self {
        self.resize(u16::MAX, bytes.len() as u16);
        for (place, &byte) in bytes.iter().enumerate().filter(|(_, &byte)| byte != 0) {
            self.set(place as u16, byte);
        }
        self
    }

    pub fn load(&mut self) -> &mut Self {
        self.push(record(LOAD, 0, 0, &[], &[]))
    }

    pub fn begin_again(&mut self) -> &mut Self {
        self.push(record(BEGIN_AGAIN, 0, 0, &[], &[]))
    }
}
