//! Files over the Rust's own structure (docs/FILE.md). The Rust has none, so both ways are
//! ours. A file is read as if it were right; it is right where storing what was read
//! gives the same bytes, and what was read is a structure that may be loaded.

use std::collections::BTreeSet;

use eqlog_runtime::Unification;

use super::{
    is_same, var_key, var_name, ConcreteType, ElId, FuncApp, FuncId, Oracle, PredApp, PredId,
    Record, Structure, TypeId, MAX_APPS, MAX_ELS, MAX_FACTS, MAX_IMPOSITIONS, MAX_PAIRS, MAX_TYPES,
};
use crate::answer::Answer;
use crate::record::{BEGIN_AGAIN, CHANGE, LOAD, STORE};

const MAX_VARS: usize = 64;

/// The limits of the counts in a file's head.
const LIMITS: [usize; 8] =
    [MAX_ELS, MAX_FACTS, MAX_APPS, MAX_APPS, MAX_IMPOSITIONS, MAX_VARS, MAX_TYPES, MAX_PAIRS];

/// Bytes of a slot.
const ROOM: usize = 16384;

/// The slot for a file that a list has.
pub struct Slot {
    bytes: [u8; ROOM],
    length: usize,
    /// What was stored last, with all that a load of it brings back.
    stored: Option<Oracle>,
}

impl Default for Slot {
    fn default() -> Self {
        Slot { bytes: [0; ROOM], length: 0, stored: None }
    }
}

impl Slot {
    /// The calls of kinds 105 to 108.
    pub fn call(&mut self, oracle: &mut Oracle, record: &Record) -> Answer {
        match record.kind() {
            STORE => self.store(oracle, record.a().into()),
            CHANGE => self.change(record),
            LOAD => self.load(oracle),
            BEGIN_AGAIN => {
                *oracle = Oracle::default();
                Answer::Said(true)
            }
            kind => unreachable!("{kind} is no kind of files"),
        }
    }

    /// The bytes of the file, sixteen to a line.
    pub fn dump(&self, out: &mut String) {
        for bytes in self.file().chunks(16) {
            let numbers: String = bytes.iter().map(|byte| format!(" {byte}")).collect();
            *out += &format!("b{numbers}\n");
        }
    }

    fn file(&self) -> &[u8] {
        &self.bytes[..self.length]
    }

    /// Adler-32: the sum of the bytes and one, and the sum of these sums.
    fn answer(&self) -> Answer {
        const MODULUS: usize = 65521;
        let mut sums = [1, 0];
        for byte in self.file() {
            sums[0] = (sums[0] + usize::from(*byte)) % MODULUS;
            sums[1] = (sums[1] + sums[0]) % MODULUS;
        }
        Answer::File([self.length, sums[0], sums[1]])
    }

    fn store(&mut self, oracle: &Oracle, room: usize) -> Answer {
        let file = oracle.file();
        let Some(into) = self.bytes[..room.min(ROOM)].get_mut(..file.len()) else {
            return Answer::Refused(9);
        };
        into.copy_from_slice(&file);
        self.length = file.len();
        self.stored = Some(oracle.clone());
        self.answer()
    }

    fn change(&mut self, record: &Record) -> Answer {
        self.length = self.length.saturating_sub(record.parent_count().into());
        for _ in 0..record.arg_count() {
            if self.length < ROOM {
                self.bytes[self.length] = 0;
                self.length += 1;
            }
        }
        let place = usize::from(record.a());
        if place < self.length {
            self.bytes[place] = record.b().to_le_bytes()[0];
        }
        self.answer()
    }

    fn load(&mut self, oracle: &mut Oracle) -> Answer {
        let loaded = match oracle.loaded(self.file()) {
            Ok(loaded) => loaded,
            Err(number) => return Answer::Refused(number),
        };
        *oracle = match &self.stored {
            // The history of the stored structure goes on.
            Some(stored) if stored.is_stored_in(self.file(), oracle) => {
                assert!(is_same(&loaded.structure, &stored.structure), "a load gives what was stored");
                assert_eq!((loaded.begun, loaded.settled), (stored.begun, stored.settled));
                Oracle { book: stored.book.clone(), ..loaded }
            }
            _ => loaded,
        };
        oracle.assert_sound();
        Answer::Said(true)
    }
}

impl Oracle {
    fn is_stored_in(&self, file: &[u8], under: &Oracle) -> bool {
        self.book.has_signature_of(&under.book) && self.file() == file
    }

    /// The file of the structure.
    fn file(&self) -> Vec<u8> {
        let structure = &self.structure;
        let els = structure.unification.len();
        let mut file = Vec::new();
        for count in [
            els,
            self.facts(),
            structure.func_apps.len(),
            structure.pred_apps.len(),
            structure.pending_type_impositions.len(),
            structure.var_els.len(),
            structure.ambient_model_els.len(),
            structure.pending_equalities.len(),
        ] {
            put_word(&mut file, count);
        }
        file.extend((0..els).map(|el| byte(structure.unification.link(ElId(el)).0)));

        let facts: Vec<&ConcreteType> = structure.els.values().flatten().collect();
        put_columns(&mut file, facts.iter().map(|ct| fact_row(ct)).collect());
        let mut index = 0;
        let mut firsts = vec![0; els];
        for (el, cts) in &structure.els {
            for place in 0..cts.len() {
                index += 1;
                if place == 0 {
                    firsts[el.0] = index;
                }
                put_word(&mut file, if place + 1 < cts.len() { index + 1 } else { 0 });
            }
        }

        let func_apps = structure.func_apps.iter();
        let row = |(app, result): (&FuncApp, &ElId)| {
            [app_row(app.func.as_usize(), &app.parents, &app.args), vec![byte(result.0)]].concat()
        };
        put_columns(&mut file, func_apps.map(row).collect());
        let pred_apps = structure.pred_apps.iter();
        let row = |app: &PredApp| app_row(app.pred.as_usize(), &app.parents, &app.args);
        put_columns(&mut file, pred_apps.map(row).collect());
        let impositions = structure.pending_type_impositions.iter();
        let row = |(el, ct): &(ElId, ConcreteType)| [vec![byte(el.0)], fact_row(ct)].concat();
        put_columns(&mut file, impositions.map(row).collect());

        let vars = structure.var_els.iter();
        let row = |(name, el): (&String, &ElId)| vec![byte(var_key(name).into()), byte(el.0)];
        put_columns(&mut file, vars.map(row).collect());
        let ambients = structure.ambient_model_els.iter();
        let row = |(typ, el): (&TypeId, &ElId)| vec![byte(typ.as_usize()), byte(el.0)];
        put_columns(&mut file, ambients.map(row).collect());
        let marks = &structure.inferred_parent_els;
        file.extend((0..els).map(|el| u8::from(marks.contains(&ElId(el)))));
        let pairs = structure.pending_equalities.iter();
        let row = |(left, right): &(ElId, ElId)| vec![byte(left.0), byte(right.0)];
        put_columns(&mut file, pairs.map(row).collect());
        for first in firsts {
            put_word(&mut file, first);
        }
        file.extend([self.settled, self.begun].map(u8::from));
        file
    }

    /// What a load of a file under this signature gives, with a book that begins there,
    /// or the number that refuses it.
    fn loaded(&self, file: &[u8]) -> Result<Oracle, u16> {
        let Some(read) = Read::new(file) else {
            return Err(13);
        };
        if !read.has_counts_within_limits() || !read.links_fall() {
            return Err(14);
        }
        let loaded = self.with_structure(&read);
        let is_whole = loaded.facts() == read.counts[1] && loaded.file() == file;
        if is_whole && loaded.may_be_loaded() {
            Ok(loaded)
        } else {
            Err(14)
        }
    }

    fn with_structure(&self, read: &Read) -> Oracle {
        let settled = read.settled == 1;
        Oracle {
            signature: self.signature.clone(),
            structure: read.structure(),
            begun: read.begun == 1,
            settled,
            book: self.book.after_load(settled),
        }
    }

    /// Whether a structure that was read from a file, and whose links fall, is one that
    /// may be loaded: its facts stand on roots, the flag for number 4 is set where it must
    /// be, and no entry's call would refuse it.
    fn may_be_loaded(&self) -> bool {
        let structure = &self.structure;
        let is_root = |el: &ElId| structure.unification.link(*el) == *el;
        let facts_on_roots = structure.els.iter().all(|(el, cts)| cts.is_empty() || is_root(el));
        let is_empty = self.file()[..16] == [0; 16];
        let els = structure.unification.len();
        let mut alone = Oracle { signature: self.signature.clone(), ..Oracle::default() };
        (0..els).for_each(|_| _ = alone.structure.push_el());
        alone.begun = true;
        facts_on_roots
            && (self.begun || (is_empty && !self.settled))
            && self.entries().iter().all(|record| alone.refusal(record).is_none())
    }

    /// The entries as the calls that they are.
    fn entries(&self) -> Vec<Record> {
        let structure = &self.structure;
        let number = |el: &ElId| el.0 as u16;
        let all = |els: &[ElId]| els.iter().map(number).collect::<Vec<u16>>();
        let imposition = |el: &ElId, ct: &ConcreteType| {
            Record::new(8, number(el), ct.typ.as_usize() as u16, &all(&ct.parents), &[])
        };
        let mut records = Vec::new();
        for (el, cts) in &structure.els {
            records.extend(cts.iter().map(|ct| imposition(el, ct)));
        }
        for (app, result) in &structure.func_apps {
            let func = app.func.as_usize() as u16;
            records.push(Record::new(9, func, number(result), &all(&app.parents), &all(&app.args)));
        }
        for app in &structure.pred_apps {
            let pred = app.pred.as_usize() as u16;
            records.push(Record::new(10, pred, 0, &all(&app.parents), &all(&app.args)));
        }
        for (el, ct) in &structure.pending_type_impositions {
            records.push(imposition(el, ct));
        }
        for (name, el) in &structure.var_els {
            records.push(Record::new(11, var_key(name), number(el), &[], &[]));
        }
        for (typ, el) in &structure.ambient_model_els {
            records.push(Record::new(12, typ.as_usize() as u16, number(el), &[], &[]));
        }
        for (left, right) in &structure.pending_equalities {
            records.push(Record::new(7, number(left), number(right), &[], &[]));
        }
        records
    }
}

fn byte(number: usize) -> u8 {
    u8::try_from(number).expect("numbers in a structure are small")
}

fn put_word(file: &mut Vec<u8>, number: usize) {
    file.extend(u16::try_from(number).expect("counts are small").to_le_bytes());
}

/// Rows of one length, column by column.
fn put_columns(file: &mut Vec<u8>, rows: Vec<Vec<u8>>) {
    for place in 0..rows.first().map_or(0, Vec::len) {
        file.extend(rows.iter().map(|row| row[place]));
    }
}

fn places(els: &[ElId]) -> [u8; 5] {
    let mut row = [0; 5];
    for (place, el) in els.iter().enumerate() {
        row[place] = byte(el.0);
    }
    row[4] = byte(els.len());
    row
}

fn fact_row(ct: &ConcreteType) -> Vec<u8> {
    [&[byte(ct.typ.as_usize())][..], &places(&ct.parents)].concat()
}

fn app_row(number: usize, parents: &[ElId], args: &[ElId]) -> Vec<u8> {
    [&[byte(number)][..], &places(parents), &places(args)].concat()
}

/// A file of the length that its counts say, cut at the offsets of docs/FILE.md.
struct Read<'a> {
    file: &'a [u8],
    counts: [usize; 8],
    settled: u8,
    begun: u8,
}

impl Read<'_> {
    fn new(file: &[u8]) -> Option<Read<'_>> {
        let word = |at: usize| Some(usize::from(u16::from_le_bytes([*file.get(at)?, *file.get(at + 1)?])));
        let mut counts = [0; 8];
        for (place, count) in counts.iter_mut().enumerate() {
            *count = word(2 * place)?;
        }
        let [e, f, a, p, i, v, m, q] = counts;
        let length = 18 + 4 * e + 8 * f + 12 * a + 11 * p + 7 * i + 2 * v + 2 * m + 2 * q;
        if file.len() != length {
            return None;
        }
        Some(Read { file, counts, settled: file[length - 2], begun: file[length - 1] })
    }

    fn has_counts_within_limits(&self) -> bool {
        self.counts.iter().zip(LIMITS).all(|(count, most)| *count <= most)
    }

    fn links_fall(&self) -> bool {
        (0..self.counts[0]).all(|el| usize::from(self.file[16 + el]) <= el)
    }

    fn word(&self, at: usize) -> usize {
        u16::from_le_bytes([self.file[at], self.file[at + 1]]).into()
    }

    /// The numbers of row `row` of a table of `rows` rows, from its column `column` on.
    /// `at` is the offset of the table.
    fn entry(&self, at: usize, rows: usize, row: usize, column: usize) -> u16 {
        self.file[at + column * rows + row].into()
    }

    /// The list whose first place is this column.
    fn list(&self, at: usize, rows: usize, row: usize, column: usize) -> Vec<ElId> {
        let count = self.entry(at, rows, row, column + 4).min(4);
        let entry = |place| ElId(self.entry(at, rows, row, column + place).into());
        (0..usize::from(count)).map(entry).collect()
    }

    /// The structure that the file says. Links fall; any other number may be wrong.
    fn structure(&self) -> Structure {
        let [e, f, a, p, i, v, m, q] = self.counts;
        let facts = 16 + e;
        let func_apps = facts + 8 * f;
        let pred_apps = func_apps + 12 * a;
        let impositions = pred_apps + 11 * p;
        let vars = impositions + 7 * i;
        let ambients = vars + 2 * v;
        let marks = ambients + 2 * m;
        let pairs = marks + e;
        let chains = pairs + 2 * q;

        let links: Vec<ElId> = (0..e).map(|el| ElId(self.file[16 + el].into())).collect();
        let mut structure = Structure::default();
        for el in 0..e {
            let cts = self.chain(facts, self.word(chains + 2 * el));
            if links[el].0 == el || !cts.is_empty() {
                structure.els.insert(ElId(el), cts);
            }
        }
        structure.unification = Unification::with_links(links);
        let el = |number: u16| ElId(number.into());
        for row in 0..a {
            let app = FuncApp {
                func: FuncId::new(self.entry(func_apps, a, row, 0)),
                parents: self.list(func_apps, a, row, 1),
                args: self.list(func_apps, a, row, 6),
            };
            structure.func_apps.insert(app, el(self.entry(func_apps, a, row, 11)));
        }
        for row in 0..p {
            structure.pred_apps.insert(PredApp {
                pred: PredId::new(self.entry(pred_apps, p, row, 0)),
                parents: self.list(pred_apps, p, row, 1),
                args: self.list(pred_apps, p, row, 6),
            });
        }
        for row in 0..i {
            let typ = TypeId::new(self.entry(impositions, i, row, 1));
            let ct = ConcreteType { typ, parents: self.list(impositions, i, row, 2) };
            let of = el(self.entry(impositions, i, row, 0));
            structure.pending_type_impositions.push((of, ct));
        }
        for row in 0..v {
            let name = var_name(self.entry(vars, v, row, 0));
            structure.var_els.insert(name, el(self.entry(vars, v, row, 1)));
        }
        for row in 0..m {
            let typ = TypeId::new(self.entry(ambients, m, row, 0));
            structure.ambient_model_els.insert(typ, el(self.entry(ambients, m, row, 1)));
        }
        let is_marked = |el: &usize| self.file[marks + el] == 1;
        structure.inferred_parent_els = (0..e).filter(is_marked).map(ElId).collect();
        for row in 0..q {
            let (left, right) = (self.entry(pairs, q, row, 0), self.entry(pairs, q, row, 1));
            structure.pending_equalities.push((el(left), el(right)));
        }
        structure
    }

    /// The facts of a chain, as far as it goes on to higher indices.
    fn chain(&self, facts: usize, first: usize) -> BTreeSet<ConcreteType> {
        let f = self.counts[1];
        let mut cts = BTreeSet::new();
        let (mut before, mut index) = (0, first);
        while before < index && index <= f {
            let row = index - 1;
            let typ = TypeId::new(self.entry(facts, f, row, 0));
            cts.insert(ConcreteType { typ, parents: self.list(facts, f, row, 1) });
            before = index;
            index = self.word(facts + 6 * f + 2 * row);
        }
        cts
    }
}
