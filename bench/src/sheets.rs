//! The sheets that are timed. Each is at most 1,024 records and ends with the close, the settle or the conflicts timed; and the
//! list of calls whose structure is stored and loaded.

/// The most elements of a structure.
const ELS: u16 = 256;

/// A sheet in the making: records of sixteen words, chained in order.
#[derive(Default)]
struct Sheet {
    records: Vec<[u16; 16]>,
}

impl Sheet {
    fn record(&mut self, kind: u16, a: u16, b: u16, parents: &[u16], args: &[u16]) {
        let mut words = [0; 16];
        words[1] = kind;
        words[2] = a;
        words[3] = b;
        words[4] = parents.len() as u16;
        words[5] = args.len() as u16;
        words[6..6 + parents.len()].copy_from_slice(parents);
        words[10..10 + args.len()].copy_from_slice(args);
        self.records.push(words);
    }

    fn plain_type(&mut self, parents: &[u16]) {
        self.record(1, 0, 0, parents, &[]);
    }

    fn model_type(&mut self) {
        self.record(1, 1, 0, &[], &[]);
    }

    fn mor_type(&mut self, model: u16) {
        self.record(1, 3, model, &[], &[]);
    }

    fn predicate(&mut self, parents: &[u16], arity: &[u16]) {
        self.record(2, 0, 0, parents, arity);
    }

    fn function(&mut self, domain: &[u16], codomain: u16) {
        self.record(3, 0, codomain, &[], domain);
    }

    fn elements(&mut self, count: u16) {
        for _ in 0..count {
            self.record(6, 0, 0, &[], &[]);
        }
    }

    fn marked_elements(&mut self, count: u16) {
        for _ in 0..count {
            self.record(6, 1, 0, &[], &[]);
        }
    }

    /// The same sheet with every element marked.
    fn marked(mut self) -> Sheet {
        for words in self.records.iter_mut().filter(|words| words[1] == 6) {
            words[2] = 1;
        }
        self
    }

    fn equal(&mut self, a: u16, b: u16) {
        self.record(7, a, b, &[], &[]);
    }

    /// Function 0 of each element of a run gives the next one.
    fn chain(&mut self, first: u16, last: u16) {
        for el in first..last {
            self.record(9, 0, el + 1, &[], &[el]);
        }
    }

    /// A predicate of four arguments holds of a run, four at a time.
    fn holds(&mut self, predicate: u16, first: u16, count: u16) {
        for el in (first..first + count).step_by(4) {
            self.record(10, predicate, 0, &[], &[el, el + 1, el + 2, el + 3]);
        }
    }

    fn impose(&mut self, el: u16, typ: u16, parents: &[u16]) {
        self.record(8, el, typ, parents, &[]);
    }

    /// The bytes, with a close at the end.
    fn closed(self) -> Vec<u8> {
        self.ended(13)
    }

    /// The bytes, with a settle at the end.
    fn settled(self) -> Vec<u8> {
        self.ended(15)
    }

    /// The bytes, with a close and the conflicts at the end.
    fn reported(mut self) -> Vec<u8> {
        self.record(13, 0, 0, &[], &[]);
        self.ended(14)
    }

    fn ended(mut self, kind: u16) -> Vec<u8> {
        self.record(kind, 0, 0, &[], &[]);
        let count = self.records.len();
        assert!(count <= 1024);
        for (index, words) in self.records.iter_mut().enumerate() {
            words[0] = ((index + 1) % count) as u16;
        }
        self.records.iter().flatten().flat_map(|word| word.to_le_bytes()).collect()
    }
}

/// One type: each element of the chains gets one fact.
fn one_type() -> Sheet {
    let mut sheet = Sheet::default();
    sheet.plain_type(&[]);
    sheet.function(&[0], 0);
    sheet.elements(ELS);
    sheet
}

/// Four types: each element gets one as an argument, one as a result, and nearly each one from either predicate.
fn four_types() -> Sheet {
    let mut sheet = Sheet::default();
    for _ in 0..4 {
        sheet.plain_type(&[]);
    }
    sheet.predicate(&[], &[2; 4]);
    sheet.predicate(&[], &[3; 4]);
    sheet.function(&[0], 1);
    sheet.elements(ELS);
    sheet.holds(0, 0, 240);
    sheet.holds(1, 0, 240);
    sheet
}

/// Two chains of 128 whose heads are equal: each round merges the next two.
fn two_chains(mut sheet: Sheet) -> Sheet {
    sheet.chain(0, ELS / 2 - 1);
    sheet.chain(ELS / 2, ELS - 1);
    sheet.equal(0, ELS / 2);
    sheet
}

/// One chain of 256 whose first two are equal: each round merges the next one into the first.
fn one_chain(mut sheet: Sheet) -> Vec<u8> {
    sheet.chain(0, ELS - 1);
    sheet.equal(0, 1);
    sheet.closed()
}

pub fn two_chains_250() -> Vec<u8> {
    two_chains(one_type()).closed()
}

pub fn two_chains_990() -> Vec<u8> {
    two_chains(four_types()).closed()
}

pub fn two_chains_marked() -> Vec<u8> {
    two_chains(four_types().marked()).closed()
}

pub fn two_chains_settled() -> Vec<u8> {
    two_chains(four_types()).settled()
}

/// 33 elements, all but the first marked: each close but the last merges one of them with 0 by the impositions, which
/// brings the next one to disagree with 0 in a parent.
pub fn merged_one_by_one() -> Vec<u8> {
    const COUNT: u16 = 33;
    let mut sheet = Sheet::default();
    sheet.model_type();
    for _ in 1..COUNT - 1 {
        sheet.plain_type(&[0]);
    }
    sheet.elements(1);
    sheet.marked_elements(COUNT - 1);
    let merged = |close: u16| COUNT - close;
    for close in (3..COUNT).rev() {
        sheet.impose(0, close - 1, &[merged(close)]);
        sheet.impose(merged(close - 1), close - 1, &[0]);
    }
    sheet.impose(0, 1, &[merged(1)]);
    sheet.impose(merged(1), 1, &[merged(2)]);
    sheet.impose(0, 1, &[0]);
    sheet.settled()
}

pub fn one_chain_250() -> Vec<u8> {
    one_chain(one_type())
}

pub fn one_chain_990() -> Vec<u8> {
    one_chain(four_types())
}

/// Four types with four parents each, and a predicate that gives its four arguments one each.
fn four_owned_types() -> Sheet {
    let mut sheet = Sheet::default();
    sheet.model_type();
    for _ in 0..4 {
        sheet.plain_type(&[0; 4]);
    }
    sheet.predicate(&[0; 4], &[1, 2, 3, 4]);
    sheet
}

/// The parents of one of 256 applications, each with its own, from four elements.
fn own_parents(app: u16, first: u16) -> [u16; 4] {
    [64, 16, 4, 1].map(|place| first + app / place % 4)
}

/// One chain of 252, and 1,024 facts that all differ, since each predicate application has parents of its own;
/// all of them gather in one class.
pub fn gathering() -> Vec<u8> {
    const PARENTS: u16 = 4;
    let mut sheet = four_owned_types();
    sheet.function(&[1], 1);
    sheet.elements(ELS);
    let chain = ELS - PARENTS;
    for app in 0..256 {
        sheet.record(10, 0, 0, &own_parents(app, chain), &[app % chain; 4]);
    }
    sheet.chain(0, chain - 1);
    sheet.equal(0, 1);
    sheet.closed()
}

/// 1,024 facts of one element of four. The second in order disagrees with the first in its last parent.
pub fn one_class() -> Vec<u8> {
    let mut sheet = four_owned_types();
    sheet.elements(4);
    for app in 0..256 {
        sheet.record(10, 0, 0, &own_parents(app, 0), &[0; 4]);
    }
    sheet.reported()
}

/// Four facts of each of 256 elements. The second disagrees with the first in its type.
pub fn many_classes() -> Vec<u8> {
    let mut sheet = four_owned_types();
    sheet.elements(ELS);
    for el in 0..ELS {
        sheet.record(10, 0, 0, &own_parents(el, 0), &[el; 4]);
    }
    sheet.reported()
}

/// A chain of 127 composites: each map but the first, with one that they share, composes to the one before it. The last
/// has a dom, and each round gives it to one more: no merge, an application a round.
pub fn composites() -> Vec<u8> {
    const COUNT: u16 = 127;
    const SHARED: u16 = COUNT + 1;
    const SET: u16 = COUNT + 2;
    let mut sheet = Sheet::default();
    let (model, mor) = (0, 1);
    sheet.model_type();
    sheet.mor_type(model);
    let (dom, comp) = (0, 3);
    sheet.function(&[mor], model);
    sheet.function(&[mor], model);
    sheet.function(&[model], mor);
    sheet.function(&[mor, mor], mor);
    sheet.record(4, model, mor, &[], &[dom, 1, 2, comp]);
    sheet.elements(SET + 1);
    for map in 1..=COUNT {
        sheet.record(9, comp, map - 1, &[], &[map, SHARED]);
    }
    sheet.record(9, dom, SET, &[], &[COUNT]);
    sheet.closed()
}

/// A list of calls that fills every table: 256 elements with four facts each, 256 applications of each kind, 64 impositions and
/// variables, an ambient element of each of 32 types, and 256 pairs that wait. A list is not chained and has any length.
pub fn full() -> Vec<u8> {
    const TYPES: u16 = 32;
    let mut list = Sheet::default();
    for _ in 0..TYPES {
        list.model_type();
    }
    list.predicate(&[], &[0, 1, 2, 3]);
    list.function(&[], 0);
    list.elements(ELS);
    for el in 0..ELS {
        let at = |place| (el + place) % ELS;
        list.record(10, 0, 0, &[], &[at(0), at(1), at(2), at(3)]);
        list.record(9, 0, el, &[], &[el, el, el, el]);
    }
    for el in 0..64 {
        list.impose(el, 0, &[]);
        list.record(11, el, el, &[], &[]);
    }
    for typ in 0..TYPES {
        list.record(12, typ, typ, &[], &[]);
    }
    list.record(13, 0, 0, &[], &[]);
    for el in 0..ELS {
        list.equal(el, el);
    }
    list.records.iter().flatten().flat_map(|word| word.to_le_bytes()).collect()
}
