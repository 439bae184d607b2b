//! The book of the conservation rule, as M-102 has it: it is fed calls and answers,
//! reads no structure, and says what the classes must be. It also says, by 02's own
//! words, whether the structure is settled.

use std::collections::{BTreeMap, BTreeSet};

use crate::answer::{Answer, Closed};
use crate::record::Record;

#[derive(Clone, Default)]
pub struct Book {
    /// dom, cod, id and comp of each model.
    models: Vec<[u16; 4]>,
    els: usize,
    has_marks: bool,
    equalities: Vec<(u16, u16)>,
    /// Applications as given.
    apps: Vec<Record>,
    merges: usize,
    /// Every call in order, refused ones, finds and lookups too.
    heard: Vec<Heard>,
    /// The records of kinds 1 to 5 that were accepted: the signature.
    declared: Vec<Record>,
    /// Where the history begins at a load that does not go on with a stored one, the
    /// settled of the file.
    loaded: Option<bool>,
}

/// A call, and of its answer what settled goes by.
#[derive(Copy, Clone)]
struct Heard {
    kind: u16,
    was_accepted: bool,
    said_yes: bool,
    reported_no_change: bool,
}

impl Book {
    /// The book after a load under the signature of this one that does not go on with a
    /// stored history: the conservation rule does not apply, and settled is what the file
    /// says until a call changes it.
    pub fn after_load(&self, settled: bool) -> Book {
        let declared = self.declared.clone();
        Book { models: self.models.clone(), declared, loaded: Some(settled), ..Book::default() }
    }

    /// Whether the history begins at the empty structure.
    pub fn is_whole(&self) -> bool {
        self.loaded.is_none()
    }

    pub fn has_signature_of(&self, other: &Book) -> bool {
        self.declared == other.declared
    }

    /// Takes in any call.
    pub fn hear(&mut self, record: &Record, answer: &Answer) {
        self.heard.push(Heard {
            kind: record.kind(),
            was_accepted: !matches!(answer, Answer::Refused(_)),
            said_yes: matches!(answer, Answer::Said(true)),
            // A settle ends with a close that reports no change.
            reported_no_change: match answer {
                Answer::Closed(closed) => !closed.changed,
                answer => matches!(answer, Answer::Settled { .. }),
            },
        });
    }

    /// Whether the latest accepted close reported no change and no equality,
    /// imposition or application accepted since was answered with yes.
    pub fn is_settled(&self) -> bool {
        let closes = |call: &Heard| call.was_accepted && [13, 15].contains(&call.kind);
        let (was_settled, since) = match self.heard.iter().rposition(closes) {
            Some(latest) => (self.heard[latest].reported_no_change, &self.heard[latest + 1..]),
            None => (self.loaded.unwrap_or(false), &self.heard[..]),
        };
        let declares = |call: &Heard| call.was_accepted && [7, 8, 9, 10].contains(&call.kind);
        was_settled && !since.iter().any(|call| declares(call) && call.said_yes)
    }

    /// Takes in an accepted call.
    pub fn enter(&mut self, record: &Record, answer: &Answer) {
        if record.kind() <= 5 {
            let mut words = record.words;
            words[0] = 0;
            self.declared.push(Record { words });
        }
        match record.kind() {
            4 => {
                let funcs = record.args();
                self.models.push([0, 1, 2, 3].map(|place| funcs[place]));
            }
            6 => {
                self.els += 1;
                self.has_marks |= record.a() == 1;
            }
            7 => self.equalities.push((record.a(), record.b())),
            9 => self.apps.push(*record),
            _ => {}
        }
        self.merges += match answer {
            Answer::Closed(closed) => closed.merges,
            Answer::Settled { merges, .. } => *merges,
            _ => 0,
        };
    }

    /// Elements equal classes plus merges.
    pub fn assert_conserved(&self, classes: usize) {
        if self.is_whole() {
            assert_eq!(self.els, classes + self.merges, "elements are classes plus merges");
        }
    }

    /// A close runs at most two rounds more than it merges, where no element is
    /// marked and neither id nor comp was applied.
    pub fn assert_rounds(&self, closed: &Closed) {
        let is_operation = |app: &Record| {
            self.models.iter().any(|[_, _, id, comp]| [*id, *comp].contains(&app.a()))
        };
        let most = closed.merges + 2;
        let is_served = self.is_whole() && !self.has_marks;
        assert!(
            !is_served || self.apps.iter().any(is_operation) || closed.rounds <= most,
            "rounds are at most merges and two"
        );
    }

    /// After a close the roots are those of the smallest closed pair. Marked elements
    /// may be joined beyond it, so then there is nothing to say.
    pub fn assert_smallest(&self, roots: &[usize]) {
        if self.is_whole() && !self.has_marks {
            assert_eq!(self.smallest_partition(), roots, "the smallest partition");
        }
    }

    /// The least element of each element's class in the smallest pair of a partition
    /// and a set of applications such that: equal elements may stand for each other in
    /// an application; the equalities and applications accepted are in it; results of
    /// one function at one key are equal; and the laws of id and comp hold. Of the set
    /// the applications to least elements are kept, and the pair grows until it is
    /// closed.
    fn smallest_partition(&self) -> Vec<usize> {
        let mut least: Vec<usize> = (0..self.els).collect();
        for &(a, b) in &self.equalities {
            join(&mut least, a.into(), b.into());
        }
        let mut apps: BTreeSet<(Key, usize)> = self.apps.iter().map(as_given).collect();
        loop {
            apps = apps.into_iter().map(|(key, el)| (key.at(&least), least[el])).collect();
            let mut results: BTreeMap<&Key, usize> = BTreeMap::new();
            let mut joined = false;
            for (key, result) in &apps {
                let first = *results.entry(key).or_insert(*result);
                joined |= join(&mut least, first, *result);
            }
            if joined {
                continue;
            }
            let mut demanded = Vec::new();
            for (key, &result) in &results {
                self.demand(key, result, &results, &mut demanded);
            }
            let before = apps.len();
            apps.extend(demanded);
            if apps.len() == before {
                return least;
            }
        }
    }

    /// What the laws demand of one application beside the others.
    fn demand(
        &self,
        key: &Key,
        result: usize,
        results: &BTreeMap<&Key, usize>,
        demanded: &mut Vec<(Key, usize)>,
    ) {
        for &[dom, cod, id, comp] in &self.models {
            let at = |func: u16, el: usize| Key { func, args: vec![el], ..key.clone() };
            if key.func == id {
                demanded.extend([dom, cod].map(|func| (at(func, result), key.args[0])));
            }
            if key.func == comp {
                let (f, g, h) = (key.args[0], key.args[1], result);
                for (one, other) in
                    [(at(dom, f), at(dom, h)), (at(cod, g), at(cod, h)), (at(cod, f), at(dom, g))]
                {
                    for (from, to) in [(&one, &other), (&other, &one)] {
                        demanded.extend(results.get(from).map(|&value| (to.clone(), value)));
                    }
                }
            }
        }
    }
}

/// A function, and the elements that it is applied to.
#[derive(Clone, PartialEq, Eq, PartialOrd, Ord)]
struct Key {
    func: u16,
    parents: Vec<usize>,
    args: Vec<usize>,
}

impl Key {
    /// The same of the least elements.
    fn at(&self, least: &[usize]) -> Key {
        let of = |els: &[usize]| els.iter().map(|&el| least[el]).collect();
        Key { func: self.func, parents: of(&self.parents), args: of(&self.args) }
    }
}

fn as_given(app: &Record) -> (Key, usize) {
    let of = |els: &[u16]| els.iter().map(|&el| el.into()).collect();
    (Key { func: app.a(), parents: of(app.parents()), args: of(app.args()) }, app.b().into())
}

/// Puts two elements together; says whether they were apart.
fn join(least: &mut [usize], a: usize, b: usize) -> bool {
    let (keep, drop) = (least[a].min(least[b]), least[a].max(least[b]));
    for entry in least.iter_mut().filter(|entry| **entry == drop) {
        *entry = keep;
    }
    keep != drop
}
