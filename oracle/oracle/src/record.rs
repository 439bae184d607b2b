//! Records: sixteen words, and what the words of each kind may hold.

use std::ops::RangeInclusive;

/// Bytes of one record.
pub const BYTES: usize = 32;

/// Kinds that stand, in lists, for the public calls that no sheet record makes.
pub const ROOT: u16 = 101;
pub const ROOT_CONST: u16 = 102;
pub const TYPE_LOOKUP: u16 = 103;
pub const AMBIENT_LOOKUP: u16 = 104;

/// Kinds of files.
pub const STORE: u16 = 105;
pub const CHANGE: u16 = 106;
pub const LOAD: u16 = 107;
pub const BEGIN_AGAIN: u16 = 108;

#[derive(Copy, Clone, Debug, PartialEq, Eq)]
pub struct Record {
    pub words: [u16; 16],
}

impl Record {
    /// The record in `bytes`, of which there are `BYTES`.
    pub fn read(bytes: &[u8]) -> Record {
        let mut words = [0; 16];
        for (word, pair) in words.iter_mut().zip(bytes.chunks_exact(2)) {
            *word = u16::from_le_bytes([pair[0], pair[1]]);
        }
        Record { words }
    }

    /// The record of a kind that has no fields.
    pub fn of_kind(kind: u16) -> Record {
        let mut words = [0; 16];
        words[1] = kind;
        Record { words }
    }

    /// A record of kinds 7 to 12. Its lists have at most four entries.
    pub fn new(kind: u16, a: u16, b: u16, parents: &[u16], args: &[u16]) -> Record {
        let mut words = [0; 16];
        words[1..4].copy_from_slice(&[kind, a, b]);
        words[4] = parents.len() as u16;
        words[5] = args.len() as u16;
        words[6..6 + parents.len()].copy_from_slice(parents);
        words[10..10 + args.len()].copy_from_slice(args);
        Record { words }
    }

    pub fn next(&self) -> u16 {
        self.words[0]
    }

    pub fn kind(&self) -> u16 {
        self.words[1]
    }

    pub fn a(&self) -> u16 {
        self.words[2]
    }

    pub fn b(&self) -> u16 {
        self.words[3]
    }

    pub fn parent_count(&self) -> u16 {
        self.words[4]
    }

    pub fn arg_count(&self) -> u16 {
        self.words[5]
    }

    /// The parents that the record counts, at most four.
    pub fn parents(&self) -> &[u16] {
        let count = usize::from(self.parent_count()).min(4);
        &self.words[6..6 + count]
    }

    /// The arguments that the record counts, at most four.
    pub fn args(&self) -> &[u16] {
        let count = usize::from(self.arg_count()).min(4);
        &self.words[10..10 + count]
    }

    /// Whether kind, counts, key, A and the unused words are as document 01
    /// has them (number 3).
    pub fn is_well_formed(&self) -> bool {
        let Some(shape) = self.shape() else {
            return false;
        };
        shape.a.allows(self.a())
            && shape.b.allows(self.b())
            && shape.parents.counts.contains(&self.parent_count())
            && shape.args.counts.contains(&self.arg_count())
            && self.words[6 + self.parents().len()..10] == [0; 4][self.parents().len()..]
            && self.words[10 + self.args().len()..] == [0; 6][self.args().len()..]
    }

    /// The words of a well-formed record that hold numbers which must have been
    /// declared, each with the table that it names an entry of.
    pub fn naming_words(&self) -> Vec<(usize, Table)> {
        let Some(shape) = self.shape() else {
            return Vec::new();
        };
        let mut words = Vec::new();
        for (index, word) in [(2, shape.a), (3, shape.b)] {
            if let Word::Names(table) = word {
                words.push((index, table));
            }
        }
        words.extend((6..6 + self.parents().len()).map(|index| (index, shape.parents.names)));
        words.extend((10..10 + self.args().len()).map(|index| (index, shape.args.names)));
        words
    }

    fn shape(&self) -> Option<Shape> {
        use Table::{Els, Funcs, Preds, Types};
        use Word::{Names, UpTo, Zero};

        let mor = self.kind() == 1 && self.a() == 3;
        let (a, b, parents, args) = match self.kind() {
            1 if mor => (UpTo(3), Names(Types), upto_four(Types), unused()),
            1 => (UpTo(3), Zero, upto_four(Types), unused()),
            2 => (Zero, Zero, upto_four(Types), upto_four(Types)),
            3 => (Zero, Names(Types), upto_four(Types), upto_four(Types)),
            4 => (Names(Types), Names(Types), unused(), exactly(4, Funcs)),
            5 => (Names(Funcs), Zero, unused(), exactly(2, Types)),
            6 => (UpTo(1), Zero, unused(), unused()),
            7 => (Names(Els), Names(Els), unused(), unused()),
            8 => (Names(Els), Names(Types), upto_four(Els), unused()),
            9 => (Names(Funcs), Names(Els), upto_four(Els), upto_four(Els)),
            10 => (Names(Preds), Zero, upto_four(Els), upto_four(Els)),
            11 => (UpTo(63), Names(Els), unused(), unused()),
            12 => (Names(Types), Names(Els), unused(), unused()),
            13..=15 => (Zero, Zero, unused(), unused()),
            _ => return None,
        };
        Some(Shape { a, b, parents, args })
    }
}

/// A table whose entries have numbers.
#[derive(Copy, Clone, Debug, PartialEq, Eq)]
pub enum Table {
    Types,
    Preds,
    Funcs,
    Els,
}

/// What A or B may hold.
#[derive(Copy, Clone)]
enum Word {
    Zero,
    UpTo(u16),
    Names(Table),
}

impl Word {
    fn allows(self, value: u16) -> bool {
        match self {
            Word::Zero => value == 0,
            Word::UpTo(most) => value <= most,
            Word::Names(_) => true,
        }
    }
}

/// How many parents or arguments there may be, and what they name.
struct List {
    names: Table,
    counts: RangeInclusive<u16>,
}

fn upto_four(names: Table) -> List {
    let counts = 0..=4;
    List { names, counts }
}

fn exactly(count: u16, names: Table) -> List {
    let counts = count..=count;
    List { names, counts }
}

fn unused() -> List {
    exactly(0, Table::Els)
}

struct Shape {
    a: Word,
    b: Word,
    parents: List,
    args: List,
}
