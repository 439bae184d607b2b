//! What a call gives back, and the lines that say it.

use std::fmt;

pub enum Answer {
    Refused(u16),
    /// The number, or the ordinal, of what was declared (kinds 1 to 6).
    Number(usize),
    /// Yes or no (kinds 7 to 12).
    Said(bool),
    Closed(Closed),
    /// The closes that a settle ran, and their merges.
    Settled {
        closes: usize,
        merges: usize,
    },
    Conflicts(Conflicts),
    Found {
        root: usize,
        count: usize,
    },
    Typed(Option<Fact>),
    Ambients(Numbers),
    /// The length of a file, and the lower and the upper half of its checksum.
    File([usize; 3]),
}

pub struct Closed {
    pub changed: bool,
    pub merges: usize,
    pub rounds: usize,
    /// The insertions made by imposing that enlarged a set of facts.
    pub added: usize,
}

pub struct Conflicts {
    /// The element and the two facts of each conflict.
    pub each: Vec<(usize, Fact, Fact)>,
    /// How often a report finds the root of a parent of a class's first fact.
    pub finds: usize,
}

pub struct Fact {
    pub typ: usize,
    pub parents: Numbers,
}

/// Numbers of elements. Each prints with a space before it.
pub struct Numbers(pub Vec<usize>);

impl fmt::Display for Numbers {
    fn fmt(&self, f: &mut fmt::Formatter) -> fmt::Result {
        self.0.iter().try_for_each(|number| write!(f, " {number}"))
    }
}

impl fmt::Display for Fact {
    fn fmt(&self, f: &mut fmt::Formatter) -> fmt::Result {
        write!(f, "{}{}", self.typ, self.parents)
    }
}

/// As a sheet prints them.
impl fmt::Display for Conflicts {
    fn fmt(&self, f: &mut fmt::Formatter) -> fmt::Result {
        for (el, a, b) in &self.each {
            writeln!(f, "conflict {el} {a} / {b}")?;
        }
        write!(f, "conflicts {}", self.each.len())
    }
}

/// The lines of an answer in a list of calls.
impl fmt::Display for Answer {
    fn fmt(&self, f: &mut fmt::Formatter) -> fmt::Result {
        match self {
            Answer::Refused(number) => writeln!(f, "refused {number}"),
            Answer::Number(number) => writeln!(f, "number {number}"),
            Answer::Said(yes) => writeln!(f, "answer {}", u8::from(*yes)),
            Answer::Closed(Closed { changed, merges, rounds, added }) => {
                writeln!(f, "close {} {merges} {rounds} {added}", u8::from(*changed))
            }
            Answer::Settled { closes, merges } => writeln!(f, "settle {closes} {merges}"),
            Answer::Conflicts(conflicts) => writeln!(f, "{conflicts} {}", conflicts.finds),
            Answer::Found { root, count } => writeln!(f, "root {root} {count}"),
            Answer::Typed(Some(fact)) => writeln!(f, "type {fact}"),
            Answer::Typed(None) => writeln!(f, "absent"),
            Answer::Ambients(els) => writeln!(f, "ambients{els}"),
            Answer::File([length, low, high]) => writeln!(f, "file {length} {low} {high}"),
        }
    }
}
