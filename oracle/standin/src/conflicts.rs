//! The conflict report, and how often it finds a root.

use std::collections::BTreeSet;

use crate::faults::Fault;
use crate::state::{Fact, State};

pub struct Report {
    /// Each conflict: element, first fact, fact that disagrees.
    pub conflicts: Vec<(u16, Fact, Fact)>,
    /// How often the root of a parent of a class's first fact was found.
    pub finds: usize,
}

impl State {
    /// Reports the conflicts. The parents of a class's first fact are found once, and
    /// their roots kept for all its later facts.
    pub fn report(&mut self) -> Report {
        let mut conflicts = Vec::new();
        let mut finds = 0;
        for el in 0..self.links.len() as u16 {
            if self.facts[usize::from(el)].len() < 2 {
                continue;
            }
            let types = self.types_of(el);
            let Some(mut first) = types.first().cloned() else {
                continue;
            };
            for parent in &mut first.parents {
                *parent = self.root(*parent);
                finds += 1;
            }
            for later in &types[1..] {
                if self.disagree(&first, later) {
                    conflicts.push((el, first.clone(), later.clone()));
                    if !self.is(Fault::OneConflictPerFact) {
                        break;
                    }
                }
            }
        }
        if let Some(fault) = self.fault {
            finds = self.miscount(fault, finds, conflicts.len());
        }
        Report { conflicts, finds }
    }

    fn disagree(&self, a: &Fact, b: &Fact) -> bool {
        let by_parents = a.parents.iter().zip(&b.parents).any(|(p, q)| p != q);
        a.typ != b.typ || (by_parents && !self.is(Fault::ConflictTypesOnly))
    }

    /// The finds that a wrong version answers in place of `finds`.
    fn miscount(&mut self, fault: Fault, finds: usize, conflicts: usize) -> usize {
        use Fault::*;
        let els = 0..self.links.len() as u16;
        let classes: Vec<Class> = els.filter_map(|el| self.class(el)).collect();
        let several = || classes.iter().filter(|class| class.stored > 1);
        let parents = |class: &Class| class.first().parents.len();
        let earlier = self.found;
        self.found += finds;
        let had_report = self.has_reported;
        self.has_reported = true;
        match fault {
            FindsAddUp => earlier + finds,
            SecondReportFindsNone if had_report => 0,
            RootsNotFound => 0,
            FindsAreConflicts => conflicts,
            FindsAreClasses => several().count(),
            LoneFactFound => classes.iter().map(parents).sum(),
            FoundUpToConflict => {
                let before = several().position(|class| class.conflict().is_some());
                several().take(before.map_or(usize::MAX, |before| before + 1)).map(parents).sum()
            }
            SharedParentFoundOnce => {
                let all = several().flat_map(|class| &class.first().parents);
                all.collect::<BTreeSet<_>>().len()
            }
            _ => several().map(|class| class.finds(fault)).sum(),
        }
    }

    /// The class of `el`, if a fact stands there.
    fn class(&self, el: u16) -> Option<Class> {
        let stored = self.facts[usize::from(el)].len();
        let facts = self.types_of(el);
        if stored == 0 || facts.is_empty() {
            return None;
        }
        let els = (0..self.links.len() as u16).filter(|&other| self.root(other) == el).count();
        Some(Class { facts, stored, els, oldest: self.oldest[usize::from(el)] })
    }
}

/// A class as the wrong versions look at it.
struct Class {
    /// Its facts as roots, and how many are stored.
    facts: Vec<Fact>,
    stored: usize,
    els: usize,
    /// The number of parents of the fact that was there first.
    oldest: usize,
}

impl Class {
    fn first(&self) -> &Fact {
        &self.facts[0]
    }

    fn later(&self) -> &[Fact] {
        &self.facts[1..]
    }

    /// The place among the later facts of the one that disagrees.
    fn conflict(&self) -> Option<usize> {
        let first = self.first();
        let differ = |fact: &Fact| first.parents.iter().zip(&fact.parents).any(|(p, q)| p != q);
        self.later().iter().position(|fact| fact.typ != first.typ || differ(fact))
    }

    /// The later facts up to the one that disagrees.
    fn compared(&self) -> &[Fact] {
        &self.facts[1..self.conflict().map_or(self.facts.len(), |place| place + 2)]
    }

    /// How many parents of the first fact are held against those of a later one. The
    /// first two that differ end it.
    fn pairs(&self, fact: &Fact) -> usize {
        let pairs = || self.first().parents.iter().zip(&fact.parents);
        if fact.typ != self.first().typ {
            return 0;
        }
        pairs().position(|(p, q)| p != q).map_or(pairs().count(), |place| place + 1)
    }

    fn finds(&self, fault: Fault) -> usize {
        use Fault::*;
        let of = |fact: &Fact| fact.parents.len();
        let all = || self.facts.iter().map(of);
        let parents = of(self.first());
        match fault {
            FoundForEachLater => parents * self.later().len(),
            FoundWhenCompared => {
                self.compared().iter().map(|fact| self.pairs(fact)).max().unwrap_or(0)
            }
            FoundUpToShorter => {
                let longest = self.later().iter().map(of).max().unwrap_or(0);
                parents.min(longest)
            }
            LaterFactsFound => all().sum(),
            ComparedFactsFound => {
                parents + self.compared().iter().map(|fact| self.pairs(fact)).sum::<usize>()
            }
            FoundInConflictsOnly if self.conflict().is_none() => 0,
            FoundWithoutConflictOnly if self.conflict().is_some() => 0,
            LastFactFound => of(&self.facts[self.facts.len() - 1]),
            OldestFactFound => self.oldest,
            ShortestFactFound => all().min().unwrap_or(0),
            LongestFactFound => all().max().unwrap_or(0),
            FirstParentFound => parents.min(1),
            RepeatedParentFoundOnce => self.first().parents.iter().collect::<BTreeSet<_>>().len(),
            FoundForEachElement => parents * self.els,
            _ => parents,
        }
    }
}
