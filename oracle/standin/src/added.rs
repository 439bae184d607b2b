//! The facts that a close adds (M-106): how many imposing put into a set that did not have
//! them.

use crate::faults::Fault;
use crate::state::{Fact, State};

/// A part of a close that adds facts, at its end. A round is given with its number.
pub enum Part {
    Arguments,
    Predicates,
    Results,
    Round(u16),
    Impositions,
}

impl State {
    /// Begins a close; gives the facts before it, which only wrong versions look at.
    pub fn begin_adding(&mut self) -> Vec<Vec<Fact>> {
        if !self.is(Fault::AddedAddUp) && !self.is(Fault::RefusedAdded) {
            self.added = 0;
        }
        self.facts.clone()
    }

    /// Ends a part which `before` facts were added before. All of it counts, but for wrong
    /// versions.
    pub fn end_part(&mut self, part: Part, before: usize) {
        use Fault::*;
        self.added = match (self.fault, part) {
            (Some(ArgumentsUnadded), Part::Arguments) => before,
            (Some(PredicatesUnadded), Part::Predicates) => before,
            (Some(ResultsUnadded), Part::Results) => before,
            (Some(AddedByImpositions), Part::Round(_)) => before,
            (Some(AddedInFirstRound), Part::Round(2..)) => before,
            (Some(AddedInLastRound), Part::Round(_)) => self.added - before,
            (Some(AddedInRounds), Part::Impositions) => before,
            _ => self.added,
        };
    }

    /// Whether a wrong version does not count a fact that is new among these.
    pub fn leaves_out(&self, facts: &[Fact], new: &Fact, merged: bool) -> bool {
        match self.fault {
            Some(Fault::MergingUnadded) => merged,
            Some(Fault::CopyUnadded) => facts.iter().any(|fact| self.fact_as_roots(fact) == *new),
            Some(Fault::KnownTypeUnadded) => facts.iter().any(|fact| fact.typ == new.typ),
            _ => false,
        }
    }

    /// Ends a close; gives what it answers. Only wrong versions look at its merges, at the
    /// number of facts before they were rewritten, and at those before it.
    pub fn end_adding(&mut self, merges: u16, unrewritten: usize, before: &[Vec<Fact>]) -> usize {
        let count = |facts: &[Vec<Fact>]| facts.iter().map(Vec::len).sum::<usize>();
        let added = match self.fault {
            Some(Fault::MergesAdded) => self.added + usize::from(merges),
            Some(Fault::MergingCloseUnadded) if merges > 0 => 0,
            Some(Fault::AddedUpTo1024) => self.added.min(1024),
            Some(Fault::AddedIsGrowth) => count(&self.facts).saturating_sub(count(before)),
            Some(Fault::AddedIsGrowthUnrewritten) => unrewritten.saturating_sub(count(before)),
            Some(Fault::NewAtEndAdded) => {
                let sets = self.facts.iter().zip(before);
                let new = sets.flat_map(|(facts, old)| facts.iter().filter(|f| !old.contains(f)));
                new.count()
            }
            _ => self.added,
        };
        if self.is(Fault::RefusedAdded) {
            self.added = 0;
        }
        added
    }
}
