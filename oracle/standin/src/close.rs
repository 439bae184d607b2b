//! Close and its passes.

use std::mem;

use crate::added::Part;
use crate::faults::Fault;
use crate::state::{App, Fact, State};

pub struct Closed {
    pub changed: bool,
    pub merges: u16,
    pub rounds: u16,
    /// The facts that imposing put into a set that did not have them.
    pub added: usize,
}

/// The number that a close met.
pub struct Met(pub u16);

/// An entry needed, its table at its limit.
pub const NO_ROOM: Met = Met(9);

/// The 1,025th fact.
pub const TOO_MANY_FACTS: Met = Met(11);

/// A close at work.
pub struct Work<'a> {
    pub state: &'a mut State,
    merges: u16,
    /// Whether number 9 was met, and the pairs that functionality queued last; only
    /// wrong versions look at these.
    pub lacked_room: bool,
    pub equated: usize,
}

/// Closes; one that meets a number is handed back as far as it got.
pub fn close(state: &mut State) -> Result<Closed, Met> {
    let before = state.begin_adding();
    let mut work = Work { state, merges: 0, lacked_room: false, equated: 0 };
    let mut changed = false;
    let mut rounds = 0;
    loop {
        rounds += 1;
        let added = work.state.added;
        let drained = work.drain();
        let mut obeyed = work.is(Fault::LawsBeforeFunctionality) && work.laws()?;
        let equated = work.functionality();
        obeyed |= work.is(Fault::LawsBeforeTyping) && work.laws()?;
        let typed = work.typing()?;
        let others = drained || equated || typed;
        obeyed |= work.has_laws_now(rounds, others) && work.laws()?;
        let imposed = work.is(Fault::ImposesInRounds) && work.impositions()?;
        if !others && !obeyed && !imposed {
            break;
        }
        work.state.end_part(Part::Round(rounds), added);
        changed |= others || !work.is(Fault::LawsUnreported);
        if work.ends_early(rounds) {
            break;
        }
    }
    if work.is(Fault::LawsAfterRounds) {
        changed |= work.laws()?;
    }
    let added = work.state.added;
    let imposed = !work.is(Fault::ImposesInRounds) && work.impositions()?;
    work.state.end_part(Part::Impositions, added);
    changed |= imposed && !work.is(Fault::ImpositionsUnreported);
    let unrewritten = work.facts();
    work.canonicalise();
    let merges = work.merges;
    if work.is(Fault::FactsCountedAtEnd) && work.facts() > 1024 {
        return Err(TOO_MANY_FACTS);
    }
    if work.lacked_room {
        return Err(NO_ROOM);
    }
    let added = state.end_adding(merges, unrewritten, &before);
    if state.is(Fault::IdleRoundUncounted) {
        rounds -= 1;
    }
    if state.is(Fault::OnlyMergesReported) {
        changed = merges > 0;
    }
    if state.is(Fault::OnlyFactsReported) {
        changed = added > 0;
    }
    state.was_taken &= !changed;
    state.has_reported = false;
    let stays_taken = state.was_taken && state.is(Fault::QuietCloseLeavesTaken);
    state.settled = (!changed && !stays_taken) || state.is(Fault::CloseSettles);
    Ok(Closed { changed, merges, rounds, added })
}

/// The closes that a settle ran, and their merges.
pub struct Settled {
    pub closes: u16,
    pub merges: u16,
    /// What each of them answered.
    pub each: Vec<Closed>,
}

/// Closes until one reports no change, at most once more than there are elements.
/// A refused one leaves the state as it was.
pub fn settle(state: &mut State) -> Result<Settled, Met> {
    let before = state.clone();
    let els = state.links.len();
    let most = match state.fault {
        Some(Fault::SettleDoesNothing) => 0,
        Some(Fault::SettleTrustsFlag) if state.settled => 0,
        Some(Fault::SettleClosesOnce) => 1,
        Some(Fault::SettleClosesThrice) => 3,
        Some(Fault::SettleClosesLess) => els.max(1),
        _ => els + 1,
    };
    // What each accepted close left, for the faults that keep it.
    let mut left: Vec<State> = Vec::new();
    let mut each: Vec<Closed> = Vec::new();
    for _ in 0..most {
        let closed = match close(state) {
            Ok(closed) => closed,
            Err(met) => {
                let ends = match met {
                    Met(9) => state.is(Fault::SettleEndsAtNine),
                    Met(_) => state.is(Fault::SettleEndsAtEleven),
                };
                if ends && !each.is_empty() {
                    *state = left.pop().unwrap_or(before);
                    return Ok(summed(state, each));
                }
                leave_refused(state, &met, before, left);
                return Err(met);
            }
        };
        let merged = closed.merges > 0;
        let changed = closed.changed;
        each.push(closed);
        left.push(state.clone());
        if !changed || (!merged && state.is(Fault::SettleStopsUnmerged)) {
            break;
        }
    }
    if state.is(Fault::SettleClosesPastQuiet) {
        each.push(close(state)?);
    }
    if state.is(Fault::SettleLeavesFlag) {
        state.settled = before.settled;
    }
    if before.was_taken && state.is(Fault::SettleLeavesTaken) {
        state.settled = false;
    }
    if state.is(Fault::SettleLeavesNothing) {
        *state = before;
    }
    Ok(summed(state, each))
}

/// What a settle answers that ran these closes.
fn summed(state: &State, each: Vec<Closed>) -> Settled {
    // Only two wrong versions run none; they answer as if there had been one.
    let closes = match state.fault {
        Some(Fault::QuietCloseUncounted) => each.len() as u16 - 1,
        Some(Fault::SettleCountsRounds) => each.iter().map(|closed| closed.rounds).sum(),
        _ => each.len().max(1) as u16,
    };
    let merges = match state.fault {
        Some(Fault::LastMergesOnly) => each.last().map_or(0, |closed| closed.merges),
        Some(Fault::FirstMergesOnly) => each.first().map_or(0, |closed| closed.merges),
        _ => each.iter().map(|closed| closed.merges).sum(),
    };
    Settled { closes, merges, each }
}

/// The state after a settle that is refused in the close after those in `left`.
fn leave_refused(state: &mut State, met: &Met, before: State, mut left: Vec<State>) {
    match state.fault {
        Some(Fault::NineKeepsSettle) if met.0 == 9 => *state = left.pop().unwrap_or(before),
        Some(Fault::RefusedSettleWorks) => {}
        Some(Fault::RefusedSettleKeepsFirst) => {
            *state = left.into_iter().next().unwrap_or(before);
        }
        Some(Fault::RefusedSettleKeepsAccepted) => *state = left.pop().unwrap_or(before),
        Some(Fault::RefusedSettleKeepsLinks) => {
            let links = left.pop().map_or(before.links.clone(), |last| last.links);
            *state = State { links, ..before };
        }
        _ => *state = before,
    }
}

impl Work<'_> {
    pub fn is(&self, fault: Fault) -> bool {
        self.state.is(fault)
    }

    /// Whether the laws come at the end of this round; always but for wrong versions.
    fn has_laws_now(&self, rounds: u16, others: bool) -> bool {
        use Fault::*;
        match self.state.fault {
            Some(NoLaws | LawsBeforeFunctionality | LawsBeforeTyping | LawsAfterRounds) => false,
            Some(LawsInFirstRound) => rounds == 1,
            Some(LawsInLastRound) => !others,
            _ => true,
        }
    }

    /// Whether a wrong version stops after this round, which worked.
    fn ends_early(&self, rounds: u16) -> bool {
        match self.state.fault {
            Some(Fault::OneRound) => true,
            Some(Fault::FewRounds) => usize::from(rounds) == self.state.links.len() + 2,
            Some(Fault::RoundsByMerges) => rounds == self.merges + 2,
            _ => false,
        }
    }

    fn next_pair(&mut self) -> Option<(u16, u16)> {
        let pairs = &mut self.state.pairs;
        if self.state.fault == Some(Fault::FirstPairFirst) && !pairs.is_empty() {
            return Some(pairs.remove(0));
        }
        pairs.pop()
    }

    /// Drains the queue; says whether a merge happened.
    pub fn drain(&mut self) -> bool {
        let mut merged = false;
        while let Some((a, b)) = self.next_pair() {
            merged |= self.merge(a, b);
        }
        if self.is(Fault::DrainRewritesFacts) {
            self.rewrite_facts();
        }
        merged
    }

    fn merge(&mut self, a: u16, b: u16) -> bool {
        let (a, b) = (self.state.root(a), self.state.root(b));
        if a == b {
            self.merges += u16::from(self.is(Fault::EveryPairIsAMerge));
            return false;
        }
        let (mut keep, mut gone) = (a.min(b), a.max(b));
        if self.is(Fault::LargerRootStays) {
            mem::swap(&mut keep, &mut gone);
        }
        self.merges += 1;
        self.merge_marks(keep.into(), gone.into());
        self.state.links[usize::from(gone)] = keep;
        if self.state.facts[usize::from(keep)].is_empty() {
            self.state.oldest[usize::from(keep)] = self.state.oldest[usize::from(gone)];
        }
        let moved = mem::take(&mut self.state.facts[usize::from(gone)]);
        let mut facts = mem::take(&mut self.state.facts[usize::from(keep)]);
        for fact in moved {
            let grew = self.state.insert_fact(&mut facts, fact);
            self.state.added += usize::from(grew && self.is(Fault::MovedAdded));
        }
        self.state.facts[usize::from(keep)] = facts;
        true
    }

    fn merge_marks(&mut self, keep: usize, gone: usize) {
        let (kept, dropped) = (self.state.marks[keep], self.state.marks[gone]);
        self.state.marks[keep] = match self.state.fault {
            Some(Fault::MarkOfEither) => kept || dropped,
            Some(Fault::MarkOfKept) => kept,
            _ => kept && dropped,
        };
        self.state.marks[gone] = dropped && self.is(Fault::MarkOfDroppedStays);
    }

    /// Rewrites applications; the first result of a key stays, another is queued.
    fn functionality(&mut self) -> bool {
        let old = mem::take(&mut self.state.func_apps);
        let mut new: Vec<(App, u16)> = Vec::new();
        let mut worked = false;
        for (app, result) in old {
            let key = self.state.app_as_roots(&app);
            worked |= self.is(Fault::KeysAreWork) && key != app;
            let result =
                if self.is(Fault::ResultsStayStale) { result } else { self.state.root(result) };
            match new.binary_search_by(|(other, _)| other.cmp(&key)) {
                Err(place) => new.insert(place, (key, result)),
                Ok(place) if new[place].1 != result => {
                    self.state.pairs.push((new[place].1, result));
                    worked = true;
                    if self.is(Fault::LastResultStays) {
                        new[place].1 = result;
                    }
                    if self.is(Fault::SmallerResultStays) {
                        new[place].1 = new[place].1.min(result);
                    }
                }
                Ok(_) => {}
            }
        }
        self.state.func_apps = new;
        self.equated = self.state.pairs.len();
        worked
    }

    /// Function arguments, predicate arguments, function results.
    fn typing(&mut self) -> Result<bool, Met> {
        let apps = self.state.func_apps.clone();
        let mut worked = false;
        if self.is(Fault::ResultsFirst) {
            worked |= self.type_results(&apps)?;
        }
        if self.is(Fault::PredicatesFirst) {
            worked |= self.type_predicates()?;
        }
        let added = self.state.added;
        for (app, _) in &apps {
            let domain = self.state.funcs[usize::from(app.head)].domain.clone();
            worked |= self.type_arguments(app, &domain)?;
        }
        self.state.end_part(Part::Arguments, added);
        if self.is(Fault::ResultsBeforePredicates) {
            worked |= self.type_results(&apps)?;
        }
        if !self.is(Fault::PredicatesFirst) {
            worked |= self.type_predicates()?;
        }
        if !self.is(Fault::ResultsFirst) && !self.is(Fault::ResultsBeforePredicates) {
            worked |= self.type_results(&apps)?;
        }
        if self.is(Fault::FactsCountedPerPass) && self.facts() > 1024 {
            return Err(TOO_MANY_FACTS);
        }
        Ok(worked)
    }

    fn type_arguments(&mut self, app: &App, types: &[u16]) -> Result<bool, Met> {
        let mut worked = false;
        for (index, &arg) in app.args.iter().enumerate() {
            let past = types.last().filter(|_| self.is(Fault::PastDomain));
            let Some(&typ) = types.get(index).or(past) else {
                break;
            };
            let Some(fact) = self.state.concrete_type_at(typ, &app.parents) else {
                if self.is(Fault::ArityByDomain) {
                    break;
                }
                continue;
            };
            worked |= self.impose(arg, &fact)?;
        }
        Ok(worked)
    }

    fn type_predicates(&mut self) -> Result<bool, Met> {
        let added = self.state.added;
        let mut worked = false;
        for app in self.state.pred_apps.clone() {
            let arity = self.state.preds[usize::from(app.head)].domain.clone();
            worked |= self.type_arguments(&app, &arity)?;
        }
        self.state.end_part(Part::Predicates, added);
        Ok(worked)
    }

    fn type_results(&mut self, apps: &[(App, u16)]) -> Result<bool, Met> {
        let added = self.state.added;
        let mut worked = false;
        for (app, result) in apps {
            let codomain = self.state.funcs[usize::from(app.head)].codomain;
            if let Some(fact) = self.state.concrete_type_at(codomain, &app.parents) {
                worked |= self.impose(*result, &fact)?;
            }
        }
        self.state.end_part(Part::Results, added);
        Ok(worked)
    }

    fn impositions(&mut self) -> Result<bool, Met> {
        let mut queued = self.state.impositions.clone();
        if self.is(Fault::ImpositionsReversed) {
            queued.reverse();
        }
        let mut worked = false;
        for (el, fact) in &queued {
            worked |= self.impose(*el, fact)?;
        }
        if self.is(Fault::FactsCountedPerPass) && self.facts() > 1024 {
            return Err(TOO_MANY_FACTS);
        }
        Ok(worked)
    }

    fn impose(&mut self, el: u16, fact: &Fact) -> Result<bool, Met> {
        // Whether it is new before the merges; only wrong versions look at it.
        let held = &self.state.facts[usize::from(self.state.root(el))];
        let was_new = !held.contains(&self.state.fact_as_roots(fact));
        if was_new && self.is(Fault::FullBeforeMerges) && self.facts() == 1024 {
            return Err(TOO_MANY_FACTS);
        }
        let merged = self.join_parents(el, fact);
        let at = if self.is(Fault::FactAtElement) { el } else { self.state.root(el) };
        let at = usize::from(at);
        let new = if self.is(Fault::FactParentsAsGiven) {
            fact.clone()
        } else {
            self.state.fact_as_roots(fact)
        };
        let mut facts = mem::take(&mut self.state.facts[at]);
        if facts.is_empty() {
            self.state.oldest[at] = new.parents.len();
        }
        let left_out = self.state.leaves_out(&facts, &new, merged);
        let grew = self.state.insert_fact(&mut facts, new);
        self.state.facts[at] = facts;
        if grew && self.is_full() {
            return Err(TOO_MANY_FACTS);
        }
        self.state.added += usize::from(match self.state.fault {
            Some(Fault::KnownAdded) => true,
            Some(Fault::YesAdded) => grew || merged,
            Some(Fault::JudgedBeforeMerges) => was_new,
            _ => grew && !left_out,
        });
        let grew = grew && !self.is(Fault::GrownSaysNo);
        Ok(grew || (merged && !self.is(Fault::MergeSaysNo)))
    }

    /// Joins the parents of a fact to be imposed with those of its element's
    /// facts where one is marked.
    fn join_parents(&mut self, el: u16, fact: &Fact) -> bool {
        let mut merged = false;
        let mut seen = 0;
        let mut types = self.state.types_of(el);
        while seen < types.len() {
            let other = types[seen].clone();
            seen += 1;
            if other.typ != fact.typ && !self.is(Fault::JoinsAnyType) {
                continue;
            }
            let paired = if self.is(Fault::JoinsFirstParent) { 1 } else { 4 };
            for (&p, &q) in other.parents.iter().zip(&fact.parents).take(paired) {
                let joined = self.join(self.state.root(p), self.state.root(q));
                merged |= joined;
                if joined && self.is(Fault::SecondLook) {
                    types = self.state.types_of(el);
                }
            }
        }
        merged
    }

    fn join(&mut self, p: u16, q: u16) -> bool {
        let (p_marked, q_marked) =
            (self.state.marks[usize::from(p)], self.state.marks[usize::from(q)]);
        let joins = match self.state.fault {
            Some(Fault::JoinsBothMarked) => p_marked && q_marked,
            Some(Fault::JoinsUnmarked) => true,
            Some(Fault::JoinsStoredMarked) => p_marked,
            _ => p_marked || q_marked,
        };
        if p == q || !joins {
            return false;
        }
        if self.is(Fault::JoinsOwnPair) {
            return self.merge(p, q);
        }
        self.state.pairs.push((p, q));
        !self.is(Fault::JoinsLater) && self.drain()
    }

    fn is_full(&self) -> bool {
        match self.state.fault {
            Some(Fault::FullAt1023) => self.facts() > 1023,
            Some(Fault::FullAt1025) => self.facts() > 1025,
            Some(Fault::FactsCountedPerPass | Fault::FactsCountedAtEnd) => false,
            Some(Fault::StaleCopiesUncounted) => {
                let els = 0..self.state.links.len() as u16;
                els.filter(|&el| self.state.link(el) == el)
                    .map(|el| self.state.types_of(el).len())
                    .sum::<usize>()
                    > 1024
            }
            _ => self.facts() > 1024,
        }
    }

    fn facts(&self) -> usize {
        self.state.facts.iter().map(Vec::len).sum()
    }

    fn rewrite_facts(&mut self) {
        for el in 0..self.state.facts.len() {
            let mut facts = Vec::new();
            for old in mem::take(&mut self.state.facts[el]) {
                let fact = self.state.fact_as_roots(&old);
                let moves = fact != old;
                self.state.insert_fact(&mut facts, fact);
                self.state.added += usize::from(moves && self.is(Fault::RewrittenAdded));
            }
            self.state.facts[el] = facts;
        }
    }

    fn canonicalise(&mut self) {
        if !self.is(Fault::PredicatesStayStale) {
            let old = mem::take(&mut self.state.pred_apps);
            let mut apps: Vec<App> = old.iter().map(|app| self.state.app_as_roots(app)).collect();
            apps.sort();
            apps.dedup();
            self.state.pred_apps = apps;
        }
        if !self.is(Fault::VariablesStayStale) {
            self.state.vars = self.state.vars.map(|var| var.map(|el| self.state.root(el)));
        }
        if self.is(Fault::CloseRewritesAmbients) {
            let ambients = self.state.ambients;
            self.state.ambients = ambients.map(|var| var.map(|el| self.state.root(el)));
        }
        if !self.is(Fault::FactsStayStale) {
            self.rewrite_facts();
        }
        if !self.is(Fault::ImpositionsStayStale) {
            let old = mem::take(&mut self.state.impositions);
            let rewritten = old.iter().map(|(el, fact)| {
                let el = self.state.root(*el);
                (el, self.state.fact_as_roots(fact))
            });
            let mut impositions = Vec::new();
            for entry in rewritten {
                if !self.is(Fault::EqualImpositionsDropped) || !impositions.contains(&entry) {
                    impositions.push(entry);
                }
            }
            self.state.impositions = impositions;
        }
        if self.is(Fault::SpentImpositionsDropped) {
            self.state.impositions.clear();
        }
        if self.is(Fault::CloseRewritesApplications) {
            let pairs = self.state.pairs.clone();
            self.functionality();
            self.state.pairs = pairs;
        }
    }
}
