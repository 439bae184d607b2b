//! The laws of identities and composites, the last pass of a round.

use std::mem;

use crate::close::{Met, Work, NO_ROOM, TOO_MANY_FACTS};
use crate::faults::Fault;
use crate::state::App;

impl Work<'_> {
    /// The laws of identities and composites: those of the applications that the pass
    /// begins with, in order, on the table as it is then.
    pub fn laws(&mut self) -> Result<bool, Met> {
        let apps = self.state.func_apps.clone();
        let mut worked = false;
        if self.is(Fault::GrowingTable) {
            let mut place = 0;
            while let Some((app, result)) = self.state.func_apps.get(place).cloned() {
                worked |= self.obey(&app, result)?;
                place += 1;
            }
            return Ok(worked);
        }
        for (app, result) in &apps {
            worked |= self.obey(app, *result)?;
        }
        if self.is(Fault::LawsDrainAtEnd) {
            self.drain();
        }
        Ok(worked)
    }

    fn obey(&mut self, app: &App, result: u16) -> Result<bool, Met> {
        let mut models = self.state.models.clone();
        if self.is(Fault::FirstModelOnly) {
            models.truncate(1);
        }
        let mut worked = false;
        for model in models {
            let funcs = [0, 1, 2, 3].map(|place| model.funcs[place]);
            if app.head == funcs[2] {
                worked |= self.obey_identity(funcs, app, result)?;
            }
            if app.head == funcs[3] {
                worked |= self.obey_composite(funcs, app, result)?;
            }
        }
        Ok(worked)
    }

    /// An identity has its argument as dom and as cod.
    fn obey_identity(&mut self, funcs: [u16; 4], app: &App, result: u16) -> Result<bool, Met> {
        let [dom, cod, ..] = funcs;
        let given = match self.state.fault {
            Some(Fault::IdWithoutDom) => vec![cod],
            Some(Fault::IdWithoutCod) => vec![dom],
            Some(Fault::CodBeforeDom) => vec![cod, dom],
            _ => vec![dom, cod],
        };
        // Only wrong versions take other arguments.
        let &[value, ..] = &app.args[..] else {
            return Ok(false);
        };
        let (mut el, mut value) = (result, value);
        if self.is(Fault::IdOfArgument) {
            mem::swap(&mut el, &mut value);
        }
        let mut worked = false;
        for func in given {
            let key = self.law_key(func, &app.parents, el);
            worked |= self.give(&key, value)?;
        }
        Ok(worked)
    }

    /// A composite has the dom of its first map and the cod of its second, and the cod
    /// of the first is the dom of the second.
    fn obey_composite(&mut self, funcs: [u16; 4], app: &App, result: u16) -> Result<bool, Met> {
        use Fault::*;
        let [dom, cod, ..] = funcs;
        let &[f, g, ..] = &app.args[..] else {
            return Ok(false);
        };
        let h = result;
        let dom_law = ((dom, if self.is(DomFromSecond) { g } else { f }), (dom, h));
        let cod_law = ((cod, if self.is(CodFromFirst) { f } else { g }), (cod, h));
        let middle =
            if self.is(MiddleTurned) { ((cod, g), (dom, f)) } else { ((cod, f), (dom, g)) };
        let laws = match self.state.fault {
            Some(NoDomLaw) => vec![cod_law, middle],
            Some(NoCodLaw) => vec![dom_law, middle],
            Some(NoMiddleLaw) => vec![dom_law, cod_law],
            Some(FirstLawOnly) => vec![dom_law],
            Some(MiddleFirst) => vec![middle, dom_law, cod_law],
            _ => vec![dom_law, cod_law, middle],
        };
        let mut worked = false;
        for law in laws {
            let (left, right) = law;
            // Which way the wrong versions go.
            let (forth, back) = match self.state.fault {
                Some(DomForthOnly) => (true, law != dom_law),
                Some(DomBackOnly) => (law != dom_law, true),
                Some(CodForthOnly) => (true, law != cod_law),
                Some(CodBackOnly) => (law != cod_law, true),
                Some(MiddleForthOnly) => (true, law != middle),
                Some(MiddleBackOnly) => (law != middle, true),
                _ => (true, true),
            };
            let left = self.looked_up(left.0, &app.parents, left.1);
            let right = self.looked_up(right.0, &app.parents, right.1);
            let before = self.state.stored_result(&right);
            let found = self.state.stored_result(&left);
            if let Some(value) = found.filter(|_| forth) {
                worked |= self.give(&right, value)?;
            }
            let mut returned = self.state.stored_result(&right);
            if self.is(BothLookedUpFirst) {
                returned = before;
            }
            if self.is(OneWayEach) && found.is_some() {
                returned = None;
            }
            if let Some(value) = returned.filter(|_| back) {
                worked |= self.give(&left, value)?;
            }
        }
        Ok(worked)
    }

    /// A function at one element, under the parents of an application.
    fn law_key(&self, func: u16, parents: &[u16], el: u16) -> App {
        let parents = if self.is(Fault::LawsWithoutParents) { &[] } else { parents };
        App { head: func, parents: parents.to_vec(), args: vec![el] }
    }

    /// What a side of a composite's law is looked up under: the parents as they are
    /// stored, the element's root.
    fn looked_up(&self, func: u16, parents: &[u16], el: u16) -> App {
        let el = if self.is(Fault::LookedUpAsStored) { el } else { self.state.root(el) };
        let key = self.law_key(func, parents, el);
        if self.is(Fault::LookedUpUnderRoots) {
            return self.state.app_as_roots(&key);
        }
        key
    }

    /// Gives the function at this key the value, as an application does that is
    /// declared; says whether that is work.
    fn give(&mut self, app: &App, value: u16) -> Result<bool, Met> {
        use Fault::*;
        let key = if self.is(LawKeyAsStored) { app.clone() } else { self.state.app_as_roots(app) };
        let value = if self.is(LawValueAsStored) { value } else { self.state.root(value) };
        let stored = self.state.stored_result(&key);
        if self.lacks_room(stored, value) {
            return match self.state.fault {
                Some(NoRoomSkipped) => Ok(false),
                Some(NineAfterEleven) => {
                    self.lacked_room = true;
                    Ok(false)
                }
                Some(DrainsForRoom) if stored.is_some() => {
                    self.drain();
                    self.give(app, value)
                }
                Some(ElevenForNine) => Err(TOO_MANY_FACTS),
                _ => Err(NO_ROOM),
            };
        }
        self.state.added += usize::from(stored.is_none() && self.is(LawsAdded));
        let links = self.state.links.clone();
        let worked = match stored {
            Some(stored) if stored != value && self.is(LawValueAsStored) => {
                self.state.equate(stored, value)
            }
            _ => self.state.store_or_equate(key, value),
        };
        if self.is(LawsLeaveLinks) {
            self.state.links = links;
        }
        if stored.is_some() && self.is(LawsDrainAtOnce) {
            self.drain();
        }
        Ok(match self.state.fault {
            Some(AddedIsNoWork) => worked && stored.is_some(),
            Some(QueuedIsNoWork) => worked && stored.is_none(),
            _ => worked,
        })
    }

    /// Whether an entry is needed and its table at its limit.
    fn lacks_room(&self, stored: Option<u16>, value: u16) -> bool {
        use Fault::*;
        let (apps, pairs) = (self.state.func_apps.len(), self.state.pairs.len());
        let most_apps = match self.state.fault {
            Some(CloseAppsLess) => 255,
            Some(CloseAppsMore) => 257,
            Some(CloseAppsFree) => usize::MAX,
            _ => 256,
        };
        let most_pairs = match self.state.fault {
            Some(ClosePairsLess) => 255,
            Some(ClosePairsMore) => 257,
            Some(ClosePairsFree) => usize::MAX,
            Some(LawPairsOnly) => 256 + self.equated,
            _ => 256,
        };
        match stored {
            None => apps >= most_apps,
            Some(_) if apps >= most_apps && self.is(KnownKeyNeedsRoom) => true,
            Some(stored) if stored == value => pairs >= most_pairs && self.is(SameValueNeedsRoom),
            Some(stored) => {
                let is_one = self.state.root(stored) == value && self.is(OneClassNeedsNoRoom);
                pairs >= most_pairs && !is_one
            }
        }
    }
}
