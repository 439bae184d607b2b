//! The public calls with their refusals.

use std::collections::BTreeSet;
use std::mem;

use crate::close::{close, settle, Closed, Met, Settled};
use crate::conflicts::Report;
use crate::faults::Fault;
use crate::state::{App, Fact, Find, Model, MorApp, Relation, State, Type, Words};

pub enum Answer {
    Refused(u16),
    Number(usize),
    Said(bool),
    Closed(Closed),
    Settled(Settled),
    Conflicts(Report),
    Found(Find),
    Typed(Option<Fact>),
    Ambients(Vec<u16>),
    /// The length of a file, and both halves of its checksum.
    File([usize; 3]),
}

/// Kind by kind: the largest A and B, the most parents, the least and the most
/// arguments. B of kind 1 is used only for a Mor.
const SHAPES: [[u16; 5]; 15] = [
    [3, ANY, 4, 0, 0],
    [0, 0, 4, 0, 4],
    [0, ANY, 4, 0, 4],
    [ANY, ANY, 0, 4, 4],
    [ANY, 0, 0, 2, 2],
    [1, 0, 0, 0, 0],
    [ANY, ANY, 0, 0, 0],
    [ANY, ANY, 4, 0, 0],
    [ANY, ANY, 4, 0, 4],
    [ANY, 0, 4, 0, 4],
    [63, ANY, 0, 0, 0],
    [ANY, ANY, 0, 0, 0],
    [0, 0, 0, 0, 0],
    [0, 0, 0, 0, 0],
    [0, 0, 0, 0, 0],
];
const ANY: u16 = u16::MAX;

fn parents(w: &Words) -> Vec<u16> {
    w[6..10].iter().copied().take(w[4].into()).collect()
}

fn args(w: &Words) -> Vec<u16> {
    w[10..14].iter().copied().take(w[5].into()).collect()
}

fn app(w: &Words) -> App {
    App { head: w[2], parents: parents(w), args: args(w) }
}

impl State {
    /// Kinds 1 to 15, and 101 to 104 for the finds and lookups.
    pub fn call(&mut self, w: &Words) -> Answer {
        let apps = self.func_apps.len();
        let answer = self.answer(w);
        let stored = self.func_apps.len() > apps;
        self.update_settled(w, &answer, stored);
        answer
    }

    /// A yes of kinds 7 to 10 takes settled away. A close has set it, and every other
    /// call leaves it.
    fn update_settled(&mut self, w: &Words, answer: &Answer, stored: bool) {
        use Answer::{Ambients, Closed, Conflicts, Found, Number, Refused, Said, Typed};
        use Fault::*;
        let is_yes = matches!((w[1], answer), (7..=10, Said(true)));
        let Some(fault) = self.fault else {
            self.settled &= !is_yes;
            return;
        };
        let stays = match (fault, w[1]) {
            (YesLeavesSettled, _) => true,
            (EqualityLeavesSettled, 7) => true,
            (ImpositionLeavesSettled, 8) => true,
            (NewApplicationLeavesSettled, 9) => stored,
            (QueuedResultLeavesSettled, 9) => !stored,
            (PredicateLeavesSettled, 10) => true,
            (IdleStaysSettled, _) => close(&mut self.clone()).is_ok_and(|closed| !closed.changed),
            _ => false,
        };
        let goes = match (fault, w[1], answer) {
            (CallsUnsettle, 6..=12, answer) => !matches!(answer, Refused(_)),
            (EqualityNoUnsettles, 7, Said(false)) => true,
            (ImpositionNoUnsettles, 8, Said(false)) => true,
            (ApplicationNoUnsettles, 9, Said(false)) => true,
            (PredicateNoUnsettles, 10, Said(false)) => true,
            (ElementUnsettles, 6, Number(_)) => true,
            (MarkedElementUnsettles, 6, Number(_)) => w[2] == 1,
            (VariableUnsettles, 11, Said(_)) => true,
            (AmbientUnsettles, 12, Said(_)) => true,
            (OnlySettleSettles, 13, Closed(_)) => true,
            (ConflictsUnsettle, 14, Conflicts(_)) => true,
            (RootUnsettles, 101, Found(_)) => true,
            (RootConstUnsettles, 102, Found(_)) => true,
            (TypeLookupUnsettles, 103, Typed(_)) => true,
            (AmbientLookupUnsettles, 104, Ambients(_)) => true,
            (RefusedDeclarationUnsettles, 1..=5, Refused(_)) => true,
            (RefusedEqualityUnsettles, 7, Refused(_)) => true,
            (RefusedImpositionUnsettles, 8, Refused(_)) => true,
            (RefusedApplicationUnsettles, 9, Refused(_)) => true,
            (RefusedPredicateUnsettles, 10, Refused(_)) => true,
            (RefusedCloseUnsettles, 13, Refused(_)) => true,
            (RefusedConflictsUnsettle, 14, Refused(_)) => true,
            (RefusedSettleUnsettles, 15, Refused(_)) => true,
            (RefusedLookupUnsettles, 101..=104, Refused(_)) => true,
            (NineUnsettles, _, Refused(9)) => true,
            (FifteenUnsettles, _, Refused(15)) => true,
            _ => false,
        };
        let comes = match (fault, answer) {
            (YesSettles, _) => is_yes,
            (NoSettles, Said(false)) => true,
            (ElevenSettles, Refused(11)) => true,
            (NineSettles, Refused(9)) => [13, 15].contains(&w[1]),
            (FifteenSettles, Refused(15)) => true,
            _ => false,
        };
        let is_taken = is_yes && !stays;
        self.was_taken |= self.settled && is_taken;
        self.settled = (self.settled && !is_taken && !goes) || comes;
    }

    fn answer(&mut self, w: &Words) -> Answer {
        if (101..=104).contains(&w[1]) {
            self.begun |= self.is(Fault::FindsBegin);
            return self.look_up(w);
        }
        if let Some(number) = self.refusal(w) {
            self.begun |= self.is(Fault::RefusalsBegin) && (6..=15).contains(&w[1]);
            if number == 15 {
                return self.refuse_parents(w);
            }
            return Answer::Refused(number);
        }
        let before = (w[1] == 13).then(|| self.clone());
        match self.carry_out(w) {
            Ok(answer) => {
                let unseen = match w[1] {
                    13 => self.is(Fault::CloseDoesNotBegin),
                    14 => self.is(Fault::ConflictsDoNotBegin),
                    15 => self.is(Fault::SettleDoesNotBegin),
                    _ => false,
                };
                self.begun |= w[1] >= 6 && !unseen;
                answer
            }
            Err(Met(number)) => {
                if let Some(before) = before {
                    self.leave_refused(number, before);
                }
                Answer::Refused(number)
            }
        }
    }

    /// Refuses an imposition with 15. It leaves everything, but for wrong versions.
    fn refuse_parents(&mut self, w: &Words) -> Answer {
        match self.fault {
            Some(Fault::FifteenQueues) => _ = self.queue_imposition(w),
            Some(Fault::FifteenShortens) => _ = self.find_and_shorten(w[2]),
            Some(Fault::FifteenUnstarts) => self.begun = false,
            Some(Fault::NoForFifteen) => return Answer::Said(false),
            _ => {}
        }
        Answer::Refused(match self.fault {
            Some(Fault::ThreeForFifteen) => 3,
            Some(Fault::SixForFifteen) => 6,
            Some(Fault::TwelveForFifteen) => 12,
            _ => 15,
        })
    }

    /// The state after a close that is refused with this number.
    fn leave_refused(&mut self, number: u16, before: State) {
        match self.fault {
            Some(Fault::RefusedCloseWorks) => {}
            Some(Fault::NineKeepsWork) if number == 9 => {}
            Some(Fault::NineKeepsLinks) if number == 9 => {
                let links = mem::take(&mut self.links);
                *self = State { links, ..before };
            }
            Some(Fault::RefusedAdded) => *self = State { added: self.added, ..before },
            _ => *self = before,
        }
    }

    /// The number that refuses a record of kinds 1 to 15 at once.
    pub fn refusal(&self, w: &Words) -> Option<u16> {
        let order = match self.fault {
            Some(Fault::FourBeforeThree) => [4, 3, 5, 6, 15, 7, 12, 8, 9],
            Some(Fault::FiveBeforeThree) => [5, 3, 4, 6, 15, 7, 12, 8, 9],
            Some(Fault::FiveBeforeFour) => [3, 5, 4, 6, 15, 7, 12, 8, 9],
            Some(Fault::SixBeforeFour) => [3, 6, 4, 5, 15, 7, 12, 8, 9],
            Some(Fault::SixBeforeFive) => [3, 4, 6, 5, 15, 7, 12, 8, 9],
            Some(Fault::SevenBeforeFive) => [3, 4, 7, 5, 6, 15, 12, 8, 9],
            Some(Fault::EightBeforeFive) => [3, 4, 8, 5, 6, 15, 7, 12, 9],
            Some(Fault::EightBeforeSix) => [3, 4, 5, 8, 6, 15, 7, 12, 9],
            Some(Fault::NineBeforeFive) => [3, 4, 9, 5, 6, 15, 7, 12, 8],
            Some(Fault::NineBeforeSix) => [3, 4, 5, 9, 6, 15, 7, 12, 8],
            Some(Fault::NineBeforeSeven) => [3, 4, 5, 6, 15, 9, 7, 12, 8],
            Some(Fault::NineBeforeEight) => [3, 4, 5, 6, 15, 7, 12, 9, 8],
            Some(Fault::TwelveBeforeThree) => [12, 3, 4, 5, 6, 15, 7, 8, 9],
            Some(Fault::TwelveBeforeFive) => [3, 4, 12, 5, 6, 15, 7, 8, 9],
            Some(Fault::TwelveBeforeSeven) => [3, 4, 5, 6, 15, 12, 7, 8, 9],
            Some(Fault::TwelveAfterNine) => [3, 4, 5, 6, 15, 7, 8, 9, 12],
            Some(Fault::FifteenBeforeThree) => [15, 3, 4, 5, 6, 7, 12, 8, 9],
            Some(Fault::FifteenBeforeFive) => [3, 4, 15, 5, 6, 7, 12, 8, 9],
            Some(Fault::FifteenAfterNine) => [3, 4, 5, 6, 7, 12, 8, 9, 15],
            _ => [3, 4, 5, 6, 15, 7, 12, 8, 9],
        };
        order.into_iter().find(|&number| self.applies(number, w))
    }

    /// Whether a refusal applies to a record of kinds 1 to 15, whatever else does.
    fn applies(&self, number: u16, w: &Words) -> bool {
        use Fault::FifteenForNoType;
        match number {
            3 => !self.is_formed(w),
            4 => (1..=5).contains(&w[1]) && self.begun,
            5 => self.is_any_undeclared(w) && !(self.is_of_no_type(w) && self.is(FifteenForNoType)),
            6 => self.is_wrong_type(w),
            15 => self.has_other_parents(w),
            7 => w[1] == 9 && self.is_barred(w[2]),
            12 => w[1] == 9 && self.is_misapplied(w),
            8 => self.is_given_again(w),
            _ => self.has_no_room(w),
        }
    }

    fn is_formed(&self, w: &Words) -> bool {
        let shape = SHAPES.get(usize::from(w[1]).wrapping_sub(1));
        let Some(&[mut a, mut b, parents, least, most]) = shape else {
            return false;
        };
        if w[1] == 15 {
            match self.fault {
                Some(Fault::NoSettle) => return false,
                Some(Fault::SettleWordsFree) => return true,
                Some(Fault::SettleTakesA) => a = ANY,
                _ => {}
            }
        }
        if w[1] == 1 && w[2] != 3 && !self.is(Fault::BOfPlainFree) {
            b = 0;
        }
        let extra = u16::from(
            (w[1] == 11 && self.is(Fault::Key64)) || (w[1] == 6 && self.is(Fault::MarkTwo)),
        );
        if self.is(Fault::CountsMustMatch) && !self.has_declared_counts(w) {
            return false;
        }
        let mut slots = w[6..10].iter().skip(w[4].into());
        let mut arg_slots = w[10..14].iter().skip(w[5].into());
        w[2] <= a.saturating_add(extra)
            && w[3] <= b
            && w[4] <= parents
            && (least..=most).contains(&w[5])
            && (self.is(Fault::SlotsFree)
                || (slots.all(|&word| word == 0) && arg_slots.all(|&word| word == 0)))
            && (self.is(Fault::TailFree) || w[14..] == [0, 0])
    }

    fn has_declared_counts(&self, w: &Words) -> bool {
        let relation = match w[1] {
            9 => self.funcs.get(usize::from(w[2])),
            10 => self.preds.get(usize::from(w[2])),
            _ => None,
        };
        relation.is_none_or(|r| {
            r.parents.len() == usize::from(w[4]) && r.domain.len() == usize::from(w[5])
        })
    }

    /// For each of A, B, parents and arguments the size of the table that it
    /// names an entry of, or none.
    fn bounds(&self, w: &Words) -> [Option<usize>; 4] {
        let types = Some(self.types.len());
        let preds = Some(self.preds.len());
        let funcs = Some(self.funcs.len());
        let els = Some(self.links.len());
        match w[1] {
            1 if w[2] == 3 => [None, types, types, None],
            1 => [None, None, types, None],
            2 => [None, None, types, types],
            3 => [None, types, types, types],
            4 => [types, types, None, funcs],
            5 => [funcs, None, None, types],
            7 => [els, els, None, None],
            8 => [els, types, els, None],
            9 => [funcs, els, els, els],
            10 => [preds, None, els, els],
            11 => [None, els, None, None],
            12 => [types, els, None, None],
            _ => [None; 4],
        }
    }

    fn is_any_undeclared(&self, w: &Words) -> bool {
        let [a, b, of_parents, of_args] = self.bounds(w);
        let past = |n: u16, size: Option<usize>| size.is_some_and(|size| usize::from(n) >= size);
        past(w[2], a)
            || past(w[3], b)
            || parents(w).iter().any(|&n| past(n, of_parents))
            || args(w).iter().any(|&n| past(n, of_args))
    }

    fn kind_of(&self, typ: u16) -> Option<u16> {
        self.types.get(usize::from(typ)).map(|t| t.kind)
    }

    fn is_wrong_type(&self, w: &Words) -> bool {
        let not = |typ: u16, kind: u16| self.kind_of(typ).is_some_and(|k| k != kind);
        if self.is(Fault::ParentsMustBeModels) && w[1] <= 3 {
            return parents(w).iter().any(|&typ| not(typ, 1));
        }
        match w[1] {
            1 => w[2] == 3 && not(w[3], 1),
            4 => {
                let of_other = self.types.get(usize::from(w[3])).is_some_and(|mor| {
                    mor.kind == 3 && mor.model != w[2] && !self.is(Fault::MorOfAnyModel)
                });
                not(w[2], 1) || not(w[3], 3) || of_other
            }
            5 => args(w).first().is_some_and(|&typ| not(typ, 3)),
            12 => not(w[2], 1) && !self.is(Fault::AmbientOfAnyType),
            _ => false,
        }
    }

    /// Whether it is an imposition of an undeclared type.
    fn is_of_no_type(&self, w: &Words) -> bool {
        w[1] == 8 && usize::from(w[3]) >= self.types.len()
    }

    /// Whether an imposition gives another number of parents than its type has.
    fn has_other_parents(&self, w: &Words) -> bool {
        use Fault::*;
        let given = usize::from(w[4]);
        let relation = match (w[1], self.fault) {
            (9, Some(FuncParentsCounted)) => self.funcs.get(usize::from(w[2])),
            (10, Some(PredParentsCounted)) => self.preds.get(usize::from(w[2])),
            _ => None,
        };
        if let Some(relation) = relation {
            return relation.parents.len() != given;
        }
        if w[1] != 8 {
            return false;
        }
        let Some(typ) = self.types.get(usize::from(w[3])) else {
            return self.is(FifteenForNoType);
        };
        let declared = typ.parents.len();
        match self.fault {
            Some(NoFifteen) => false,
            Some(FewerParents | FewerParentsFilled) => given > declared,
            Some(MoreParents | MoreParentsCut) => given < declared,
            Some(EmptyListFree) => given > 0 && given != declared,
            Some(ParentlessFree) => declared > 0 && given != declared,
            Some(PlainCounted) => typ.kind == 0 && given != declared,
            Some(ParentTypesJudged) => {
                let has = |(el, of): (&u16, &u16)| {
                    let facts = self.facts.get(usize::from(self.root(*el)));
                    facts.is_some_and(|facts| facts.iter().any(|fact| fact.typ == *of))
                };
                given != declared || !parents(w).iter().zip(&typ.parents).all(has)
            }
            Some(fault) => self.given_parents(fault, w) != self.declared_parents(fault, w, typ),
            None => given != declared,
        }
    }

    /// How many parents an imposition gives, as a wrong version counts them.
    fn given_parents(&self, fault: Fault, w: &Words) -> usize {
        let distinct = |els: Vec<u16>| els.into_iter().collect::<BTreeSet<u16>>().len();
        match fault {
            Fault::GivenCountedOnce => distinct(parents(w)),
            Fault::EqualCountedOnce => distinct(self.roots(&parents(w))),
            _ => w[4].into(),
        }
    }

    /// How many parents the type of an imposition has, as a wrong version counts them.
    fn declared_parents(&self, fault: Fault, w: &Words, typ: &Type) -> usize {
        use Fault::*;
        let of = |typ: Option<&Type>| typ.map_or(0, |typ| typ.parents.len());
        match fault {
            CountedByFirstType => of(self.types.first()),
            CountedByLastType => of(self.types.last()),
            CountedByElement => of(self.types.get(usize::from(w[2]))),
            CountedByModel if typ.kind == 3 => of(self.types.get(usize::from(typ.model))),
            ModelsCounted => typ.parents.iter().filter(|&&of| self.kind_of(of) == Some(1)).count(),
            DeclaredCountedOnce => typ.parents.iter().collect::<BTreeSet<_>>().len(),
            _ => typ.parents.len(),
        }
    }

    fn is_barred(&self, func: u16) -> bool {
        use Fault::*;
        let barred = match self.fault {
            Some(DomAndCodBarred) => 0..4,
            Some(CompFree) => 2..3,
            Some(IdFree) => 3..4,
            _ => 2..4,
        };
        let stands = |model: &Model| match self.fault {
            Some(SevenWithoutRecord5) => true,
            Some(OperationsFree) => false,
            Some(SevenForOwnMor) => self.mor_apps.iter().any(|entry| entry.types[0] == model.mor),
            _ => !self.mor_apps.is_empty(),
        };
        let mut models = self.models.iter();
        models.any(|model| stands(model) && model.funcs[barred.clone()].contains(&func))
            || (self.mor_apps.iter().any(|entry| entry.func == func) && !self.is(Record5Free))
    }

    /// Whether id has other than one argument, or comp other than two.
    fn is_misapplied(&self, w: &Words) -> bool {
        use Fault::*;
        let is_wrong = |place: usize, count: u16| {
            let is_operation = self.models.iter().any(|model| model.funcs[place] == w[2]);
            is_operation && w[5] != count
        };
        let (of_id, of_comp) = (is_wrong(2, 1), is_wrong(3, 2));
        match self.fault {
            Some(NoTwelve) => false,
            Some(IdTakesMore) => (of_id && w[5] == 0) || of_comp,
            Some(IdTakesNone) => (of_id && w[5] > 0) || of_comp,
            Some(IdTakesTwo) => is_wrong(2, 2) || of_comp,
            Some(CompTakesMore) => of_id || (of_comp && w[5] < 2),
            Some(CompTakesLess) => of_id || (of_comp && w[5] > 2),
            Some(TwelveForParents) => {
                let operations = self.models.iter().flat_map(|model| &model.funcs[2..]);
                let declared = self.funcs.get(usize::from(w[2])).map(|func| func.parents.len());
                let is_other = declared != Some(usize::from(w[4]));
                of_id || of_comp || ({ operations }.any(|&func| func == w[2]) && is_other)
            }
            Some(TwelveByDomain) => {
                let operations = self.models.iter().flat_map(|model| &model.funcs[2..]);
                let declared = self.funcs.get(usize::from(w[2])).map(|func| func.domain.len());
                let is_other = declared != Some(usize::from(w[5]));
                { operations }.any(|&func| func == w[2]) && is_other
            }
            Some(TwelveForDomAndCod) => of_id || of_comp || is_wrong(0, 1) || is_wrong(1, 1),
            _ => of_id || of_comp,
        }
    }

    fn is_given_again(&self, w: &Words) -> bool {
        let of_models = |func| self.models.iter().any(|model| model.funcs.contains(&func));
        let of_mor_apps = |func| self.mor_apps.iter().any(|entry| entry.func == func);
        let args = args(w);
        match w[1] {
            4 => {
                let twice = (0..args.len()).any(|i| args[..i].contains(&args[i]));
                let models = &mut self.models.iter();
                (models.any(|model| model.typ == w[2]) && !self.is(Fault::ModelAgain))
                    || (twice && !self.is(Fault::TwiceInModel))
                    || args.iter().any(|&func| of_models(func))
                    || (args.iter().any(|&func| of_mor_apps(func))
                        && !self.is(Fault::MorphismFunctionAgain))
            }
            5 => {
                let pair = self.mor_apps.iter().any(|entry| entry.types == args);
                (of_models(w[2]) && !self.is(Fault::ModelFunctionAgain))
                    || of_mor_apps(w[2])
                    || (pair && !self.is(Fault::MorphismPairAgain))
            }
            11 => {
                let var = self.vars.get(usize::from(w[2])).copied().flatten();
                var.is_some() && !self.is(Fault::VariableAgain)
            }
            12 => {
                let ambient = self.ambients.get(usize::from(w[2])).copied().flatten();
                ambient.is_some() && !self.is(Fault::AmbientAgain)
            }
            _ => false,
        }
    }

    /// Whether `entries` fill a table that holds `limit`.
    fn is_at(&self, entries: usize, limit: usize, less: Fault, more: Fault) -> bool {
        let limit = if self.is(less) {
            limit - 1
        } else if self.is(more) {
            limit + 1
        } else {
            limit
        };
        entries >= limit
    }

    fn has_no_room(&self, w: &Words) -> bool {
        use Fault::*;
        match w[1] {
            1 => self.is_at(self.types.len(), 32, TypesLess, TypesMore),
            2 => self.is_at(self.preds.len(), 32, PredsLess, PredsMore),
            3 => self.is_at(self.funcs.len(), 64, FuncsLess, FuncsMore),
            4 => self.is_at(self.models.len(), 8, ModelsLess, ModelsMore),
            5 => self.is_at(self.mor_apps.len(), 32, MorAppsLess, MorAppsMore),
            6 => self.is_at(self.links.len(), 256, ElsLess, ElsMore),
            7 => {
                let known = self.is(SelfEqualityNeedsNoRoom)
                    && !self.is_any_undeclared(w)
                    && self.root(w[2]) == self.root(w[3]);
                self.are_pairs_full() && !known
            }
            _ if self.is_any_undeclared(w) => false,
            8 => {
                let known = self.impositions.contains(&self.imposition(w));
                let full = self.is_at(self.impositions.len(), 64, ImpositionsLess, ImpositionsMore);
                full && (!known || self.is(RepeatedImpositionNeedsRoom))
            }
            9 => {
                let full = self.is_at(self.func_apps.len(), 256, FuncAppsLess, FuncAppsMore);
                match self.stored_result(&self.func_key(w)) {
                    None => full,
                    Some(_) if full && self.is(KnownApplicationNeedsRoom) => true,
                    Some(stored) => self.queues_result(stored, w[3]) && self.are_pairs_full(),
                }
            }
            10 => {
                let known = self.pred_apps.binary_search(&self.pred_app(w)).is_ok();
                let full = self.is_at(self.pred_apps.len(), 256, PredAppsLess, PredAppsMore);
                full && (!known || self.is(RepeatedPredicateNeedsRoom))
            }
            _ => false,
        }
    }

    fn are_pairs_full(&self) -> bool {
        self.is_at(self.pairs.len(), 256, Fault::PairsLess, Fault::PairsMore)
    }

    fn imposition(&self, w: &Words) -> (u16, Fact) {
        let mut fact = Fact { typ: w[3], parents: parents(w) };
        let declared = || self.types[usize::from(w[3])].parents.len();
        if self.is(Fault::MoreParentsCut) {
            fact.parents.truncate(declared());
        }
        if self.is(Fault::FewerParentsFilled) {
            fact.parents.resize(declared(), 0);
        }
        if self.is(Fault::ImpositionStoredAsGiven) {
            return (w[2], fact);
        }
        (self.root(w[2]), self.fact_as_roots(&fact))
    }

    fn func_key(&self, w: &Words) -> App {
        if self.is(Fault::ApplicationKeyAsGiven) {
            return app(w);
        }
        self.app_as_roots(&app(w))
    }

    fn pred_app(&self, w: &Words) -> App {
        if self.is(Fault::PredicateStoredAsRoots) {
            return self.app_as_roots(&app(w));
        }
        app(w)
    }

    pub fn stored_result(&self, key: &App) -> Option<u16> {
        let place = self.func_apps.binary_search_by(|(app, _)| app.cmp(key));
        place.ok().map(|place| self.func_apps[place].1)
    }

    /// Whether an application over a stored one queues a pair: the result as
    /// stored is not the new one's root.
    fn queues_result(&self, stored: u16, result: u16) -> bool {
        let stored = if self.is(Fault::StaleResultIsEqual) { self.root(stored) } else { stored };
        stored != self.root(result)
    }

    fn carry_out(&mut self, w: &Words) -> Result<Answer, Met> {
        let (parents, args) = (parents(w), args(w));
        Ok(match w[1] {
            1 => {
                self.types.push(Type { kind: w[2], model: w[3], parents });
                Answer::Number(self.types.len() - 1)
            }
            2 | 3 => {
                let table = if w[1] == 2 { &mut self.preds } else { &mut self.funcs };
                table.push(Relation { parents, domain: args, codomain: w[3] });
                Answer::Number(table.len() - 1)
            }
            4 => {
                self.models.push(Model { typ: w[2], mor: w[3], funcs: args });
                Answer::Number(self.models.len() - 1)
            }
            5 => {
                self.mor_apps.push(MorApp { func: w[2], types: args });
                Answer::Number(self.mor_apps.len() - 1)
            }
            6 => {
                self.links.push(self.links.len() as u16);
                self.marks.push(w[2] != 0);
                self.facts.push(Vec::new());
                self.oldest.push(0);
                Answer::Number(self.links.len() - 1)
            }
            7 => {
                let differ = self.equate(w[2], w[3]);
                Answer::Said(if self.is(Fault::EqualitySaysGiven) { w[2] != w[3] } else { differ })
            }
            8 => {
                if self.is(Fault::ImpositionShortens) {
                    self.find_and_shorten(w[2]);
                }
                Answer::Said(self.queue_imposition(w))
            }
            9 => Answer::Said(self.apply(w)),
            10 => {
                let app = self.pred_app(w);
                let place = self.pred_apps.binary_search(&app);
                if let Err(place) = place {
                    self.pred_apps.insert(place, app);
                }
                Answer::Said(place.is_err())
            }
            11 => {
                let as_root = self.is(Fault::VariableStoredAsRoot);
                let el = if as_root { self.root(w[3]) } else { w[3] };
                self.vars[usize::from(w[2])] = Some(el);
                Answer::Said(true)
            }
            12 => {
                let as_root = self.is(Fault::AmbientStoredAsRoot);
                let el = if as_root { self.root(w[3]) } else { w[3] };
                self.ambients[usize::from(w[2])] = Some(el);
                Answer::Said(true)
            }
            13 => Answer::Closed(close(self)?),
            14 => Answer::Conflicts(self.report()),
            _ => Answer::Settled(settle(self)?),
        })
    }

    /// Queues the imposition, unless it is queued; says whether it did.
    fn queue_imposition(&mut self, w: &Words) -> bool {
        let entry = self.imposition(w);
        let new = !self.impositions.contains(&entry);
        let is_held = self.types_of(entry.0).contains(&entry.1);
        if new {
            self.impositions.push(entry);
        }
        new && !(is_held && self.is(Fault::ImpositionSaysNew))
    }

    /// Queues the pair as given; says whether the roots differ.
    pub fn equate(&mut self, a: u16, b: u16) -> bool {
        let roots = [self.root(a), self.root(b)];
        let shortened = match self.fault {
            Some(Fault::EquateLeavesLinks) => vec![],
            Some(Fault::EquateShortensFirst) => vec![a],
            Some(Fault::EquateShortensOnce) if a == b => vec![a],
            _ => vec![a, b],
        };
        for el in shortened {
            self.find_and_shorten(el);
        }
        let pair = if self.is(Fault::EqualityQueuesRoots) { roots.into() } else { (a, b) };
        if roots[0] != roots[1] || !self.is(Fault::EqualityInClassDropped) {
            self.pairs.push(pair);
        }
        roots[0] != roots[1]
    }

    fn apply(&mut self, w: &Words) -> bool {
        let key = self.func_key(w);
        let result = if self.is(Fault::ApplicationResultAsGiven) { w[3] } else { self.root(w[3]) };
        let links = self.links.clone();
        let said = self.store_or_equate(key, result);
        if self.is(Fault::ApplicationLeavesLinks) {
            self.links = links;
        }
        said
    }

    /// Stores the application, or queues its result with the one that is stored.
    pub fn store_or_equate(&mut self, key: App, result: u16) -> bool {
        match self.func_apps.binary_search_by(|(app, _)| app.cmp(&key)) {
            Err(place) => {
                self.func_apps.insert(place, (key, result));
                true
            }
            Ok(place) => {
                let stored = self.func_apps[place].1;
                if !self.queues_result(stored, result) {
                    return false;
                }
                self.equate(stored, result) || self.is(Fault::ApplicationSaysQueued)
            }
        }
    }

    fn look_up(&mut self, w: &Words) -> Answer {
        let is_type = |&typ: &u16| usize::from(typ) < self.types.len();
        match w[1] {
            101 | 102 if usize::from(w[2]) >= self.links.len() => Answer::Refused(5),
            101 if self.is(Fault::RootLeavesLinks) => Answer::Found(self.find(w[2])),
            101 => {
                let found = self.find_and_shorten(w[2]);
                Answer::Found(if self.is(Fault::FindCountsAfterwards) {
                    self.find(w[2])
                } else {
                    found
                })
            }
            102 if self.is(Fault::RootConstShortens) => Answer::Found(self.find_and_shorten(w[2])),
            102 => Answer::Found(self.find(w[2])),
            103 if w[4] > 4 => Answer::Refused(3),
            103 if !is_type(&w[2]) => Answer::Refused(5),
            103 => {
                let given = parents(w);
                let undeclared = given.iter().any(|&el| usize::from(el) >= self.links.len());
                if undeclared && self.is(Fault::LookupParentsDeclared) {
                    return Answer::Refused(5);
                }
                let declared = self.types[usize::from(w[2])].parents.len();
                if given.len() != declared && self.is(Fault::LookupParentsCounted) {
                    return Answer::Refused(15);
                }
                Answer::Typed(self.concrete_type_at(w[2], &given))
            }
            _ if w[5] > 4 => Answer::Refused(3),
            _ => {
                let asked = args(w);
                let undeclared = !asked.iter().all(is_type);
                self.ambients_of(asked, undeclared)
            }
        }
    }

    fn ambients_of(&self, mut asked: Vec<u16>, undeclared: bool) -> Answer {
        if self.is(Fault::AmbientsByType) {
            asked.sort();
        }
        let stored = |&typ: &u16| self.ambients.get(usize::from(typ)).copied().flatten();
        let els: Option<Vec<u16>> = asked.iter().map(stored).collect();
        match els {
            None if self.is(Fault::TenBeforeFive) => Answer::Refused(10),
            _ if undeclared => Answer::Refused(5),
            None => Answer::Refused(10),
            Some(els) if self.is(Fault::AmbientsAsRoots) => Answer::Ambients(self.roots(&els)),
            Some(els) => Answer::Ambients(els),
        }
    }
}
