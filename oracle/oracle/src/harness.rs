//! A child of the structure module: the calls of documents 01 and 02 over the
//! Rust's own methods, with their refusals and limits around them.

#![warn(dead_code, unreachable_code, unused_variables, clippy::all)]

#[cfg(test)]
mod findings;
pub mod parking;

use std::collections::BTreeSet;

use super::{
    concrete_type_at, func_codomain_type_at, func_domain_type_at, ConcreteType, ElId, FuncApp,
    PredApp, Structure, TypeConflict,
};
use crate::algebra::signature::{
    FuncId, ModelIds, MorphismMemberTypes, PredId, Signature, TypeId, TypeKind,
};
use crate::answer::{Answer, Closed, Conflicts, Fact, Numbers};
use crate::book::Book;
use crate::record::{Record, Table, ROOT, ROOT_CONST, TYPE_LOOKUP};

const MAX_TYPES: usize = 32;
const MAX_PREDS: usize = 32;
const MAX_FUNCS: usize = 64;
const MAX_MODELS: usize = 8;
const MAX_MOR_APPS: usize = 32;
const MAX_ELS: usize = 256;
const MAX_PAIRS: usize = 256;
const MAX_IMPOSITIONS: usize = 64;
const MAX_APPS: usize = 256;
const MAX_FACTS: usize = 1024;

/// A signature and a structure, as the calls so far left them.
#[derive(Clone, Default)]
pub struct Oracle {
    signature: Signature,
    structure: Structure,
    /// Whether any call of kinds 6 to 15 was accepted (number 4).
    begun: bool,
    /// Whether the latest accepted close reported no change and no equality,
    /// imposition or application accepted since was answered with yes.
    settled: bool,
    /// What the calls said, to hold the structure against.
    book: Book,
}

/// What a close added.
#[derive(Default)]
struct Added {
    /// Insertions made by imposing that enlarged a set.
    facts: usize,
    /// Applications that the laws inserted.
    apps: usize,
}

/// The number that a close met.
struct Met(u16);

/// An entry needed, its table at its limit.
const NO_ROOM: Met = Met(9);

/// The 1,025th fact.
const TOO_MANY_FACTS: Met = Met(11);

impl Oracle {
    /// The calls of kinds 1 to 15. A refused one leaves everything as it was.
    pub fn call(&mut self, record: &Record) -> Answer {
        let answer = self.answer(record);
        self.assert_nothing_to_close();
        answer
    }

    /// The finds and the lookups. `root` shortens paths; nothing else changes.
    pub fn look_up(&mut self, record: &Record) -> Answer {
        let answer = self.find(record);
        self.hear(record, &answer);
        self.assert_nothing_to_close();
        answer
    }

    /// The calls of kinds 1 to 15, with no look at the close that may come next.
    fn answer(&mut self, record: &Record) -> Answer {
        let answer = self.carry_out_or_refuse(record);
        self.hear(record, &answer);
        answer
    }

    /// Enters a call of any kind, refused or not. What the answers so far say of
    /// settled, and the flag, must be the same.
    fn hear(&mut self, record: &Record, answer: &Answer) {
        self.book.hear(record, answer);
        assert_eq!(self.settled, self.book.is_settled(), "settled is what the answers say");
    }

    fn carry_out_or_refuse(&mut self, record: &Record) -> Answer {
        if let Some(number) = self.refusal(record) {
            return Answer::Refused(number);
        }
        // The Rust has no limits. An entry was needed and its table at its
        // limit exactly when the table is over its limit afterwards.
        let mut next = self.clone();
        let answer = match next.carry_out(record) {
            Ok(answer) => answer,
            Err(Met(number)) => return Answer::Refused(number),
        };
        if next.is_over_a_limit() {
            return Answer::Refused(9);
        }
        next.begun |= record.kind() >= 6;
        next.settled &= !unsettles(record, &answer);
        next.book.enter(record, &answer);
        next.assert_sound();
        match &answer {
            Answer::Closed(closed) => {
                next.book.assert_rounds(closed);
                next.assert_closed();
            }
            Answer::Settled { .. } => {
                assert!(next.settled);
                next.assert_closed();
            }
            _ => {}
        }
        *self = next;
        answer
    }

    /// A copy of the structure, for a close to be timed on, and the signature.
    pub fn parts(&self) -> (Structure, &Signature) {
        (self.structure.clone(), &self.signature)
    }

    /// The Rust's own report, to be timed.
    pub fn type_conflicts(&self) -> Vec<TypeConflict> {
        self.structure.type_conflicts()
    }

    fn find(&mut self, record: &Record) -> Answer {
        match record.kind() {
            ROOT | ROOT_CONST if self.is_undeclared(Table::Els, record.a()) => Answer::Refused(5),
            ROOT => {
                let count = self.depth(el_id(record.a()));
                let root = self.structure.unification.root(el_id(record.a())).0;
                Answer::Found { root, count }
            }
            ROOT_CONST => {
                let count = self.depth(el_id(record.a()));
                let root = self.structure.unification.root_const(el_id(record.a())).0;
                Answer::Found { root, count }
            }
            TYPE_LOOKUP if record.parent_count() > 4 => Answer::Refused(3),
            TYPE_LOOKUP if self.is_undeclared(Table::Types, record.a()) => Answer::Refused(5),
            TYPE_LOOKUP => {
                let parents = el_ids(record.parents());
                let typed = concrete_type_at(&self.signature, TypeId::new(record.a()), &parents);
                Answer::Typed(typed.map(fact))
            }
            _ => self.look_up_ambients(record),
        }
    }

    fn look_up_ambients(&self, record: &Record) -> Answer {
        let types = type_ids(record.args());
        let has_none = |typ| !self.structure.ambient_model_els.contains_key(typ);
        if record.arg_count() > 4 {
            Answer::Refused(3)
        } else if record.args().iter().any(|&n| self.is_undeclared(Table::Types, n)) {
            Answer::Refused(5)
        } else if types.iter().any(has_none) {
            Answer::Refused(10)
        } else {
            let els = self.structure.ambient_parents(&types);
            Answer::Ambients(numbers(&els))
        }
    }

    /// How many links lead from `el` to its root.
    fn depth(&self, mut el: ElId) -> usize {
        let links = &self.structure.unification;
        let mut count = 0;
        while links.link(el) != el {
            el = links.link(el);
            count += 1;
        }
        assert!(count < links.len());
        count
    }

    /// The first that applies of the numbers 3 to 6, 15, 7, 12 and 8.
    fn refusal(&self, record: &Record) -> Option<u16> {
        if !record.is_well_formed() {
            return Some(3);
        }
        if record.kind() <= 5 && self.begun {
            return Some(4);
        }
        let mut names = record.naming_words().into_iter();
        if names.any(|(word, table)| self.is_undeclared(table, record.words[word])) {
            return Some(5);
        }
        if self.has_wrong_type(record) {
            return Some(6);
        }
        if record.kind() == 8 && self.has_other_parents(record) {
            return Some(15);
        }
        if record.kind() == 9 && self.is_barred(FuncId::new(record.a())) {
            return Some(7);
        }
        if record.kind() == 9 && self.is_misapplied(record) {
            return Some(12);
        }
        self.is_given_again(record).then_some(8)
    }

    fn is_undeclared(&self, table: Table, number: u16) -> bool {
        let sizes = self.signature.sizes();
        let size = match table {
            Table::Types => sizes.types,
            Table::Preds => sizes.preds,
            Table::Funcs => sizes.funcs,
            Table::Els => self.structure.unification.len(),
        };
        usize::from(number) >= size
    }

    fn kind_of(&self, typ: u16) -> TypeKind {
        self.signature.type_(TypeId::new(typ)).kind
    }

    fn has_wrong_type(&self, record: &Record) -> bool {
        let is_model = |typ| self.kind_of(typ) == TypeKind::Model;
        match record.kind() {
            1 => record.a() == 3 && !is_model(record.b()),
            4 => {
                let mor_of_a = TypeKind::Mor(TypeId::new(record.a()));
                !is_model(record.a()) || self.kind_of(record.b()) != mor_of_a
            }
            5 => !matches!(self.kind_of(record.args()[0]), TypeKind::Mor(_)),
            12 => !is_model(record.a()),
            _ => false,
        }
    }

    /// Whether an imposition gives another number of parents than its type has. The Rust
    /// takes any number.
    fn has_other_parents(&self, record: &Record) -> bool {
        usize::from(record.parent_count()) != self.parent_count(TypeId::new(record.b()))
    }

    /// How many parents a declared type has.
    fn parent_count(&self, typ: TypeId) -> usize {
        self.signature.type_(typ).parents.len()
    }

    /// Whether `func` is a morphism application function or, where there is one, id
    /// or comp.
    fn is_barred(&self, func: FuncId) -> bool {
        let mut models = self.signature.iter_model_decls();
        let is_operation = models.any(|(_, ids)| [ids.id, ids.comp].contains(&func));
        self.signature.types_for_mor_app_func(func).is_some()
            || (is_operation && self.signature.sizes().mor_apps > 0)
    }

    /// Whether id is applied to other than one argument, or comp to other than two.
    fn is_misapplied(&self, record: &Record) -> bool {
        let func = FuncId::new(record.a());
        let mut models = self.signature.iter_model_decls();
        models.any(|(_, ids)| {
            (func == ids.id && record.arg_count() != 1)
                || (func == ids.comp && record.arg_count() != 2)
        })
    }

    /// Whether a record of kind 4 or 5 has named `func`.
    fn is_taken(&self, func: FuncId) -> bool {
        let mut models = self.signature.iter_model_decls();
        models.any(|(_, ids)| ids.operation_name(func).is_some())
            || self.signature.types_for_mor_app_func(func).is_some()
    }

    fn is_given_again(&self, record: &Record) -> bool {
        match record.kind() {
            4 => {
                let funcs = func_ids(record.args());
                let twice = (1..4).any(|i| funcs[..i].contains(&funcs[i]));
                let model = self.signature.ids_for_model_type(TypeId::new(record.a()));
                model.is_some() || twice || funcs.iter().any(|&func| self.is_taken(func))
            }
            5 => {
                let func = FuncId::new(record.a());
                let types = morphism_pair(record);
                self.is_taken(func) || self.signature.mor_app_func(types).is_some()
            }
            11 => self.structure.var_els.contains_key(&var_name(record.a())),
            12 => {
                let typ = TypeId::new(record.a());
                self.structure.ambient_model_els.contains_key(&typ)
            }
            _ => false,
        }
    }

    fn is_over_a_limit(&self) -> bool {
        let sizes = self.signature.sizes();
        let structure = &self.structure;
        sizes.types > MAX_TYPES
            || sizes.preds > MAX_PREDS
            || sizes.funcs > MAX_FUNCS
            || sizes.models > MAX_MODELS
            || sizes.mor_apps > MAX_MOR_APPS
            || structure.unification.len() > MAX_ELS
            || structure.pending_equalities.len() > MAX_PAIRS
            || structure.pending_type_impositions.len() > MAX_IMPOSITIONS
            || structure.func_apps.len() > MAX_APPS
            || structure.pred_apps.len() > MAX_APPS
    }

    /// The effect of a record that numbers 3 to 8, 12 and 15 let pass.
    fn carry_out(&mut self, record: &Record) -> Result<Answer, Met> {
        let (a, b) = (record.a(), record.b());
        let (parents, args) = (record.parents(), record.args());
        let (signature, structure) = (&mut self.signature, &mut self.structure);
        Ok(match record.kind() {
            1 => {
                let kind = match a {
                    0 => TypeKind::Plain,
                    1 => TypeKind::Model,
                    2 => TypeKind::Enum,
                    _ => TypeKind::Mor(TypeId::new(b)),
                };
                Answer::Number(signature.declare_type(kind, type_ids(parents)))
            }
            2 => Answer::Number(signature.declare_pred(type_ids(parents), type_ids(args))),
            3 => {
                let codomain = TypeId::new(b);
                let domain = type_ids(args);
                Answer::Number(signature.declare_func(type_ids(parents), domain, codomain))
            }
            4 => {
                let funcs = func_ids(args);
                let ids = ModelIds {
                    type_: TypeId::new(a),
                    mor: TypeId::new(b),
                    dom: funcs[0],
                    cod: funcs[1],
                    id: funcs[2],
                    comp: funcs[3],
                };
                Answer::Number(signature.declare_model(ids))
            }
            5 => Answer::Number(signature.declare_mor_app(morphism_pair(record), FuncId::new(a))),
            6 => {
                let el = structure.push_el();
                if a == 1 {
                    structure.inferred_parent_els.insert(el);
                }
                Answer::Number(el.0)
            }
            7 => Answer::Said(structure.equate(el_id(a), el_id(b))),
            8 => {
                let ct = ConcreteType { typ: TypeId::new(b), parents: el_ids(parents) };
                Answer::Said(structure.impose_type(el_id(a), ct))
            }
            9 => {
                let app =
                    FuncApp { func: FuncId::new(a), parents: el_ids(parents), args: el_ids(args) };
                Answer::Said(structure.insert_func_app_or_equate(app, el_id(b)))
            }
            10 => {
                let app =
                    PredApp { pred: PredId::new(a), parents: el_ids(parents), args: el_ids(args) };
                Answer::Said(structure.pred_apps.insert(app))
            }
            11 => {
                structure.var_els.insert(var_name(a), el_id(b));
                Answer::Said(true)
            }
            12 => {
                structure.ambient_model_els.insert(TypeId::new(a), el_id(b));
                Answer::Said(true)
            }
            13 => Answer::Closed(self.close()?),
            14 => Answer::Conflicts(self.conflicts()),
            _ => self.settle()?,
        })
    }

    /// The Rust's close pass by pass, so that merges, rounds and facts added can be
    /// counted and facts, applications and pairs watched. The real close must do the same.
    fn close(&mut self) -> Result<Closed, Met> {
        let mut real = self.structure.clone();
        let classes = self.structure.els.len();
        let (facts, had_stale) = (self.facts(), self.has_stale_facts());
        let mut changed = false;
        let mut rounds = 0;
        let mut added = Added::default();
        loop {
            rounds += 1;
            let drained = self.structure.drain_equalities();
            let equated = self.structure.functionality();
            // So a queue of `MAX_PAIRS` has room for the pair of an imposing.
            assert!(self.structure.pending_equalities.len() < MAX_PAIRS);
            let typed = self.type_apps(&mut added)?;
            let obeyed = self.obey_operations(&mut added)?;
            if !drained && !equated && !typed && !obeyed {
                break;
            }
            changed = true;
        }
        assert!(self.structure.pending_equalities.is_empty(), "an idle round queues nothing");
        for (el, ct) in self.structure.pending_type_impositions.clone() {
            changed |= self.impose(el, ct, &mut added)?;
        }
        self.structure.canonicalise_refs();
        // A merge takes one class away, and nothing else does.
        let merges = classes - self.structure.els.len();
        assert!(rounds - 1 <= 2 * merges + added.apps + added.facts, "rounds end");
        let most = facts + added.facts;
        assert!(self.facts() <= most, "there are no more facts than were added");
        let none_lost = merges == 0 && !had_stale;
        assert!(self.facts() == most || !none_lost, "facts added are there");
        let worked = merges > 0 || added.apps > 0 || added.facts > 0;
        assert_eq!(changed, worked, "merges, applications and facts are the change");

        let real_changed = real.close(&self.signature);
        assert_eq!(real_changed, changed, "the real close answers otherwise");
        assert!(is_same(&real, &self.structure), "the real close differs");
        self.settled = !changed;
        Ok(Closed { changed, merges, rounds, added: added.facts })
    }

    /// Closes until one reports no change. Each close is a call of its own on a
    /// copy, so that what is asserted of a close is asserted of each, and nothing
    /// is kept where one is refused.
    fn settle(&mut self) -> Result<Answer, Met> {
        let mut copy = self.clone();
        let (mut closes, mut merges) = (0, 0);
        let mut is_quiet_next = false;
        loop {
            let closed = match copy.answer(&Record::of_kind(13)) {
                Answer::Closed(closed) => closed,
                Answer::Refused(number) => return Err(Met(number)),
                _ => unreachable!("a close is accepted or refused"),
            };
            closes += 1;
            merges += closed.merges;
            if !closed.changed {
                break;
            }
            let elements = self.structure.unification.len();
            assert!(closes <= elements, "a settle closes at most once more than elements");
            assert!(!is_quiet_next, "a close that merges nothing is followed by a quiet one");
            is_quiet_next = closed.merges == 0;
        }
        self.structure = copy.structure;
        self.settled = copy.settled;
        Ok(Answer::Settled { closes, merges })
    }

    /// The Rust's `typing`, one imposing at a time.
    fn type_apps(&mut self, added: &mut Added) -> Result<bool, Met> {
        let mut changed = false;
        let func_apps = self.structure.func_apps.clone();
        for app in func_apps.keys() {
            for (index, &arg) in app.args.iter().enumerate() {
                if let Some(ct) = func_domain_type_at(&self.signature, app, index) {
                    changed |= self.impose(arg, ct, added)?;
                }
            }
        }
        for app in self.structure.pred_apps.clone() {
            let arity = self.signature.pred(app.pred).arity.clone();
            for (&arg, typ) in app.args.iter().zip(arity) {
                if let Some(ct) = concrete_type_at(&self.signature, typ, &app.parents) {
                    changed |= self.impose(arg, ct, added)?;
                }
            }
        }
        for (app, &result) in &func_apps {
            if let Some(ct) = func_codomain_type_at(&self.signature, app) {
                changed |= self.impose(result, ct, added)?;
            }
        }
        Ok(changed)
    }

    /// One imposing. Facts grow only here, by one, after any merges.
    fn impose(&mut self, el: ElId, ct: ConcreteType, added: &mut Added) -> Result<bool, Met> {
        let before = self.may_merge(el, &ct).then(|| self.without_apps());
        let classes = self.structure.els.len();
        let changed = self.structure.impose_concrete_type(el, ct.clone());
        if changed && self.facts() > MAX_FACTS {
            return Err(TOO_MANY_FACTS);
        }
        added.facts += usize::from(if self.structure.els.len() == classes {
            changed
        } else {
            self.has_grown(before.expect("it may merge"), el, ct)
        });
        Ok(changed)
    }

    /// Whether there are marks and the class has the type with other parents. Else an
    /// imposing merges nothing.
    fn may_merge(&self, el: ElId, ct: &ConcreteType) -> bool {
        if self.structure.inferred_parent_els.is_empty() {
            return false;
        }
        let new = self.structure.canonical_type(ct.clone());
        let held = self.structure.concrete_types_of(el);
        held.iter().any(|held| held.typ == new.typ && *held != new)
    }

    /// Elements and facts as they are now.
    fn without_apps(&self) -> Structure {
        let (els, unification) = (self.structure.els.clone(), self.structure.unification.clone());
        Structure { els, unification, ..Structure::default() }
    }

    /// Whether an imposing that merged enlarged a set too. The Rust's own drain makes of
    /// the facts before it those that its merges left; the one to be inserted is among
    /// them or not.
    fn has_grown(&self, before: Structure, el: ElId, ct: ConcreteType) -> bool {
        let mut merged = before;
        let els = (0..merged.unification.len()).map(ElId);
        merged.pending_equalities = els.map(|el| (el, self.structure.root(el))).collect();
        merged.drain_equalities();
        let root = merged.root(el);
        let ct = merged.canonical_type(ct);
        let grew = merged.els.entry(root).or_default().insert(ct);
        assert!(merged.els == self.structure.els, "an imposing merges and then inserts");
        grew
    }

    /// The Rust's own `morphism_operation_constraints`. It adds no fact, and while it
    /// runs applications and pairs only grow in number: so an entry was needed and its
    /// table at its limit exactly when the table is over its limit afterwards, and 11
    /// is not met in between.
    fn obey_operations(&mut self, added: &mut Added) -> Result<bool, Met> {
        let (facts, apps) = (self.facts(), self.structure.func_apps.len());
        let changed = self.structure.morphism_operation_constraints(&self.signature);
        assert_eq!(self.facts(), facts, "the laws add no fact");
        if self.structure.func_apps.len() > MAX_APPS
            || self.structure.pending_equalities.len() > MAX_PAIRS
        {
            return Err(NO_ROOM);
        }
        added.apps += self.structure.func_apps.len() - apps;
        Ok(changed)
    }

    fn facts(&self) -> usize {
        self.structure.els.values().map(|cts| cts.len()).sum()
    }

    /// Whether a stored fact has an element or a parent that is no root.
    fn has_stale_facts(&self) -> bool {
        let is_root = |el: &ElId| self.structure.unification.link(*el) == *el;
        let is_stale = |(el, cts): (&ElId, &BTreeSet<ConcreteType>)| {
            let mut parents = cts.iter().flat_map(|ct| &ct.parents);
            !cts.is_empty() && (!is_root(el) || !parents.all(is_root))
        };
        self.structure.els.iter().any(is_stale)
    }

    fn conflicts(&self) -> Conflicts {
        let conflicts = self.structure.type_conflicts();
        let reported = conflicts.iter().map(|c| (c.el, c.a.clone(), c.b.clone()));
        // Two facts of one type have as many parents, so that one of these differs.
        let els = self.structure.els.keys().map(|&el| (el, self.structure.concrete_types_of(el)));
        let several = els.filter(|(_, cts)| cts.len() >= 2);
        let first_two = several.map(|(el, cts)| (el, cts[0].clone(), cts[1].clone()));
        assert!(reported.eq(first_two), "the first two facts of a class disagree");
        let each = conflicts.into_iter().map(|c| (c.el.0, fact(c.a), fact(c.b))).collect();
        Conflicts { each, finds: self.finds() }
    }

    /// The finds of a conflict report (M-103). The Rust does not count them, and makes
    /// others: it finds a parent again for each fact that it compares.
    fn finds(&self) -> usize {
        let els = self.structure.els.iter().filter(|(_, cts)| cts.len() >= 2);
        els.map(|(&el, _)| self.structure.concrete_types_of(el)[0].parents.len()).sum()
    }

    /// What holds of every structure between two calls.
    fn assert_sound(&self) {
        let structure = &self.structure;
        let links = &structure.unification;
        let els = || (0..links.len()).map(ElId);
        let is_root = |el: &ElId| links.link(*el) == *el;
        assert!(els().all(|el| links.link(el) <= el), "links fall");
        assert!(structure.els.keys().copied().eq(els().filter(is_root)), "facts stand on roots");
        assert!(self.facts() <= MAX_FACTS);
        let impositions = structure.pending_type_impositions.iter().map(|(_, ct)| ct);
        let mut cts = structure.els.values().flatten().chain(impositions);
        let has_its_parents = |ct: &ConcreteType| ct.parents.len() == self.parent_count(ct.typ);
        assert!(cts.all(has_its_parents), "facts and impositions have as many parents as types");
        if !self.book.is_whole() {
            // A file may have what no call makes (docs/FILE.md).
            return;
        }
        assert!(structure.inferred_parent_els.iter().all(is_root), "marks stand on roots");
        let mut facts = structure.els.values().flatten();
        assert!(facts.all(|ct| ct.parents.iter().all(is_root)), "parents of facts are roots");
        self.book.assert_conserved(structure.els.len());
    }

    /// What holds after a close or a settle.
    fn assert_closed(&self) {
        let links = &self.structure.unification;
        let els = (0..links.len()).map(ElId);
        let roots: Vec<usize> = els.map(|el| links.root_const(el).0).collect();
        self.book.assert_smallest(&roots);
        assert!(self.structure.pending_equalities.is_empty());
    }

    /// What holds of a settled structure: a close of it is accepted, reports no
    /// change and leaves all but the queue, which it empties, and the variables,
    /// which it rewrites to roots; and a settle is that one close.
    fn assert_nothing_to_close(&self) {
        // A file may say settled of any structure.
        if !self.settled || !self.book.is_whole() {
            return;
        }
        let mut closed = self.clone();
        let answer = closed.answer(&Record::of_kind(13));
        let quiet = matches!(
            answer,
            Answer::Closed(Closed { changed: false, merges: 0, rounds: 1, added: 0 })
        );
        assert!(quiet, "a close of a settled structure answers {answer}");
        let mut expected = self.structure.clone();
        expected.pending_equalities.clear();
        for el in expected.var_els.values_mut() {
            *el = expected.unification.root_const(*el);
        }
        assert!(is_same(&expected, &closed.structure), "a quiet close leaves the structure");
        assert!(closed.settled);

        let answer = self.clone().answer(&Record::of_kind(15));
        let quiet = matches!(answer, Answer::Settled { closes: 1, merges: 0 });
        assert!(quiet, "a settle of a settled structure answers {answer}");
    }

    /// The structure line by line; FORMAT.md says how.
    pub fn dump(&self, out: &mut String) {
        let structure = &self.structure;
        for el in (0..structure.unification.len()).map(ElId) {
            let link = structure.unification.link(el).0;
            let mark = u8::from(structure.inferred_parent_els.contains(&el));
            *out += &format!("e {} {link} {mark}\n", el.0);
            for ct in structure.els.get(&el).into_iter().flatten() {
                *out += &format!("f {} {}\n", el.0, fact(ct.clone()));
            }
        }
        for (app, result) in &structure.func_apps {
            let (parents, args) = (numbers(&app.parents), numbers(&app.args));
            let func = app.func.as_usize();
            *out += &format!("a {func}{parents} /{args} = {}\n", result.0);
        }
        for app in &structure.pred_apps {
            let (parents, args) = (numbers(&app.parents), numbers(&app.args));
            *out += &format!("p {}{parents} /{args}\n", app.pred.as_usize());
        }
        for (name, el) in &structure.var_els {
            *out += &format!("v {} {}\n", var_key(name), el.0);
        }
        for (typ, el) in &structure.ambient_model_els {
            *out += &format!("m {} {}\n", typ.as_usize(), el.0);
        }
        for (a, b) in &structure.pending_equalities {
            *out += &format!("q {} {}\n", a.0, b.0);
        }
        for (el, ct) in &structure.pending_type_impositions {
            *out += &format!("i {} {}\n", el.0, fact(ct.clone()));
        }
        self.dump_flags(out);
    }

    /// The last line of the structure.
    pub fn dump_flags(&self, out: &mut String) {
        *out += &format!("s {} {}\n", u8::from(self.begun), u8::from(self.settled));
    }
}

/// Whether an accepted call takes settled away: an equality, imposition or application
/// that is answered with yes.
fn unsettles(record: &Record, answer: &Answer) -> bool {
    (7..=10).contains(&record.kind()) && matches!(answer, Answer::Said(true))
}

fn el_id(number: u16) -> ElId {
    ElId(number.into())
}

fn el_ids(numbers: &[u16]) -> Vec<ElId> {
    numbers.iter().map(|&number| el_id(number)).collect()
}

fn type_ids(numbers: &[u16]) -> Vec<TypeId> {
    numbers.iter().map(|&number| TypeId::new(number)).collect()
}

fn func_ids(numbers: &[u16]) -> Vec<FuncId> {
    numbers.iter().map(|&number| FuncId::new(number)).collect()
}

/// The morphism type and the member type of a record of kind 5.
fn morphism_pair(record: &Record) -> MorphismMemberTypes {
    MorphismMemberTypes {
        morphism_type: TypeId::new(record.args()[0]),
        member_type: TypeId::new(record.args()[1]),
    }
}

/// The Rust names variables by text. Two digits keep the order of the keys.
fn var_name(key: u16) -> String {
    format!("{key:02}")
}

fn var_key(name: &str) -> u16 {
    name.parse().expect("made by var_name")
}

fn numbers(els: &[ElId]) -> Numbers {
    Numbers(els.iter().map(|el| el.0).collect())
}

fn fact(ct: ConcreteType) -> Fact {
    Fact { typ: ct.typ.as_usize(), parents: numbers(&ct.parents) }
}

fn is_same(a: &Structure, b: &Structure) -> bool {
    a.els == b.els
        && a.pred_apps == b.pred_apps
        && a.func_apps == b.func_apps
        && a.var_els == b.var_els
        && a.ambient_model_els == b.ambient_model_els
        && a.unification == b.unification
        && a.pending_equalities == b.pending_equalities
        && a.pending_type_impositions == b.pending_type_impositions
        && a.allow_new_type_parents == b.allow_new_type_parents
        && a.inferred_parent_els == b.inferred_parent_els
}
