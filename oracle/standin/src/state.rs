//! The tables, and what they say by themselves.

use std::cmp::Ordering;

use crate::faults::Fault;

pub type Words = [u16; 16];

/// A type and its parents. The derived order is 01's: type, then parents.
#[derive(Clone, PartialEq, Eq, PartialOrd, Ord)]
pub struct Fact {
    pub typ: u16,
    pub parents: Vec<u16>,
}

/// A function or predicate with its parents and arguments. The derived order is
/// 01's: head, parents, arguments, a shorter list before its extension.
#[derive(Clone, PartialEq, Eq, PartialOrd, Ord)]
pub struct App {
    pub head: u16,
    pub parents: Vec<u16>,
    pub args: Vec<u16>,
}

#[derive(Clone)]
pub struct Type {
    pub kind: u16,
    pub model: u16,
    pub parents: Vec<u16>,
}

/// A predicate (its codomain is not used) or a function.
#[derive(Clone)]
pub struct Relation {
    pub parents: Vec<u16>,
    pub domain: Vec<u16>,
    pub codomain: u16,
}

#[derive(Clone)]
pub struct Model {
    pub typ: u16,
    pub mor: u16,
    /// dom, cod, id, comp
    pub funcs: Vec<u16>,
}

#[derive(Clone)]
pub struct MorApp {
    pub func: u16,
    pub types: Vec<u16>,
}

/// Signature and structure.
#[derive(Clone)]
pub struct State {
    pub fault: Option<Fault>,
    pub types: Vec<Type>,
    pub preds: Vec<Relation>,
    pub funcs: Vec<Relation>,
    pub models: Vec<Model>,
    pub mor_apps: Vec<MorApp>,
    pub links: Vec<u16>,
    pub marks: Vec<bool>,
    /// The facts of each element, in order.
    pub facts: Vec<Vec<Fact>>,
    pub func_apps: Vec<(App, u16)>,
    pub pred_apps: Vec<App>,
    pub vars: [Option<u16>; 65],
    pub ambients: [Option<u16>; 33],
    pub pairs: Vec<(u16, u16)>,
    pub impositions: Vec<(u16, Fact)>,
    pub begun: bool,
    pub settled: bool,
    /// Whether a yes took settled away and no close has changed anything since; only
    /// wrong versions look at it.
    pub was_taken: bool,
    /// The finds of all reports so far, whether one came after the latest close, and
    /// for each element the number of parents of the fact that it had first; only wrong
    /// versions look at these.
    pub found: usize,
    pub has_reported: bool,
    pub oldest: Vec<usize>,
    /// The facts that the close at work has added; between two calls only wrong versions
    /// look at it.
    pub added: usize,
}

/// A find's answer.
pub struct Find {
    pub root: u16,
    pub count: u16,
}

impl State {
    pub fn new(fault: Option<Fault>) -> Self {
        State {
            fault,
            types: Vec::new(),
            preds: Vec::new(),
            funcs: Vec::new(),
            models: Vec::new(),
            mor_apps: Vec::new(),
            links: Vec::new(),
            marks: Vec::new(),
            facts: Vec::new(),
            func_apps: Vec::new(),
            pred_apps: Vec::new(),
            vars: [None; 65],
            ambients: [None; 33],
            pairs: Vec::new(),
            impositions: Vec::new(),
            begun: false,
            settled: fault == Some(Fault::FreshIsSettled),
            was_taken: false,
            found: 0,
            has_reported: false,
            oldest: Vec::new(),
            added: 0,
        }
    }

    /// How many types, predicates, functions and elements there are.
    pub fn sizes(&self) -> [usize; 4] {
        [self.types.len(), self.preds.len(), self.funcs.len(), self.links.len()]
    }

    pub fn is(&self, fault: Fault) -> bool {
        self.fault == Some(fault)
    }

    pub fn link(&self, el: u16) -> u16 {
        self.links[usize::from(el)]
    }

    /// Finds the root and leaves the links.
    pub fn find(&self, el: u16) -> Find {
        let (mut root, mut count) = (el, 0);
        while self.link(root) != root {
            root = self.link(root);
            count += 1;
        }
        if self.is(Fault::FindCountsElements) {
            count += 1;
        }
        Find { root, count }
    }

    pub fn root(&self, el: u16) -> u16 {
        self.find(el).root
    }

    /// Finds the root; each element passed then links to what its former link
    /// linked to.
    pub fn find_and_shorten(&mut self, el: u16) -> Find {
        let find = self.find(el);
        let mut at = el;
        while self.link(at) != at {
            let next = self.link(at);
            self.links[usize::from(at)] =
                if self.is(Fault::RootShortensWhole) { find.root } else { self.link(next) };
            at = next;
        }
        find
    }

    pub fn roots(&self, els: &[u16]) -> Vec<u16> {
        els.iter().map(|&el| self.root(el)).collect()
    }

    pub fn fact_as_roots(&self, fact: &Fact) -> Fact {
        Fact { typ: fact.typ, parents: self.roots(&fact.parents) }
    }

    pub fn app_as_roots(&self, app: &App) -> App {
        App { head: app.head, parents: self.roots(&app.parents), args: self.roots(&app.args) }
    }

    /// Puts a fact into ordered facts; says whether it was new.
    pub fn insert_fact(&self, facts: &mut Vec<Fact>, fact: Fact) -> bool {
        match facts.binary_search_by(|other| self.fact_order(other, &fact)) {
            Ok(_) => false,
            Err(place) => {
                facts.insert(place, fact);
                true
            }
        }
    }

    fn fact_order(&self, a: &Fact, b: &Fact) -> Ordering {
        let first =
            if self.is(Fault::ParentsFirst) { a.parents.cmp(&b.parents) } else { Ordering::Equal };
        first.then_with(|| a.cmp(b))
    }

    /// The facts of an element's class with parents as roots.
    pub fn types_of(&self, el: u16) -> Vec<Fact> {
        let mut types = Vec::new();
        for fact in &self.facts[usize::from(self.root(el))] {
            let fact = self.fact_as_roots(fact);
            if self.is(Fault::StoredOrder) {
                types.push(fact);
            } else {
                self.insert_fact(&mut types, fact);
            }
        }
        types
    }

    /// The type with as many leading parents as it has, or absent.
    pub fn concrete_type_at(&self, typ: u16, parents: &[u16]) -> Option<Fact> {
        let count = self.types[usize::from(typ)].parents.len();
        if count > parents.len() || (self.is(Fault::ExactParents) && count != parents.len()) {
            return None;
        }
        let taken = if self.is(Fault::AllParents) { parents } else { &parents[..count] };
        Some(Fact { typ, parents: taken.to_vec() })
    }
}
