//! Random histories: most of them valid, some damaged.

use oracle::record::{Record, Table};
use oracle::stream::Entry;

use crate::history::{bytes, chained, record, History, Words};
use crate::rng::Rng;
use crate::settles::{as_many_closes, Copies};
use crate::{files, maps};

/// The history with this number under this seed.
pub fn entry(seed: u64, number: u64) -> Entry {
    // The files are random by themselves, so that the history is the same without them.
    let mut rng = Rng::new(!seed, number);
    let may_have_files = rng.percent(50);
    made(seed, number, may_have_files.then_some(rng))
}

fn made(seed: u64, number: u64, file_rng: Option<Rng>) -> Entry {
    let mut rng = Rng::new(seed, number);
    let sheet = rng.percent(50);
    let maker = Maker::new(&mut rng, !sheet);
    let mut history = maker.history();
    if rng.percent(25) {
        damage_records(&mut rng, &mut history.records);
    }
    if let Some(mut file_rng) = file_rng.filter(|_| !sheet) {
        files::scatter(&mut file_rng, &mut history);
    }
    // The structure after every record of a long history would be too much.
    let dumps = history.records.len() <= 60 && rng.percent(75);
    match (sheet, dumps) {
        (false, false) if rng.percent(80) => history.list_with_flags(),
        (false, false) => history.list(),
        (false, true) => history.list_with_dumps(),
        (true, _) => {
            history.records.truncate(1024);
            let bytes = sheet_bytes(&mut rng, &history);
            let plain = if dumps { history.sheet_with_dumps() } else { history.sheet() };
            Entry { bytes, ..plain }
        }
    }
}

/// Makes a valid history; it keeps count of what was declared.
struct Maker<'a> {
    rng: &'a mut Rng,
    history: History,
    /// Whether the history may hold finds and lookups.
    is_list: bool,
    /// The parent count and the kind of each type.
    types: Vec<(usize, u16)>,
    /// The parents and arguments of each predicate, function, and the functions
    /// that may not be applied.
    preds: Vec<(usize, usize)>,
    funcs: Vec<(usize, usize)>,
    barred: Vec<u16>,
    /// The functions of each model whose maps are composed, and their parents.
    maps: Vec<([u16; 4], usize)>,
    els: usize,
    /// How many elements in a hundred are marked.
    marks: usize,
    /// Elements are mostly taken from the first so many, so that they collide.
    near: usize,
}

impl<'a> Maker<'a> {
    fn new(rng: &'a mut Rng, is_list: bool) -> Self {
        let marks = rng.pick(&[0, 0, 20, 50, 100]);
        let near = rng.between(1, 6);
        Maker {
            rng,
            history: History::new(),
            is_list,
            types: Vec::new(),
            preds: Vec::new(),
            funcs: Vec::new(),
            barred: Vec::new(),
            maps: Vec::new(),
            els: 0,
            marks,
            near,
        }
    }

    fn history(mut self) -> History {
        let calls = match self.rng.below(300) {
            0 => {
                self.fill_with_facts();
                self.rng.between(10, 60)
            }
            1 => {
                self.fill_with_copies();
                self.rng.between(0, 20)
            }
            2..=4 => {
                self.declare();
                self.add_els(20, 256);
                self.rng.between(50, 700)
            }
            5..=24 => {
                self.settle_slowly();
                self.rng.between(0, 10)
            }
            25..=31 => {
                self.fill_with_maps();
                self.rng.between(0, 12)
            }
            32..=61 => {
                self.join_boxes();
                self.rng.between(0, 12)
            }
            62..=121 => {
                self.impose_several();
                self.rng.between(0, 15)
            }
            _ => {
                self.declare();
                self.add_els(1, 9);
                self.rng.between(2, 40)
            }
        };
        // One in five stays settled for a while, among the other calls or after them.
        let stay = self.rng.percent(20).then(|| self.rng.between(0, calls));
        for number in 0..=calls {
            if stay == Some(number) {
                self.stay_settled();
            }
            if number < calls {
                self.add_call();
            }
        }
        for _ in 0..self.rng.between(0, 3) {
            self.add_close();
        }
        if self.rng.percent(70) {
            self.history.conflicts();
        }
        self.history
    }

    fn declare(&mut self) {
        if self.rng.percent(30) {
            self.declare_for_joins();
        } else {
            self.declare_types();
            self.declare_relations();
        }
        if self.rng.percent(25) {
            self.declare_models();
        }
        if self.rng.percent(50) {
            self.declare_maps();
        }
        if !self.maps.is_empty() && self.rng.percent(15) {
            self.declare_maps();
        }
    }

    /// A structure that holds about as many facts as it can: a predicate gives
    /// four to each of almost all elements.
    fn fill_with_facts(&mut self) {
        self.declare_for_joins();
        for _ in 0..4 {
            self.types.push((0, 0));
            self.history.plain(&[]);
        }
        self.preds.push((0, 4));
        self.history.pred(&[], &[3, 4, 5, 6]);
        self.add_els(256, 256);
        for el in 0..self.rng.between(254, 256) as u16 {
            self.history.holds(2, &[], &[el, el, el, el]);
        }
        self.history.close();
    }

    /// A settle that takes some closes: one of as many closes as elements, its
    /// impositions in another order and with other calls among them.
    fn settle_slowly(&mut self) {
        let els = self.rng.between(3, 8);
        self.history = as_many_closes(els as u16);
        self.history.records.pop();
        self.types = vec![(1, 0); els - 1];
        self.types[0] = (0, 1);
        self.els = els;
        let last = self.history.records.len() - 1;
        let first = last + 1 - (2 * els - 3);
        for _ in 0..self.rng.between(0, 2) {
            let (one, other) = (self.rng.between(first, last), self.rng.between(first, last));
            self.history.records.swap(one, other);
        }
        for _ in 0..self.rng.between(0, 3) {
            self.add_call();
        }
        self.history.settle();
    }

    /// A structure that holds few facts and, in one of the closes of a settle, about
    /// as many as it can.
    fn fill_with_copies(&mut self) {
        let steps = self.rng.between(8, 20);
        let copies = Copies {
            levels: self.rng.between(0, 3) as u16,
            steps: steps as u16,
            apps: self.rng.between(1018, 1030).div_ceil(5 * (steps + 1)) as u16,
        };
        copies.prepare(&mut self.history);
        self.types = vec![(0, 1), (2, 0), (2, 0), (2, 0), (2, 0), (2, 0), (1, 0)];
        self.funcs = vec![(2, 4), (1, 0), (0, 1)];
        self.els = copies.els().into();
        for _ in 0..self.rng.between(0, 2) {
            self.add_call();
        }
        if self.rng.percent(50) {
            self.add_close();
        }
        copies.start(&mut self.history);
        for _ in 0..self.rng.between(0, 2) {
            self.add_call();
        }
        self.history.settle();
    }

    /// A structure in which laws need about as many applications or pairs as there is
    /// room for, at once, in the second close of a settle, or beside as many facts.
    fn fill_with_maps(&mut self) {
        self.types = vec![(0, 1), (0, 3), (1, 0)];
        self.funcs = vec![(0, 1), (0, 1), (0, 1), (0, 2), (0, 0)];
        let mut parents = 0;
        let fill = |h: &mut History, count: usize| _ = maps::fill(h, count as u16);
        match self.rng.below(7) {
            0 => {
                let count = self.rng.between(127, 131);
                self.history = maps::identities(count as u16);
                self.els = count + 1;
            }
            5 => {
                let count = self.rng.between(125, 130);
                self.history = maps::composites(count as u16);
                self.els = count + 4;
            }
            1 => {
                let count = self.rng.between(103, 128);
                self.history = maps::identities(count as u16);
                self.history.els(255 - count);
                self.els = 256;
                // Pairs of functionality.
                let others = self.rng.between(254, 259) - 2 * (count - 1);
                for el in 0..=others as u16 {
                    self.history.apply(maps::FILL, &[], &[130 + el], 190 + el);
                    self.history.equal(130, 130 + el);
                }
            }
            2 => {
                self.history = maps::signature();
                self.add_els(20, 40);
                fill(&mut self.history, self.rng.between(240, 255));
            }
            3 => {
                self.history = maps::many_facts();
                self.types = vec![(0, 1), (0, 3), (1, 0), (0, 0), (0, 0), (0, 0), (0, 0), (0, 0)];
                self.preds = vec![(0, 4)];
                self.els = 256;
                fill(&mut self.history, self.rng.between(250, 254));
                self.history.apply(maps::ID, &[], &[16], 17);
                for _ in 0..self.rng.between(0, 2) {
                    let arity = self.rng.between(0, 3);
                    self.history.holds(0, &[], &[255; 4][..arity]);
                }
            }
            6 => {
                let (chains, count) = (self.rng.between(2, 4), self.rng.between(3, 14));
                self.history = maps::chains_in_boxes(chains as u16, count as u16);
                self.history.records.truncate(self.history.records.len() - 3);
                self.types = vec![(0, 1), (1, 0), (0, 1), (0, 3)];
                self.funcs = vec![(2, 1), (2, 1), (2, 1), (2, 2)];
                self.preds = vec![(1, 1)];
                parents = 2;
                self.els = 4 * chains + count + 2;
            }
            _ => {
                self.history = maps::under_boxes();
                self.types = vec![(0, 1), (1, 0), (0, 1), (0, 3)];
                self.funcs = vec![(1, 1), (1, 1), (1, 1), (1, 2), (0, 0), (1, 0)];
                self.preds = vec![(1, 1)];
                parents = 1;
                self.history.els(17);
                self.history.marked_el().marked_el().els(2);
                self.els = 21;
                fill(&mut self.history, self.rng.between(248, 253));
                // Boxes 16, 17 and 18 join at the end of a close, some maps are in one
                // and some in another.
                for _ in 0..self.rng.between(2, 4) {
                    let [f, g, h] = [(); 3].map(|()| self.rng.below(8) as u16);
                    let (one, other) = (self.rng.between(16, 18), self.rng.between(16, 18));
                    self.history.apply(maps::COMP, &[one as u16], &[f, g], h);
                    let (func, x) = (self.rng.below(2) as u16, self.rng.below(21) as u16);
                    self.history.apply(func, &[other as u16], &[self.rng.pick(&[f, g, h])], x);
                }
                for _ in 0..self.rng.between(2, 3) {
                    let parent = self.rng.between(16, 18) as u16;
                    self.history.impose(19, 1, &[parent]);
                }
            }
        }
        self.maps = vec![([maps::DOM, maps::COD, maps::ID, maps::COMP], parents)];
        self.near = self.rng.pick(&[6, 30]);
        for _ in 0..self.rng.between(0, 2) {
            self.add_map();
        }
        if self.rng.percent(20) {
            self.add_call();
        }
        self.add_close();
    }

    /// Maps in boxes that join in typing, so that the laws of that round find keys and
    /// results that are no roots. The boxes may be maps themselves.
    fn join_boxes(&mut self) {
        self.history = maps::under_boxes();
        self.types = vec![(0, 1), (1, 0), (0, 1), (0, 3)];
        self.funcs = vec![(1, 1), (1, 1), (1, 1), (1, 2), (0, 0), (1, 0)];
        self.preds = vec![(1, 1)];
        self.maps = vec![([maps::DOM, maps::COD, maps::ID, maps::COMP], 1)];
        self.marks = self.rng.pick(&[30, 60]);
        self.near = self.rng.between(3, 6);
        self.add_els(6, 12);
        for _ in 0..self.rng.between(1, 2) {
            let part = self.an_el();
            for _ in 0..self.rng.between(2, 4) {
                let parent = self.an_el();
                match self.rng.below(5) {
                    0..=1 => _ = self.history.holds(0, &[parent], &[part]),
                    2..=3 => _ = self.history.apply(maps::PART, &[parent], &[], part),
                    _ => _ = self.history.impose(part, 1, &[parent]),
                }
            }
        }
        for _ in 0..self.rng.between(2, 7) {
            self.add_map();
        }
        if self.rng.percent(70) {
            self.add_close();
        }
    }

    /// Types of no to four parents, several of them on each of the first elements, and a
    /// report, whose finds go by the first one of each.
    fn impose_several(&mut self) {
        self.history.model(&[]);
        self.types = vec![(0, 1)];
        for _ in 0..self.rng.between(2, 6) {
            let count = self.rng.between(0, 4);
            self.history.plain(&[0; 4][..count]);
            self.types.push((count, 0));
        }
        let arity = [self.a_type(), self.a_type()];
        self.history.pred(&[0; 4], &arity);
        self.preds = vec![(4, 2)];
        self.add_els(3, 9);
        for el in 0..self.rng.between(1, self.els) as u16 {
            for _ in 0..self.rng.between(1, 3) {
                let typ = self.rng.between(1, self.types.len() - 1) as u16;
                let parents = self.impose_type(el, typ);
                // The same with other parents from some place on.
                if self.rng.percent(15) {
                    let same = self.rng.between(0, parents.len());
                    let others = self.some_els(parents.len() - same);
                    self.history.impose(el, typ, &[&parents[..same], &others].concat());
                }
            }
            if self.rng.percent(15) {
                self.add_predicate();
            }
        }
        self.add_close();
        self.history.conflicts();
    }

    fn add_els(&mut self, least: usize, most: usize) {
        for _ in 0..self.rng.between(least, most) {
            self.add_el();
        }
    }

    fn declare_types(&mut self) {
        for _ in 0..self.rng.between(1, 5) {
            let models: Vec<u16> = self.types_of_kind(1);
            let kind = match self.rng.below(10) {
                0..=4 => 0,
                5..=7 => 1,
                8 if !models.is_empty() => 3,
                _ => 2,
            };
            let model = if kind == 3 { self.rng.pick(&models) } else { 0 };
            let parents = self.some_types(2);
            self.types.push((parents.len(), kind));
            self.history.push(record(1, kind, model, &parents, &[]));
        }
    }

    /// Types under models and relations that give them, so that marked parents
    /// meet in typing.
    fn declare_for_joins(&mut self) {
        self.marks = self.marks.max(20);
        self.types = vec![(0, 1), (1, 0), (2, 0)];
        self.history.model(&[]).plain(&[0]).plain(&[0, 0]);
        self.preds = vec![(1, 1), (2, 2)];
        self.history.pred(&[0], &[1]).pred(&[0, 0], &[1, 2]);
        self.funcs = vec![(1, 0), (1, 1), (0, 1), (2, 1)];
        self.history.func(&[0], &[], 1).func(&[0], &[1], 1);
        self.history.func(&[], &[0], 0).func(&[0, 0], &[2], 2);
    }

    fn types_of_kind(&self, kind: u16) -> Vec<u16> {
        let types = self.types.iter().enumerate();
        let of_kind = types.filter(|(_, typ)| typ.1 == kind);
        of_kind.map(|(number, _)| number as u16).collect()
    }

    /// A list of declared types, mostly short.
    fn some_types(&mut self, usual: usize) -> Vec<u16> {
        if self.types.is_empty() {
            return Vec::new();
        }
        let most = if self.rng.percent(10) { 4 } else { usual };
        let count = self.rng.between(0, most);
        (0..count).map(|_| self.a_type()).collect()
    }

    fn a_type(&mut self) -> u16 {
        self.rng.below(self.types.len()) as u16
    }

    fn declare_relations(&mut self) {
        for _ in 0..self.rng.between(0, 3) {
            let (parents, arity) = (self.some_types(2), self.some_types(2));
            self.preds.push((parents.len(), arity.len()));
            self.history.pred(&parents, &arity);
        }
        for _ in 0..self.rng.between(0, 4) {
            let (parents, domain) = (self.some_types(2), self.some_types(2));
            let codomain = self.a_type();
            self.funcs.push((parents.len(), domain.len()));
            self.history.func(&parents, &domain, codomain);
        }
    }

    /// A model with its four functions, and sometimes a morphism application.
    fn declare_models(&mut self) {
        let Some(&model) = self.types_of_kind(1).last() else {
            return;
        };
        let mor = self.types.len() as u16;
        self.history.mor(model, &[]);
        self.types.push((0, 3));
        let first = self.funcs.len() as u16;
        for domain in [&[mor][..], &[mor], &[model], &[mor, mor], &[mor, 0]] {
            self.history.func(&[], domain, model);
            self.funcs.push((0, domain.len()));
        }
        let funcs = [first, first + 1, first + 2, first + 3];
        self.history.model_ids(model, mor, funcs);
        if self.rng.percent(30) {
            let member = self.a_type();
            self.history.mor_app(first + 4, mor, member);
            self.barred.extend([first + 2, first + 3, first + 4]);
        } else {
            self.maps.push((funcs, 0));
        }
    }

    /// A model whose maps are composed. Its functions come in any order; they have no
    /// parent or as many as the other relations, and mostly the types that they should.
    fn declare_maps(&mut self) {
        let count = self.rng.pick(&[0, 0, 1, 1, 2]);
        let models = self.types_of_kind(1);
        let parents: Vec<u16> = match models.first() {
            Some(&model) => vec![model; count],
            None => Vec::new(),
        };
        let under = if self.rng.percent(50) { &parents[..] } else { &[] };
        let model = self.types.len() as u16;
        let mor = model + 1;
        self.history.model(under).mor(model, under);
        self.types.extend([(under.len(), 1), (under.len(), 3)]);
        let mut order = [0, 1, 2, 3];
        for at in 1..4 {
            order.swap(at, self.rng.below(at + 1));
        }
        let first = self.funcs.len() as u16;
        let mut funcs = [0; 4];
        for (place, which) in order.into_iter().enumerate() {
            let (mut domain, mut codomain) = match which {
                2 => (vec![model], mor),
                3 => (vec![mor, mor], mor),
                _ => (vec![mor], model),
            };
            if self.rng.percent(20) {
                domain = self.some_types(2);
                codomain = self.a_type();
            }
            self.history.func(&parents, &domain, codomain);
            self.funcs.push((parents.len(), domain.len()));
            funcs[which] = first + place as u16;
        }
        self.history.model_ids(model, mor, funcs);
        self.maps.push((funcs, parents.len()));
        if self.rng.percent(4) {
            let func = self.funcs.len() as u16;
            self.history.func(&[], &[], model).mor_app(func, mor, model);
            self.funcs.push((0, 0));
        }
    }

    fn add_el(&mut self) {
        if self.rng.percent(self.marks) {
            self.history.marked_el();
        } else {
            self.history.el();
        }
        self.els += 1;
    }

    fn an_el(&mut self) -> u16 {
        let near = self.near.min(self.els);
        let among = if self.rng.percent(50) { near } else { self.els };
        self.rng.below(among) as u16
    }

    fn some_els(&mut self, count: usize) -> Vec<u16> {
        (0..count).map(|_| self.an_el()).collect()
    }

    /// The declared count, or sometimes another one.
    fn about(&mut self, count: usize) -> usize {
        if self.rng.percent(10) {
            self.rng.between(0, 4)
        } else {
            count
        }
    }

    fn add_call(&mut self) {
        let (a, b) = (self.an_el(), self.an_el());
        match self.rng.below(if self.is_list { 120 } else { 100 }) {
            0..=13 => _ = self.history.equal(a, b),
            14..=31 => self.add_imposition(a),
            32..=57 if !self.maps.is_empty() && self.rng.percent(70) => self.add_map(),
            32..=57 => self.add_application(),
            58..=67 => self.add_predicate(),
            68..=78 => self.add_close(),
            79..=85 => _ = self.history.conflicts(),
            86..=89 => _ = self.history.var(self.rng.below(6) as u16, a),
            90..=92 => _ = self.history.ambient(self.rng.below(6) as u16, a),
            93..=95 => self.add_el(),
            96..=99 => self.repeat_call(),
            100..=109 => _ = self.history.root(a),
            110..=112 => _ = self.history.root_const(a),
            113..=116 => {
                let parents = self.some_els(4);
                let count = self.rng.between(0, 4);
                let typ = self.a_type();
                _ = self.history.type_lookup(typ, &parents[..count]);
            }
            _ => {
                let types = self.some_types(3);
                _ = self.history.ambient_lookup(&types);
            }
        }
    }

    /// A close, or a settle in its place.
    fn add_close(&mut self) {
        if self.rng.percent(40) {
            self.history.settle();
        } else {
            self.history.close();
        }
    }

    /// Settles and goes on with calls that mostly leave it so: what was declared
    /// before, as it was given or by other names, equalities within a class, and calls
    /// that declare nothing; now and then something new, and a close after it.
    fn stay_settled(&mut self) {
        self.history.settle();
        let classes = self.classes();
        for _ in 0..self.rng.between(2, 16) {
            let (a, key) = (self.an_el(), self.rng.below(64) as u16);
            match self.rng.below(if self.is_list { 120 } else { 100 }) {
                0..=34 => self.declare_again(&classes),
                35..=49 => {
                    let (a, b) = (self.a_name(&classes, a), self.a_name(&classes, a));
                    self.history.equal(a, b);
                }
                50..=59 => self.add_el(),
                60..=67 => _ = self.history.var(key, a),
                68..=73 => _ = self.history.ambient(key % 6, a),
                74..=80 => _ = self.history.conflicts(),
                81..=88 => self.add_close(),
                89..=90 => _ = self.history.equal(a, self.els as u16 - 1),
                91..=93 => self.add_imposition(a),
                94..=97 if !self.maps.is_empty() && self.rng.percent(70) => self.add_map(),
                94..=97 => self.add_application(),
                98..=99 => self.add_predicate(),
                100..=104 => _ = self.history.root(a),
                105..=107 => _ = self.history.root_const(a),
                108..=109 => {
                    let typ = self.a_type();
                    self.history.type_lookup(typ, &[a]);
                }
                110..=111 => {
                    let types = self.some_types(3);
                    self.history.ambient_lookup(&types);
                }
                // An earlier record with a word that is mostly refused.
                _ => {
                    let mut words = self.rng.pick(&self.history.records);
                    words[self.rng.between(2, 15)] = 300;
                    self.history.push(words);
                }
            }
        }
        if self.rng.percent(60) {
            self.add_close();
        }
    }

    /// For each element the least one that the equalities so far put together with it.
    /// Applications and marks may join more.
    fn classes(&self) -> Vec<u16> {
        let mut least: Vec<u16> = (0..self.els as u16).collect();
        for words in self.history.records.iter().filter(|words| words[1] == 7) {
            let of = |word: usize| least.get(usize::from(words[word])).copied();
            if let (Some(a), Some(b)) = (of(2), of(3)) {
                for class in least.iter_mut().filter(|class| **class == a.max(b)) {
                    *class = a.min(b);
                }
            }
        }
        least
    }

    /// An element of the same class.
    fn a_name(&mut self, classes: &[u16], el: u16) -> u16 {
        let Some(class) = classes.get(usize::from(el)) else {
            return el;
        };
        let els = 0..classes.len() as u16;
        let names: Vec<u16> = els.filter(|&el| classes[usize::from(el)] == *class).collect();
        self.rng.pick(&names)
    }

    /// An earlier equality, imposition or application once more, half of the time with
    /// other names.
    fn declare_again(&mut self, classes: &[u16]) {
        let records = self.history.records.iter().copied();
        let declared: Vec<Words> = records.filter(|words| (7..=10).contains(&words[1])).collect();
        if declared.is_empty() {
            return;
        }
        let mut words = self.rng.pick(&declared);
        if self.rng.percent(50) {
            let record = Record { words };
            for (word, table) in record.naming_words() {
                if table == Table::Els {
                    words[word] = self.a_name(classes, words[word]);
                }
            }
        }
        self.history.push(words);
    }

    fn add_imposition(&mut self, el: u16) {
        let typ = self.a_type();
        self.impose_type(el, typ);
    }

    /// Imposes a type; gives its parents. Now and then there is one less than the type
    /// has, or one more: less often in a sheet, which ends there.
    fn impose_type(&mut self, el: u16, typ: u16) -> Vec<u16> {
        let declared = self.types[usize::from(typ)].0;
        let count = match self.rng.below(if self.is_list { 80 } else { 300 }) {
            0 => declared.saturating_sub(1),
            1 => (declared + 1).min(4),
            _ => declared,
        };
        let parents = self.some_els(count);
        self.history.impose(el, typ, &parents);
        parents
    }

    fn add_application(&mut self) {
        let func = self.rng.below(self.funcs.len().max(1)) as u16;
        let is_barred = self.barred.contains(&func) && !self.rng.percent(3);
        if self.funcs.is_empty() || is_barred {
            return self.add_el();
        }
        let (parents, args) = self.funcs[usize::from(func)];
        let (parents, args) = (self.about(parents), self.about(args));
        let (parents, args) = (self.some_els(parents), self.some_els(args));
        let result = self.an_el();
        self.history.apply(func, &parents, &args, result);
    }

    /// Maps of a model: what one of them is, a chain of composites, or identities with
    /// one result.
    fn add_map(&mut self) {
        let ([dom, cod, id, comp], count) = self.rng.pick(&self.maps);
        let count = if self.rng.percent(4) { self.rng.between(0, 4) } else { count };
        let parents = self.some_els(count);
        let [a, b, c] = [(); 3].map(|()| self.an_el());
        match self.rng.below(20) {
            0..=3 => _ = self.history.apply(id, &parents, &[a], b),
            4..=9 => _ = self.history.apply(comp, &parents, &[a, b], c),
            10..=13 => _ = self.history.apply(dom, &parents, &[a], b),
            14..=16 => _ = self.history.apply(cod, &parents, &[a], b),
            17 => {
                // Each map is the one before it, or after it, composed with another.
                let length = self.rng.between(2, 8);
                let chain = self.some_els(length);
                let is_first = self.rng.percent(50);
                for pair in chain.windows(2) {
                    let args = if is_first { [pair[0], a] } else { [a, pair[0]] };
                    self.history.apply(comp, &parents, &args, pair[1]);
                }
                let func = if is_first { dom } else { cod };
                let end = self.rng.pick(&[chain[0], chain[length - 1]]);
                self.history.apply(func, &parents, &[end], b);
            }
            18 => {
                for _ in 0..self.rng.between(2, 5) {
                    let el = self.an_el();
                    self.history.apply(id, &parents, &[el], a);
                }
            }
            _ => {
                let (func, count) = (self.rng.pick(&[id, comp]), self.rng.between(0, 4));
                let args = self.some_els(count);
                self.history.apply(func, &parents, &args, b);
            }
        }
    }

    fn add_predicate(&mut self) {
        if self.preds.is_empty() {
            return self.add_el();
        }
        let pred = self.rng.below(self.preds.len());
        let (parents, args) = self.preds[pred];
        let (parents, args) = (self.about(parents), self.about(args));
        let (parents, args) = (self.some_els(parents), self.some_els(args));
        self.history.holds(pred as u16, &parents, &args);
    }

    /// An earlier call once more; an application with another result.
    fn repeat_call(&mut self) {
        let mut words = self.rng.pick(&self.history.records);
        if words[1] < 6 {
            return;
        }
        if words[1] == 9 {
            words[3] = self.an_el();
        }
        self.els += usize::from(words[1] == 6);
        self.history.push(words);
    }
}

/// Alters one to three records, or moves, repeats or drops one.
fn damage_records(rng: &mut Rng, records: &mut Vec<Words>) {
    for _ in 0..rng.between(1, 3) {
        if records.is_empty() {
            return;
        }
        let (one, other) = (rng.below(records.len()), rng.below(records.len()));
        match rng.below(10) {
            0 => records.swap(one, other),
            1 => records.insert(one, records[other]),
            2 => _ = records.remove(one),
            _ => {
                let word = rng.between(1, 15);
                let old = records[one][word];
                records[one][word] = match rng.below(7) {
                    0 => old.wrapping_add(1),
                    1 => old.wrapping_sub(1),
                    2 => u16::MAX,
                    3 => rng.below(1 << 16) as u16,
                    _ => rng.below(17) as u16,
                };
            }
        }
    }
}

/// The bytes of a sheet: chained in order, or jumping, or damaged.
fn sheet_bytes(rng: &mut Rng, history: &History) -> Vec<u8> {
    let mut records = chained(&history.records);
    match rng.below(20) {
        0..=4 => records = scattered(rng, &history.records),
        5 if !records.is_empty() => {
            let at = rng.below(records.len());
            records[at][0] = rng.below(records.len() + 2) as u16;
        }
        _ => {}
    }
    let mut bytes = bytes(&records);
    match rng.below(60) {
        0 => bytes.truncate(rng.below(bytes.len() + 1)),
        1 => bytes.extend(vec![0; rng.between(1, 64)]),
        2 if !bytes.is_empty() => {
            let at = rng.below(bytes.len());
            bytes[at] = rng.below(256) as u8;
        }
        _ => {}
    }
    bytes
}

/// The records at shuffled places, record 0 first, with some that no chain
/// visits between them.
fn scattered(rng: &mut Rng, records: &[Words]) -> Vec<Words> {
    let spare = rng.below(4).min(1024 - records.len());
    let size = records.len() + spare;
    let mut places: Vec<usize> = (0..size).collect();
    for at in 1..size {
        let other = rng.between(1, at);
        places.swap(at, other);
    }
    let mut sheet = vec![[u16::MAX; 16]; size];
    for (at, words) in records.iter().enumerate() {
        let mut words = *words;
        words[0] = if at + 1 < records.len() { places[at + 1] as u16 } else { 0 };
        sheet[places[at]] = words;
    }
    sheet
}
