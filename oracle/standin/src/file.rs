//! Files, after docs/FILE.md: a second writer and a second reader. What stands in a file
//! is read into rows, and each thing that it can be refused for is looked for by itself.

use std::cmp::Ordering;
use std::fmt;

use crate::faults::Fault;
use crate::state::{App, Fact, Relation, State, Words};

/// A table of a file, in the order of the head.
#[derive(Copy, Clone, Debug, PartialEq, Eq)]
pub enum Table {
    Els,
    Facts,
    FuncApps,
    PredApps,
    Impositions,
    Vars,
    Ambients,
    Pairs,
}

use Table::{Ambients, Els, Facts, FuncApps, Impositions, Pairs, PredApps, Vars};

/// The tables with the most rows that each may have, and the bytes of a row.
const TABLES: [(Table, usize, usize); 8] = [
    (Els, 256, 4),
    (Facts, 1024, 8),
    (FuncApps, 256, 12),
    (PredApps, 256, 11),
    (Impositions, 64, 7),
    (Vars, 64, 2),
    (Ambients, 32, 2),
    (Pairs, 256, 2),
];

/// The bytes of the head, and those of the flags.
const HEAD: usize = 16;
const FLAGS: usize = 2;

/// Entries of a list at most.
const PLACES: usize = 4;

/// What a file can be refused for.
#[derive(Copy, Clone, Debug, PartialEq, Eq)]
pub enum Trouble {
    /// Too short for a head.
    NoHead,
    /// Shorter, or longer, than its counts say.
    TooShort,
    TooLong,
    /// A count over its limit.
    Count(Table),
    /// A list of more entries than it has places: the parents (0) or the arguments (1).
    ListCount(Table, usize),
    /// A byte for yes or no that is neither 1 nor 0.
    Mark,
    Settled,
    Started,
    /// The flag for number 4 is 0 beside an entry, or beside settled.
    UnstartedEntry,
    UnstartedSettled,
    /// An entry whose call is refused with this number.
    Entry(Table, u16),
    /// A link to a higher element.
    Link,
    /// A fact on an element that is no root.
    OffRoot,
    /// The index of an element's first fact, or of a fact's next one, is another.
    First,
    Next,
    /// An entry that comes before the one that it follows, or equals it.
    Order(Table),
    Twice(Table),
    /// A place past the end of its list that is not zero.
    Unused(Table, usize),
    /// What only wrong versions refuse.
    Strict,
}

impl fmt::Display for Table {
    fn fmt(&self, f: &mut fmt::Formatter) -> fmt::Result {
        f.write_str(match self {
            Els => "elements",
            Facts => "facts",
            FuncApps => "function applications",
            PredApps => "predicate applications",
            Impositions => "impositions",
            Vars => "variables",
            Ambients => "ambient elements",
            Pairs => "pairs",
        })
    }
}

/// As docs/FILE.md and tools/park_cases.txt say it.
impl fmt::Display for Trouble {
    fn fmt(&self, f: &mut fmt::Formatter) -> fmt::Result {
        let most = |table| TABLES.into_iter().find(|entry| entry.0 == table).map(|entry| entry.1);
        match self {
            Trouble::NoHead => write!(f, "no room for the head"),
            Trouble::TooShort => write!(f, "fewer bytes than the counts say"),
            Trouble::TooLong => write!(f, "more bytes than the counts say"),
            Trouble::Count(table) => {
                write!(f, "more {table} than {}", most(*table).unwrap_or_default())
            }
            Trouble::ListCount(table, 0) => write!(f, "a parent count over 4 in {table}"),
            Trouble::ListCount(table, _) => write!(f, "an argument count over 4 in {table}"),
            Trouble::Mark => write!(f, "a mark that is neither 0 nor 1"),
            Trouble::Settled => write!(f, "settled that is neither 0 nor 1"),
            Trouble::Started => write!(f, "a flag for number 4 that is neither 0 nor 1"),
            Trouble::UnstartedEntry => write!(f, "the flag for number 4 not set beside an entry"),
            Trouble::UnstartedSettled => write!(f, "the flag for number 4 not set beside settled"),
            Trouble::Entry(table, number) => {
                write!(f, "an entry of {table} whose call is refused with {number}")
            }
            Trouble::Link => write!(f, "a link to a higher element"),
            Trouble::OffRoot => write!(f, "a fact on an element that is no root"),
            Trouble::First => write!(f, "a broken chain, at a first index"),
            Trouble::Next => write!(f, "a broken chain, at a next index"),
            Trouble::Order(table) => write!(f, "{table} not in order"),
            Trouble::Twice(table) => write!(f, "{table} twice"),
            Trouble::Unused(table, 0) => {
                write!(f, "a nonzero unused byte in the parents of {table}")
            }
            Trouble::Unused(table, _) => {
                write!(f, "a nonzero unused byte in the arguments of {table}")
            }
            Trouble::Strict => write!(f, "what a wrong version refuses"),
        }
    }
}

impl Trouble {
    pub fn number(self) -> u16 {
        match self {
            Trouble::NoHead | Trouble::TooShort | Trouble::TooLong => 13,
            _ => 14,
        }
    }
}

/// What stands in a file, table by table.
#[derive(Default)]
struct Content {
    links: Vec<u8>,
    facts: Vec<Vec<u8>>,
    nexts: Vec<u16>,
    func_apps: Vec<Vec<u8>>,
    pred_apps: Vec<Vec<u8>>,
    impositions: Vec<Vec<u8>>,
    vars: Vec<Vec<u8>>,
    ambients: Vec<Vec<u8>>,
    marks: Vec<u8>,
    pairs: Vec<Vec<u8>>,
    firsts: Vec<u16>,
    settled: u8,
    started: u8,
}

// Reading.

/// Takes parts off the front of a file that is long enough.
struct Parts<'a>(&'a [u8]);

impl Parts<'_> {
    fn bytes(&mut self, count: usize) -> Vec<u8> {
        let (part, rest) = self.0.split_at(count);
        self.0 = rest;
        part.to_vec()
    }

    fn words(&mut self, count: usize) -> Vec<u16> {
        let bytes = self.bytes(2 * count);
        bytes.chunks(2).map(|pair| u16::from(pair[0]) + 256 * u16::from(pair[1])).collect()
    }

    fn rows(&mut self, columns: usize, count: usize) -> Vec<Vec<u8>> {
        let bytes = self.bytes(columns * count);
        let row = |at: usize| (0..columns).map(|column| bytes[column * count + at]).collect();
        (0..count).map(row).collect()
    }
}

/// The counts of a file that has a head.
fn head(file: &[u8]) -> Vec<usize> {
    Parts(file).words(TABLES.len()).into_iter().map(usize::from).collect()
}

fn length(counts: &[usize]) -> usize {
    let rows = counts.iter().zip(TABLES).map(|(count, (_, _, width))| count * width);
    HEAD + rows.sum::<usize>() + FLAGS
}

fn content(file: &[u8]) -> Content {
    let counts = head(file);
    let mut parts = Parts(&file[HEAD..]);
    Content {
        links: parts.bytes(counts[0]),
        facts: parts.rows(6, counts[1]),
        nexts: parts.words(counts[1]),
        func_apps: parts.rows(12, counts[2]),
        pred_apps: parts.rows(11, counts[3]),
        impositions: parts.rows(7, counts[4]),
        vars: parts.rows(2, counts[5]),
        ambients: parts.rows(2, counts[6]),
        marks: parts.bytes(counts[0]),
        pairs: parts.rows(2, counts[7]),
        firsts: parts.words(counts[0]),
        settled: parts.bytes(1)[0],
        started: parts.bytes(1)[0],
    }
}

/// The places of the list that begins at `at` in a row, and its count.
fn places(row: &[u8], at: usize) -> (&[u8], usize) {
    (&row[at..at + PLACES], row[at + PLACES].into())
}

/// The entries of a list. One that is too long has those of its places.
fn list(row: &[u8], at: usize) -> Vec<u16> {
    let (places, count) = places(row, at);
    places[..count.min(PLACES)].iter().map(|&entry| entry.into()).collect()
}

fn fact_in(row: &[u8]) -> Fact {
    Fact { typ: row[0].into(), parents: list(row, 1) }
}

fn app_in(row: &[u8]) -> App {
    App { head: row[0].into(), parents: list(row, 1), args: list(row, 6) }
}

fn imposition_in(row: &[u8]) -> (u16, Fact) {
    (row[0].into(), Fact { typ: row[1].into(), parents: list(row, 2) })
}

fn pair_in(row: &[u8]) -> (u16, u16) {
    (row[0].into(), row[1].into())
}

fn record(kind: u16, a: u16, b: u16, parents: &[u16], args: &[u16]) -> Words {
    let mut words = [0; 16];
    words[1..6].copy_from_slice(&[kind, a, b, parents.len() as u16, args.len() as u16]);
    words[6..6 + parents.len()].copy_from_slice(parents);
    words[10..10 + args.len()].copy_from_slice(args);
    words
}

/// A call with the counts that the row has, where its lists begin at these places.
fn with_counts(mut call: Words, row: &[u8], lists: &[usize]) -> Words {
    for (which, &at) in lists.iter().enumerate() {
        call[4 + which] = places(row, at).1 as u16;
    }
    call
}

/// The index of each element's first fact, where the facts are of these elements.
fn firsts(els: usize, owners: &[usize]) -> Vec<u16> {
    let first = |el: usize| owners.iter().position(|&owner| owner == el);
    (0..els).map(|el| first(el).map_or(0, |place| place as u16 + 1)).collect()
}

/// The index of each fact's next one.
fn nexts(owners: &[usize]) -> Vec<u16> {
    let is_last = |place: usize| owners.get(place + 1) != Some(&owners[place]);
    let places = 0..owners.len();
    places.map(|place| if is_last(place) { 0 } else { place as u16 + 2 }).collect()
}

fn find_disorder<T: Ord>(table: Table, entries: Vec<T>, found: &mut Vec<Trouble>) {
    for pair in entries.windows(2) {
        match pair[0].cmp(&pair[1]) {
            Ordering::Less => {}
            Ordering::Equal => found.push(Trouble::Twice(table)),
            Ordering::Greater => found.push(Trouble::Order(table)),
        }
    }
}

impl Content {
    /// The element of each fact: facts stand by element, so it is the last one whose
    /// chain begins there or before.
    fn owners(&self) -> Vec<usize> {
        let owner = |index: u16| {
            let is_begun = |first: &u16| *first != 0 && *first <= index;
            self.firsts.iter().rposition(is_begun).unwrap_or(0)
        };
        (1..=self.facts.len() as u16).map(owner).collect()
    }

    fn find_bad_lists(&self, found: &mut Vec<Trouble>) {
        let tables: [(Table, &[Vec<u8>], &[usize]); 4] = [
            (Facts, &self.facts, &[1]),
            (FuncApps, &self.func_apps, &[1, 6]),
            (PredApps, &self.pred_apps, &[1, 6]),
            (Impositions, &self.impositions, &[2]),
        ];
        for (table, rows, lists) in tables {
            for row in rows {
                for (which, &at) in lists.iter().enumerate() {
                    let (places, count) = places(row, at);
                    if count > PLACES {
                        found.push(Trouble::ListCount(table, which));
                    } else if places[count..].iter().any(|&byte| byte != 0) {
                        found.push(Trouble::Unused(table, which));
                    }
                }
            }
        }
    }

    fn find_bad_bits(&self, found: &mut Vec<Trouble>) {
        let are_bad = |bits: &[u8]| bits.iter().any(|&bit| bit > 1);
        for (bits, trouble) in [
            (&self.marks[..], Trouble::Mark),
            (&[self.settled], Trouble::Settled),
            (&[self.started], Trouble::Started),
        ] {
            if are_bad(bits) {
                found.push(trouble);
            }
        }
    }

    fn find_bad_chains(&self, owners: &[usize], found: &mut Vec<Trouble>) {
        if self.firsts != firsts(self.links.len(), owners) {
            found.push(Trouble::First);
        }
        if self.nexts != nexts(owners) {
            found.push(Trouble::Next);
        }
    }

    fn find_other_order(&self, owners: &[usize], found: &mut Vec<Trouble>) {
        fn each<T>(rows: &[Vec<u8>], entry: fn(&[u8]) -> T) -> Vec<T> {
            rows.iter().map(|row| entry(row)).collect()
        }
        let facts = owners.iter().zip(each(&self.facts, fact_in));
        find_disorder(Facts, facts.collect(), found);
        find_disorder(FuncApps, each(&self.func_apps, app_in), found);
        find_disorder(PredApps, each(&self.pred_apps, app_in), found);
        find_disorder(Vars, each(&self.vars, |row| row[0]), found);
        find_disorder(Ambients, each(&self.ambients, |row| row[0]), found);
    }

    /// The calls that the entries are.
    fn calls(&self, owners: &[usize]) -> Vec<(Table, Words)> {
        let mut calls = Vec::new();
        for (row, &el) in self.facts.iter().zip(owners) {
            let Fact { typ, parents } = fact_in(row);
            calls.push((Facts, with_counts(record(8, el as u16, typ, &parents, &[]), row, &[1])));
        }
        for row in &self.func_apps {
            let App { head, parents, args } = app_in(row);
            let call = record(9, head, row[11].into(), &parents, &args);
            calls.push((FuncApps, with_counts(call, row, &[1, 6])));
        }
        for row in &self.pred_apps {
            let App { head, parents, args } = app_in(row);
            let call = record(10, head, 0, &parents, &args);
            calls.push((PredApps, with_counts(call, row, &[1, 6])));
        }
        for row in &self.impositions {
            let (el, Fact { typ, parents }) = imposition_in(row);
            calls.push((Impositions, with_counts(record(8, el, typ, &parents, &[]), row, &[2])));
        }
        for (table, kind, rows) in
            [(Vars, 11, &self.vars), (Ambients, 12, &self.ambients), (Pairs, 7, &self.pairs)]
        {
            for row in rows {
                let (a, b) = pair_in(row);
                calls.push((table, record(kind, a, b, &[], &[])));
            }
        }
        calls
    }

    fn is_root(&self, el: usize) -> bool {
        self.links.get(el).is_some_and(|&link| usize::from(link) == el)
    }
}

impl State {
    /// What a file is refused for under this signature, each thing that applies. Nothing
    /// is read from a file whose length is not that of its counts.
    pub fn troubles(&self, file: &[u8]) -> Vec<Trouble> {
        if file.len() < HEAD {
            return vec![Trouble::NoHead];
        }
        let counts = head(file);
        match file.len().cmp(&length(&counts)) {
            Ordering::Less => return vec![Trouble::TooShort],
            Ordering::Greater => return vec![Trouble::TooLong],
            Ordering::Equal => {}
        }
        let content = content(file);
        let owners = content.owners();
        let mut found = Vec::new();
        for ((table, most, _), &count) in TABLES.into_iter().zip(&counts) {
            if count > most {
                found.push(Trouble::Count(table));
            }
        }
        content.find_bad_lists(&mut found);
        content.find_bad_bits(&mut found);
        if content.started == 0 && counts.iter().any(|&count| count > 0) {
            found.push(Trouble::UnstartedEntry);
        }
        if content.started == 0 && content.settled == 1 {
            found.push(Trouble::UnstartedSettled);
        }
        let alone = self.with_els_alone(counts[0]);
        let mut before = None;
        for (table, mut call) in content.calls(&owners) {
            self.cut_counts(table, &mut call);
            let is_first = before.replace(table) != Some(table);
            let is_too_long = call[4..6].iter().any(|&count| usize::from(count) > PLACES);
            match alone.refusal(&call) {
                // That was found above.
                Some(3) if is_too_long => {}
                Some(15) if self.overlooks_parents(table, is_first, &call) => {}
                Some(number) => found.push(Trouble::Entry(table, number)),
                None => {}
            }
        }
        if content.links.iter().enumerate().any(|(el, &link)| usize::from(link) > el) {
            found.push(Trouble::Link);
        }
        if owners.iter().any(|&el| !content.is_root(el)) {
            found.push(Trouble::OffRoot);
        }
        content.find_bad_chains(&owners, &mut found);
        content.find_other_order(&owners, &mut found);
        self.find_strictly(&content, &mut found);
        found
    }

    /// The structure of a file, or the number that refuses it.
    pub fn load(&self, file: &[u8]) -> Result<State, u16> {
        let mut file = file.to_vec();
        self.mend_length(&mut file);
        let mut found = self.troubles(&file);
        let unreadable = found.iter().any(|&trouble| leads_nowhere(trouble));
        found.retain(|&trouble| !self.overlooks(trouble));
        if let Some(trouble) = found.first() {
            return Err(self.number_of(*trouble, &file));
        }
        // A wrong version accepted numbers of nothing. That shows in its answer.
        Ok(if unreadable { self.clone() } else { self.with_content(&content(&file)) })
    }

    /// The signature alone.
    fn with_nothing(&self) -> State {
        State {
            types: self.types.clone(),
            preds: self.preds.clone(),
            funcs: self.funcs.clone(),
            models: self.models.clone(),
            mor_apps: self.mor_apps.clone(),
            ..State::new(self.fault)
        }
    }

    /// The signature and so many elements, each a root.
    fn with_els_alone(&self, count: usize) -> State {
        State { links: (0..count as u16).collect(), begun: true, ..self.with_nothing() }
    }

    fn with_content(&self, content: &Content) -> State {
        let els = content.links.len();
        let mut state = State {
            links: content.links.iter().map(|&link| link.into()).collect(),
            marks: content.marks.iter().map(|&mark| mark != 0).collect(),
            facts: vec![Vec::new(); els],
            func_apps: content
                .func_apps
                .iter()
                .map(|row| (app_in(row), u16::from(row[11])))
                .collect(),
            pred_apps: content.pred_apps.iter().map(|row| app_in(row)).collect(),
            pairs: content.pairs.iter().map(|row| pair_in(row)).collect(),
            impositions: content.impositions.iter().map(|row| imposition_in(row)).collect(),
            begun: content.started != 0,
            settled: content.settled != 0,
            oldest: vec![0; els],
            ..self.with_nothing()
        };
        for (row, el) in content.facts.iter().zip(content.owners()) {
            state.facts[el].push(fact_in(row));
        }
        for row in &content.vars {
            let (key, el) = pair_in(row);
            state.vars[usize::from(key)] = Some(el);
        }
        for row in &content.ambients {
            let (typ, el) = pair_in(row);
            state.ambients[usize::from(typ)] = Some(el);
        }
        self.alter_loaded(&mut state);
        state
    }
}

// Writing.

impl State {
    /// The file of the structure.
    pub fn store(&self) -> Vec<u8> {
        let content = self.content();
        let counts = [
            content.links.len(),
            content.facts.len(),
            content.func_apps.len(),
            content.pred_apps.len(),
            content.impositions.len(),
            content.vars.len(),
            content.ambients.len(),
            content.pairs.len(),
        ];
        let mut file = Vec::new();
        self.put_words(&mut file, &counts.map(|count| count as u16));
        file.extend(&content.links);
        self.put_rows(&mut file, &content.facts);
        self.put_words(&mut file, &content.nexts);
        self.put_rows(&mut file, &content.func_apps);
        self.put_rows(&mut file, &content.pred_apps);
        self.put_rows(&mut file, &content.impositions);
        self.put_rows(&mut file, &content.vars);
        self.put_rows(&mut file, &content.ambients);
        if self.is(Fault::MarksAfterPairs) {
            self.put_rows(&mut file, &content.pairs);
            file.extend(&content.marks);
        } else {
            file.extend(&content.marks);
            self.put_rows(&mut file, &content.pairs);
        }
        self.put_words(&mut file, &content.firsts);
        if self.is(Fault::FlagsSwapped) {
            file.extend([content.started, content.settled]);
        } else {
            file.extend([content.settled, content.started]);
        }
        file
    }

    fn put_words(&self, file: &mut Vec<u8>, words: &[u16]) {
        for word in words {
            let bytes = [(word % 256) as u8, (word / 256) as u8];
            file.extend(if self.is(Fault::HighByteFirst) { [bytes[1], bytes[0]] } else { bytes });
        }
    }

    fn put_rows(&self, file: &mut Vec<u8>, rows: &[Vec<u8>]) {
        if self.is(Fault::RowByRow) {
            file.extend(rows.concat());
            return;
        }
        let columns = rows.first().map_or(0, Vec::len);
        for column in 0..columns {
            file.extend(rows.iter().map(|row| row[column]));
        }
    }

    /// A list in its places, and its count.
    fn places(&self, list: &[u16]) -> Vec<u8> {
        let mut row: Vec<u8> = list.iter().map(|&entry| entry as u8).collect();
        row.resize(PLACES, if self.is(Fault::UnusedFilled) { 255 } else { 0 });
        let at = if self.is(Fault::ListCountFirst) { 0 } else { PLACES };
        row.insert(at, list.len() as u8);
        row
    }

    fn fact_row(&self, fact: &Fact) -> Vec<u8> {
        [&[fact.typ as u8][..], &self.places(&fact.parents)].concat()
    }

    fn app_row(&self, app: &App) -> Vec<u8> {
        [&[app.head as u8][..], &self.places(&app.parents), &self.places(&app.args)].concat()
    }

    fn content(&self) -> Content {
        let state = &self.as_stored();
        let mut facts = Vec::new();
        for (el, of_el) in state.facts.iter().enumerate() {
            facts.extend(of_el.iter().map(|fact| (el, fact)));
        }
        if self.is(Fault::FactsByType) {
            facts.sort_by_key(|&(el, fact)| (fact.clone(), el));
        }
        let owners: Vec<usize> = facts.iter().map(|&(el, _)| el).collect();
        let pair = |(a, b): (u16, u16)| vec![a as u8, b as u8];
        let given = |els: &[Option<u16>]| -> Vec<Vec<u8>> {
            let given = (0..).zip(els).filter_map(|(key, el)| el.map(|el| pair((key, el))));
            given.collect()
        };
        Content {
            links: state.links.iter().map(|&link| link as u8).collect(),
            facts: facts.iter().map(|(_, fact)| self.fact_row(fact)).collect(),
            nexts: self.stored_nexts(&owners),
            func_apps: state
                .func_apps
                .iter()
                .map(|(app, result)| self.func_app_row(app, *result as u8))
                .collect(),
            pred_apps: state.pred_apps.iter().map(|app| self.app_row(app)).collect(),
            impositions: state
                .impositions
                .iter()
                .map(|(el, fact)| [&[*el as u8][..], &self.fact_row(fact)].concat())
                .collect(),
            vars: given(&state.vars),
            ambients: given(&state.ambients),
            marks: state.marks.iter().map(|&mark| mark.into()).collect(),
            pairs: state.pairs.iter().copied().map(pair).collect(),
            firsts: self.stored_firsts(state.links.len(), &owners),
            settled: state.settled.into(),
            started: state.begun.into(),
        }
    }

    fn func_app_row(&self, app: &App, result: u8) -> Vec<u8> {
        let mut row = self.app_row(app);
        let at = if self.is(Fault::ResultsBeforeArguments) { 6 } else { row.len() };
        row.insert(at, result);
        row
    }
}

// Wrong versions.

/// Elements by key that were there, where they are still elements and no others came.
fn keep(before: &[Option<u16>], after: &mut [Option<u16>], els: usize) {
    for (el, was) in after.iter_mut().zip(before) {
        *el = el.or(was.filter(|&was| usize::from(was) < els));
    }
}

/// Whether what a file says in spite of this cannot be held in a structure.
fn leads_nowhere(trouble: Trouble) -> bool {
    matches!(trouble, Trouble::Link | Trouble::Entry(_, 5) | Trouble::Entry(Vars, 3))
}

impl State {
    /// The structure as it is stored.
    fn as_stored(&self) -> State {
        use Fault::*;
        let mut state = self.clone();
        match self.fault {
            Some(StoreLosesSettled) => state.settled = false,
            Some(StoreLosesStarted) => state.begun = false,
            Some(StoreSetsStarted) => state.begun = true,
            Some(StoreLosesMarks) => state.marks.fill(false),
            Some(StoreLosesMarksOffRoots) => {
                for el in 0..self.links.len() {
                    state.marks[el] &= usize::from(self.links[el]) == el;
                }
            }
            Some(PairsNewestFirst) => state.pairs.reverse(),
            Some(StoreLosesPairs) => state.pairs.clear(),
            Some(StoreLosesPairsInClass) => {
                state.pairs.retain(|&(a, b)| self.root(a) != self.root(b));
            }
            Some(PairsAsRoots) => {
                for (a, b) in &mut state.pairs {
                    (*a, *b) = (self.root(*a), self.root(*b));
                }
            }
            Some(LinksAsRoots) => {
                for link in &mut state.links {
                    *link = self.root(*link);
                }
            }
            Some(StoreLosesImpositions) => state.impositions.clear(),
            Some(ImpositionsOnce) => {
                let mut once = Vec::new();
                for entry in &self.impositions {
                    if !once.contains(entry) {
                        once.push(entry.clone());
                    }
                }
                state.impositions = once;
            }
            Some(ImpositionsInOrder) => state.impositions.sort(),
            Some(ImpositionsAsRoots) => {
                for (el, fact) in &mut state.impositions {
                    (*el, *fact) = (self.root(*el), self.fact_as_roots(fact));
                }
            }
            Some(FactsAsRoots) => {
                for fact in state.facts.iter_mut().flatten() {
                    *fact = self.fact_as_roots(fact);
                }
            }
            Some(FuncKeysAsRoots) => {
                for (app, _) in &mut state.func_apps {
                    *app = self.app_as_roots(app);
                }
            }
            Some(FuncResultsAsRoots) => {
                for (_, result) in &mut state.func_apps {
                    *result = self.root(*result);
                }
            }
            Some(PredAppsAsRoots) => {
                for app in &mut state.pred_apps {
                    *app = self.app_as_roots(app);
                }
            }
            Some(VarsAsRoots) => {
                for el in state.vars.iter_mut().flatten() {
                    *el = self.root(*el);
                }
            }
            Some(AmbientsStoredAsRoots) => {
                for el in state.ambients.iter_mut().flatten() {
                    *el = self.root(*el);
                }
            }
            _ => {}
        }
        state
    }

    fn stored_nexts(&self, owners: &[usize]) -> Vec<u16> {
        use Fault::*;
        let is_of = |place: usize, el: usize| owners.get(place) == Some(&el);
        let next = |(place, &el): (usize, &usize)| -> u16 {
            let index = place as u16 + 1;
            match self.fault {
                Some(ChainSkips) if is_of(place + 2, el) => index + 2,
                Some(ChainSkips) => 0,
                Some(ChainBackwards) if place > 0 && is_of(place - 1, el) => index - 1,
                Some(ChainBackwards) => 0,
                Some(ChainEndsInItself) if !is_of(place + 1, el) => index,
                Some(ChainGoesOn) if place + 1 < owners.len() => index + 1,
                Some(NextsLost) => 0,
                Some(IndicesFromZero) => nexts(owners)[place].saturating_sub(1),
                _ => nexts(owners)[place],
            }
        };
        if self.fault.is_none() {
            return nexts(owners);
        }
        owners.iter().enumerate().map(next).collect()
    }

    fn stored_firsts(&self, els: usize, owners: &[usize]) -> Vec<u16> {
        let right = firsts(els, owners);
        match self.fault {
            Some(Fault::FirstsLost) => vec![0; els],
            Some(Fault::IndicesFromZero) => right.iter().map(|i| i.saturating_sub(1)).collect(),
            Some(Fault::ChainBackwards) => {
                let last = |el: usize| owners.iter().rposition(|&owner| owner == el);
                (0..els).map(|el| last(el).map_or(0, |place| place as u16 + 1)).collect()
            }
            _ => right,
        }
    }

    /// Makes a file as long as its counts say, where the fault takes it so.
    fn mend_length(&self, file: &mut Vec<u8>) {
        if self.is(Fault::ShortFileLoads) && file.len() < HEAD {
            file.resize(HEAD, 0);
        }
        if file.len() >= HEAD {
            let length = length(&head(file));
            if (self.is(Fault::ShortFileLoads) && file.len() < length)
                || (self.is(Fault::LongFileLoads) && file.len() > length)
            {
                file.resize(length, 0);
            }
        }
    }

    /// Takes a list that is too long for one of four, where the fault does.
    fn cut_counts(&self, table: Table, call: &mut Words) {
        for which in [0, 1] {
            if self.overlooks(Trouble::ListCount(table, which)) {
                call[4 + which] = call[4 + which].min(PLACES as u16);
            }
        }
    }

    /// Whether the fault does not see that this fact or imposition has another number of
    /// parents than its type.
    fn overlooks_parents(&self, table: Table, is_first: bool, call: &Words) -> bool {
        use Fault::*;
        let declared = self.types.get(usize::from(call[3])).map_or(0, |typ| typ.parents.len());
        let is_fewer = usize::from(call[4]) < declared;
        match self.fault {
            Some(FewerFactParentsLoad) => table == Facts && is_fewer,
            Some(MoreFactParentsLoad) => table == Facts && !is_fewer,
            Some(FewerImpositionParentsLoad) => table == Impositions && is_fewer,
            Some(MoreImpositionParentsLoad) => table == Impositions && !is_fewer,
            Some(FirstFactCounted) => table == Facts && !is_first,
            Some(FirstImpositionCounted) => table == Impositions && !is_first,
            _ => false,
        }
    }

    fn number_of(&self, trouble: Trouble, file: &[u8]) -> u16 {
        let is_over = || {
            let counts = if file.len() < HEAD { Vec::new() } else { head(file) };
            counts.iter().zip(TABLES).any(|(&count, (_, most, _))| count > most)
        };
        let is_of_parents = matches!(trouble, Trouble::Entry(_, 15));
        match (self.fault, trouble.number()) {
            (Some(Fault::ThirteenForFourteen), 14) => 13,
            (Some(Fault::FifteenForFourteen), 14) if is_of_parents => 15,
            (Some(Fault::FourteenForThirteen), 13) => 14,
            (Some(Fault::FourteenFirst), 13) if is_over() => 14,
            (Some(Fault::NoHeadIsFourteen), 13) if file.len() < HEAD => 14,
            (_, number) => number,
        }
    }

    /// Whether the fault does not look for this.
    fn overlooks(&self, trouble: Trouble) -> bool {
        use Fault::*;
        use Trouble::*;
        let Some(fault) = self.fault else {
            return false;
        };
        match trouble {
            Count(Els) => fault == ElsUncounted,
            Count(Table::Facts) => fault == FactsUncounted,
            Count(FuncApps) => fault == FuncAppsUncounted,
            Count(PredApps) => fault == PredAppsUncounted,
            Count(Impositions) => fault == ImpositionsUncounted,
            Count(Pairs) => fault == PairsUncounted,
            ListCount(Table::Facts, _) => fault == LongFactParents,
            ListCount(FuncApps, 0) => fault == LongFuncParents,
            ListCount(FuncApps, _) => fault == LongFuncArgs,
            ListCount(PredApps, 0) => fault == LongPredParents,
            ListCount(PredApps, _) => fault == LongPredArgs,
            ListCount(Impositions, _) => fault == LongImpositionParents,
            Mark => fault == AnyMark,
            Settled => fault == AnySettled,
            Started => fault == AnyStarted,
            UnstartedEntry => fault == UnstartedEntries,
            UnstartedSettled => fault == UnstartedAndSettled,
            Entry(Vars, 3) => fault == AnyKeyLoads,
            Entry(Table::Facts, 5) => fault == FactOfNothing,
            Entry(FuncApps, 5) => fault == FuncAppOfNothing,
            Entry(PredApps, 5) => fault == PredAppOfNothing,
            Entry(Impositions, 5) => fault == ImpositionOfNothing,
            Entry(Vars, 5) => fault == VarOfNothing,
            Entry(Ambients, 5) => fault == AmbientOfNothing,
            Entry(Pairs, 5) => fault == PairOfNothing,
            Entry(_, 6) => fault == AnyAmbientLoads,
            Entry(_, 7) => fault == BarredLoads,
            Entry(_, 12) => fault == MisappliedLoads,
            Link => fault == LinkUpLoads,
            OffRoot => fault == FactOffRootLoads,
            First => fault == FirstUnchecked || fault == ChainsUnchecked,
            Next => fault == NextUnchecked || fault == ChainsUnchecked,
            Order(table) => self.overlooks_order(table),
            Twice(table) => fault == EqualNeighboursLoad || self.overlooks_order(table),
            Unused(Table::Facts, _) => fault == UnusedFactByte,
            Unused(FuncApps, 0) => fault == UnusedFuncParentByte,
            Unused(FuncApps, _) => fault == UnusedFuncArgByte,
            Unused(PredApps, 0) => fault == UnusedPredParentByte,
            Unused(PredApps, _) => fault == UnusedPredArgByte,
            Unused(Impositions, _) => fault == UnusedImpositionByte,
            _ => false,
        }
    }

    fn overlooks_order(&self, table: Table) -> bool {
        use Fault::*;
        match self.fault {
            Some(OrderUnchecked) => true,
            Some(FactOrderUnchecked) => table == Facts,
            Some(FuncAppOrderUnchecked) => table == FuncApps,
            Some(PredAppOrderUnchecked) => table == PredApps,
            Some(VarOrderUnchecked) => table == Vars,
            Some(AmbientOrderUnchecked) => table == Ambients,
            _ => false,
        }
    }

    /// What a wrong version refuses beyond document 02.
    fn find_strictly(&self, content: &Content, found: &mut Vec<Trouble>) {
        use Fault::*;
        let Some(fault) = self.fault else {
            return;
        };
        let off_root = |el: u8| !content.is_root(el.into());
        let any_off_root = |row: &[u8], at: usize| {
            let (places, count) = places(row, at);
            places[..count.min(PLACES)].iter().any(|&el| off_root(el))
        };
        let has_other_parents = |relations: &[Relation], rows: &[Vec<u8>]| {
            let of = |row: &[u8]| relations.get(usize::from(row[0]));
            rows.iter().any(|row| of(row).is_none_or(|of| of.parents.len() != places(row, 1).1))
        };
        let any = |rows: &[Vec<u8>], is: &dyn Fn(&Vec<u8>) -> bool| rows.iter().any(is);
        let is_refused = match fault {
            StaleKeyRefused => {
                any(&content.func_apps, &|row| any_off_root(row, 1) || any_off_root(row, 6))
            }
            StaleResultRefused => any(&content.func_apps, &|row| off_root(row[11])),
            StalePredAppRefused => {
                any(&content.pred_apps, &|row| any_off_root(row, 1) || any_off_root(row, 6))
            }
            StaleVarRefused => any(&content.vars, &|row| off_root(row[1])),
            StaleAmbientRefused => any(&content.ambients, &|row| off_root(row[1])),
            StaleFactRefused => any(&content.facts, &|row| any_off_root(row, 1)),
            StaleImpositionRefused => any(&content.impositions, &|row| any_off_root(row, 2)),
            ImpositionOffRootRefused => any(&content.impositions, &|row| off_root(row[0])),
            MarkOffRootRefused => {
                let mut marks = content.marks.iter().enumerate();
                marks.any(|(el, &mark)| mark != 0 && !content.is_root(el))
            }
            EqualImpositionsRefused => {
                let rows = &content.impositions;
                (0..rows.len()).any(|at| rows[..at].contains(&rows[at]))
            }
            ImpositionOrderRefused => !content.impositions.is_sorted(),
            PairInItselfRefused => any(&content.pairs, &|row| row[0] == row[1]),
            PairsRefused => !content.pairs.is_empty(),
            SettledPairsRefused => content.settled == 1 && !content.pairs.is_empty(),
            FileFuncParentsCounted => has_other_parents(&self.funcs, &content.func_apps),
            FilePredParentsCounted => has_other_parents(&self.preds, &content.pred_apps),
            UnstartedRefused => content.started == 0,
            LoadAfterStartRefused => self.begun,
            _ => false,
        };
        if is_refused {
            found.push(Trouble::Strict);
        }
    }

    /// What a wrong version makes of a structure that it loads.
    fn alter_loaded(&self, loaded: &mut State) {
        use Fault::*;
        match self.fault {
            Some(LoadLosesSettled) => loaded.settled = false,
            Some(LoadSettles) => loaded.settled = true,
            Some(LoadKeepsSettled) => loaded.settled = self.settled,
            Some(LoadKeepsStarted) => loaded.begun = self.begun,
            Some(LoadStarts) => loaded.begun = true,
            Some(LoadLosesMarks) => loaded.marks.fill(false),
            Some(LoadTurnsPairs) => loaded.pairs.reverse(),
            Some(LoadSwapsPairs) => {
                loaded.pairs = loaded.pairs.iter().map(|&(a, b)| (b, a)).collect();
            }
            Some(LoadLosesPairs) => loaded.pairs.clear(),
            Some(LoadTurnsImpositions) => loaded.impositions.reverse(),
            Some(LoadLosesImpositions) => loaded.impositions.clear(),
            Some(LoadShortens) => {
                let roots = loaded.roots(&loaded.links);
                loaded.links = roots;
            }
            Some(LoadLosesVars) => loaded.vars = [None; 65],
            Some(LoadLosesAmbients) => loaded.ambients = [None; 33],
            Some(LoadLosesFacts) => loaded.facts.iter_mut().for_each(Vec::clear),
            Some(LoadLosesFirstFact) => {
                if let Some(facts) = loaded.facts.iter_mut().find(|facts| !facts.is_empty()) {
                    facts.remove(0);
                }
            }
            Some(LoadLosesLastFacts) => {
                for facts in loaded.facts.iter_mut().filter(|facts| facts.len() > 1) {
                    facts.pop();
                }
            }
            Some(LoadKeepsVars) => keep(&self.vars, &mut loaded.vars, loaded.links.len()),
            Some(LoadKeepsAmbients) => {
                keep(&self.ambients, &mut loaded.ambients, loaded.links.len());
            }
            Some(LoadKeepsPairs) => {
                let els = loaded.links.len();
                let is_el = |el: u16| usize::from(el) < els;
                let kept = self.pairs.iter().filter(|&&(a, b)| is_el(a) && is_el(b));
                loaded.pairs.splice(0..0, kept.copied());
            }
            Some(LoadKeepsImpositions) => {
                let els = loaded.links.len();
                let is_el = |el: &u16| usize::from(*el) < els;
                let is_whole =
                    |(el, fact): &&(u16, Fact)| is_el(el) && fact.parents.iter().all(is_el);
                loaded.impositions.splice(0..0, self.impositions.iter().filter(is_whole).cloned());
            }
            Some(LoadKeepsMarks) => {
                for (mark, was_marked) in loaded.marks.iter_mut().zip(&self.marks) {
                    *mark |= was_marked;
                }
            }
            Some(LoadDoesNothing) => *loaded = self.clone(),
            _ => {}
        }
    }

    /// What a refused load leaves.
    pub fn leave_refused_load(&mut self, file: &[u8]) {
        if self.is(Fault::RefusedLoadEmpties) {
            *self = self.with_nothing();
        }
        let is_readable = file.len() >= HEAD && file.len() == length(&head(file));
        if self.is(Fault::RefusedLoadKeepsFlags) && is_readable {
            let content = content(file);
            self.settled = content.settled == 1;
        }
    }
}
