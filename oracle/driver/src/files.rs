//! Histories with files (M-104): structures stored and loaded between any two calls,
//! under their own signature and under others, and files that are damaged.

use oracle::stream::Entry;
use standin::State;

use crate::history::{bytes, record, History, Words};
use crate::rng::Rng;
use crate::{edges, maps, proved, settled};

/// The most rows of each table of a file, in the order of its head, and the bytes of a row.
pub const TABLES: [(usize, usize); 8] =
    [(256, 4), (1024, 8), (256, 12), (256, 11), (64, 7), (64, 2), (32, 2), (256, 2)];

/// The bytes of the slot that a list has.
pub const ROOM: usize = 16384;

/// The signature of the structures below: two Models, four types under them, the Mor of
/// the first Model with its functions, another function, and two predicates.
fn signature() -> History {
    let mut h = History::new();
    h.model(&[]).model(&[]).plain(&[0]).plain(&[0, 1, 0, 1]).mor(0, &[]);
    h.plain(&[0, 1]).plain(&[1, 0, 1]);
    h.func(&[], &[4], 0).func(&[], &[4], 0).func(&[], &[0], 4).func(&[], &[4, 4], 4);
    h.func(&[0], &[2, 2, 2, 2], 2).func(&[0, 0, 0, 0], &[], 2);
    h.pred(&[0], &[2, 2]).pred(&[], &[]).model_ids(0, 4, [0, 1, 2, 3]);
    h
}

/// The records of a history that declare the signature.
fn declarations(history: &History) -> usize {
    history.records.iter().take_while(|words| words[1] <= 5).count()
}

/// Structures to be stored, as the histories that make them. Together they have every
/// column, each with several values.
pub fn small() -> Vec<History> {
    let mut parked = vec![History::new(), signature()];
    let mut case = |build: &dyn Fn(&mut History)| {
        let mut h = signature();
        build(&mut h);
        parked.push(h);
    };
    // Started and nothing else; settled and nothing else.
    case(&|h| _ = h.conflicts());
    case(&|h| _ = h.settle());
    // Elements and marks.
    case(&|h| _ = h.el());
    case(&|h| _ = h.el().marked_el().el().marked_el());
    // Links of several lengths, and marks that a merge dropped.
    case(&|h| {
        h.els(3).marked_el().marked_el().el();
        h.equal(4, 5).equal(1, 2).close().equal(0, 1).close().root(2).equal(2, 5).close();
    });
    // Pairs in the queue: of two classes, of one, of an element with itself, twice.
    case(&|h| {
        h.els(5).equal(1, 2).close();
        h.equal(3, 4).equal(2, 1).equal(3, 3).equal(0, 4).equal(3, 4);
    });
    case(&|h| _ = h.els(2).settle().equal(0, 0).equal(1, 1));
    // Facts of several types and parents on several elements, in chains of one to five.
    case(&|h| {
        h.els(5).impose(1, 2, &[0]).impose(0, 3, &[3, 4, 4, 1]).impose(0, 6, &[2, 3, 4]);
        h.impose(0, 5, &[2, 3]).impose(0, 0, &[]).impose(0, 3, &[2, 3, 4, 4]);
        h.impose(4, 2, &[4]).impose(4, 0, &[]).impose(4, 3, &[0, 1, 2, 3]).close();
    });
    // Facts of elements between which there are others without any.
    case(&|h| {
        h.els(6).impose(5, 2, &[1]).impose(5, 2, &[2]).impose(2, 2, &[1]).equal(3, 4).close();
    });
    // Impositions: not in order, of no to four parents, and equal ones.
    case(&|h| {
        h.els(4).impose(3, 2, &[0]).impose(0, 3, &[3, 2, 1, 0]).impose(0, 0, &[]);
        h.impose(0, 5, &[1, 2]).impose(1, 6, &[1, 2, 3]).impose(3, 2, &[1]).equal(0, 1).close();
    });
    // Function applications with lists of every length.
    case(&|h| {
        h.els(4);
        for count in 0..=4 {
            h.apply(4, &[0, 1, 2, 3][..count], &[3, 3, 3, 3][..4 - count], count as u16 % 4);
            h.apply(5, &[3, 2, 1, 0][..count], &[0, 1, 2, 3][..count], 3);
        }
    });
    // Predicate applications with lists of every length.
    case(&|h| {
        h.els(4);
        for count in 0..=4 {
            h.holds(0, &[0, 1, 2, 3][..count], &[3, 3, 3, 3][..4 - count]);
            h.holds(1, &[3, 2, 1, 0][..count], &[0, 1, 2, 3][..count]);
        }
    });
    // Variables and ambient elements, roots or not, and predicate applications of elements
    // that are no roots.
    case(&|h| {
        h.els(4).equal(0, 3).equal(1, 2).close();
        h.var(0, 3).var(63, 2).var(7, 1).ambient(1, 3).ambient(0, 2).holds(0, &[3], &[2, 1]);
    });
    // A stale key and a stale result.
    case(&|h| {
        h.el().marked_el().els(3).apply(5, &[1], &[], 3).apply(4, &[0], &[1], 1);
        h.impose(4, 2, &[0]).impose(4, 2, &[1]).close();
    });
    // Maps: an identity and a composite, before and after a close, and settled.
    for closes in 0..=2 {
        case(&|h| {
            h.els(5).apply(2, &[], &[0], 3).apply(3, &[], &[3, 4], 4).apply(1, &[], &[4], 1);
            (0..closes).for_each(|_| _ = h.close());
        });
    }
    // All at once, settled and then not.
    let everything = |h: &mut History| {
        h.marked_el().els(5).marked_el().equal(2, 5).equal(1, 3);
        h.impose(3, 2, &[0]).impose(4, 3, &[0, 1, 0, 5]).apply(4, &[0], &[2, 3], 4);
        h.apply(5, &[0, 0], &[], 1).holds(0, &[3], &[4, 5]).holds(1, &[], &[]);
        h.var(9, 5).var(4, 4).ambient(0, 3).ambient(1, 1).settle();
    };
    case(&everything);
    case(&|h| {
        everything(h);
        h.equal(5, 2).equal(0, 4).impose(6, 2, &[2]).holds(0, &[6], &[6, 0]);
    });
    parked.extend([settled::start(), settled::start().close().equal(1, 7).clone()]);
    let ended =
        [proved::p2(), proved::p3(), proved::p4(), proved::p5(), proved::p7(), proved::p8()];
    parked.extend(ended);
    let mut p5 = proved::p5();
    p5.records.truncate(p5.records.len() - 2);
    parked.push(p5);
    parked.push(edges::beginning());
    parked
}

/// Structures in which a table is full.
pub fn full() -> Vec<History> {
    let mut els = History::new();
    for el in 0..256 {
        els.push(record(6, el % 2, 0, &[], &[]));
    }
    let mut pairs = History::new();
    pairs.els(3);
    for number in 0..256 {
        pairs.equal(number % 3, number % 2);
    }
    let mut impositions = signature();
    impositions.els(8);
    for number in 0..64 {
        impositions.impose(number % 8, 2, &[7 - number / 8]);
    }
    let mut func_apps = signature();
    func_apps.els(16);
    for number in 0..256 {
        func_apps.apply(5, &[], &[15 - number % 16, number / 16], number % 16);
    }
    let mut pred_apps = signature();
    pred_apps.els(16);
    for number in 0..256 {
        pred_apps.holds(0, &[15 - number % 16], &[number / 16, 1]);
    }
    let mut vars = History::new();
    vars.els(3);
    for key in (0..64).rev() {
        vars.var(key, key % 3);
    }
    let mut ambients = History::new();
    for _ in 0..32 {
        ambients.model(&[]);
    }
    ambients.els(3);
    for typ in (0..32).rev() {
        ambients.ambient(typ, typ % 3);
    }
    vec![els, pairs, impositions, func_apps, pred_apps, vars, ambients, facts(), all_full()]
}

/// 1,024 facts, of 256 elements.
fn facts() -> History {
    let mut h = History::new();
    h.plain(&[]).plain(&[]).plain(&[]).plain(&[]).pred(&[], &[0, 1, 2, 3]).els(256);
    for el in 0..256 {
        h.holds(0, &[], &[el; 4]);
    }
    h.close();
    h
}

/// The longest file: every table full.
fn all_full() -> History {
    let mut h = History::new();
    for _ in 0..31 {
        h.model(&[]);
    }
    h.model(&[0]).pred(&[], &[0, 1, 2, 3]).func(&[], &[], 0).els(256);
    for el in 0..256 {
        h.holds(0, &[], &[el; 4]);
    }
    h.close();
    for el in 0..256 {
        h.apply(0, &[], &[el], 255 - el).equal(el, 255 - el);
    }
    for key in 0..64 {
        h.impose(key, 31, &[255]).var(key, 255 - key);
    }
    for typ in 0..32 {
        h.ambient(typ, 255 - typ);
    }
    h
}

/// A full table stored and loaded, with one call more, which is refused, and gone on with.
pub fn parked_when_full(history: &History) -> Entry {
    let mut h = history.clone();
    h.store().load().store().el().load();
    go_on(&mut h);
    h.list()
}

/// Histories of the calls of kinds 105 to 108.
pub fn all() -> Vec<History> {
    let mut cases = vec![rooms(), changes(), back_and_forth(), begun_again()];
    cases.extend([nothing_stays(), refused_loads()]);
    cases.extend(small().iter().map(between_all_calls));
    cases.extend(small().iter().map(under_less));
    cases.extend(other_signatures());
    cases.extend(never_made());
    cases.extend(shown().iter().map(Shown::history));
    cases
}

/// A file of tools/park_cases.txt.
pub struct Shown {
    /// The one thing that it is refused for; where it loads, "nothing" and more.
    pub reason: String,
    pub number: u16,
    pub signature: History,
    pub file: Vec<u8>,
}

impl Shown {
    /// It is loaded, and stored and gone on with.
    fn history(&self) -> History {
        assert_eq!(self.number == 0, self.reason.starts_with("nothing: "));
        let mut h = self.signature.clone();
        h.file(&self.file).load().store();
        go_on(&mut h);
        h
    }
}

/// The files that docs/FILE.md shows, and more of them.
pub fn shown() -> Vec<Shown> {
    let mut shown: Vec<Shown> = Vec::new();
    for line in include_str!("../../../tools/park_cases.txt").lines() {
        let (word, rest) = line.split_once(' ').unwrap_or((line, ""));
        if word == "case" {
            let (reason, signature) = (rest.to_string(), History::new());
            shown.push(Shown { reason, number: 0, signature, file: Vec::new() });
        }
        let Some(case) = shown.last_mut() else {
            continue;
        };
        match word {
            "number" => case.number = rest.parse().expect("a number"),
            "declare" => _ = case.signature.push(declaration(rest)),
            "bytes" => case.file = rest.split_whitespace().flat_map(byte_times).collect(),
            _ => {}
        }
    }
    shown
}

/// One byte in hex, or several: 00*14.
fn byte_times(text: &str) -> Vec<u8> {
    let (byte, times) = text.split_once('*').unwrap_or((text, "1"));
    let byte = u8::from_str_radix(byte, 16).expect("a byte in hex");
    vec![byte; times.parse().expect("how many times")]
}

/// A line of a sheet as tools/sheet has it, without names.
fn declaration(text: &str) -> Words {
    let number = |word: &str| -> u16 { word.parse().expect("a number") };
    let list = |opening: char, closing: char| -> Vec<u16> {
        let inside = text.split_once(opening).and_then(|(_, rest)| rest.split_once(closing));
        inside.map_or("", |(inside, _)| inside).split_whitespace().map(number).collect()
    };
    let (parents, args) = (list('[', ']'), list('(', ')'));
    // What stands in no list.
    let outside = text.split(['[', '(']).filter_map(|part| part.split([']', ')']).next_back());
    let words: Vec<&str> = outside.flat_map(str::split_whitespace).collect();
    match words[..] {
        ["type", "plain"] => record(1, 0, 0, &parents, &[]),
        ["type", "model"] => record(1, 1, 0, &parents, &[]),
        ["type", "enum"] => record(1, 2, 0, &parents, &[]),
        ["type", "mor", model] => record(1, 3, number(model), &parents, &[]),
        ["predicate"] => record(2, 0, 0, &parents, &args),
        ["function", "->", codomain] => record(3, 0, number(codomain), &parents, &args),
        ["model", typ, mor] => record(4, number(typ), number(mor), &[], &args),
        ["morphism-application", func] => record(5, number(func), 0, &[], &args),
        _ => panic!("no declaration: {text}"),
    }
}

/// Stores that need so much room and have less, as much, and more.
fn rooms() -> History {
    let mut h = History::new();
    h.look_at_file().load();
    h.store_in(0).look_at_file().store_in(17).look_at_file().store_in(18).store_in(19);
    h.els(2).equal(0, 1).store_in(18).look_at_file().store_in(27).look_at_file().load();
    h.store_in(28).look_at_file().load().store_in(16384).store_in(16385).close().store_in(25);
    h.look_at_file().load().store_in(26).look_at_file();
    h
}

/// Changes of the file, also past its end and past that of the slot.
fn changes() -> History {
    let mut h = History::new();
    h.el().store().load();
    h.resize(1, 0).load().resize(0, 1).load().set(21, 1).load();
    h.resize(0, 1).load().resize(1, 0).load().resize(2, 2).load().set(21, 1).load();
    h.set(20, 1).load().set(20, 0).set(22, 7).load().set(u16::MAX, 3).load();
    h.push(change(18, 300, 0, 0)).load().push(change(18, 0, 1, 1)).load().set(21, 1).load();
    // All of it cut; then zeros, which are a file where there are 18 of them.
    h.resize(u16::MAX, 0).load().resize(0, 15).load().resize(0, 1).load().resize(0, 1).load();
    h.resize(0, 1).load().resize(0, 1).load();
    // As much as the slot holds, and what was there before is zero.
    h.el().store().resize(0, 16362).load().resize(0, 1).set(16383, 9).set(16384, 9);
    h.resize(1, 1).resize(16366, 0).load().set(21, 1).load().resize(4, 16384);
    h
}

fn change(place: u16, value: u16, cut: u16, added: u16) -> Words {
    let mut words = record(106, place, value, &[], &[]);
    words[4] = cut;
    words[5] = added;
    words
}

/// A load goes back to what was stored, also where calls stand between, and takes the
/// flag for number 4 and settled back with it.
fn back_and_forth() -> History {
    let mut h = signature();
    h.store().func(&[], &[], 0).load().func(&[], &[], 0).els(3).func(&[], &[], 0);
    h.load().func(&[], &[], 0).els(3).store().equal(0, 1).close().settle().load().close();
    h.settle().store().equal(1, 2).load().close().equal(1, 2).store().close().load().settle();
    h.set(0, 9).load().equal(0, 2).load().set(0, 3).load().close().conflicts().plain(&[]).load();
    h
}

/// Of what was declared after a store nothing is there after the load, in any table.
fn nothing_stays() -> History {
    let mut h = signature();
    h.els(3).store();
    let more = |h: &mut History| {
        h.marked_el().equal(0, 1).close().impose(2, 2, &[0]).apply(5, &[1], &[], 2);
        h.holds(0, &[1], &[2, 2]).var(3, 1).ambient(1, 1).impose(0, 5, &[2, 2]).equal(2, 0);
    };
    more(&mut h);
    h.load().store().settle().load().close();
    more(&mut h);
    // The other way: what was stored comes back, and nothing of the shorter one stays.
    h.store().begin_again().load();
    signature().records.iter().for_each(|&words| _ = h.push(words));
    h.marked_el().els(4).var(4, 4).ambient(0, 4).settle().load().store();
    go_on(&mut h);
    h
}

/// Loads that are refused leave a structure in which every table has something.
fn refused_loads() -> History {
    let mut h = signature();
    h.marked_el().els(5).equal(1, 2).impose(3, 2, &[0]).impose(3, 2, &[1]).settle();
    h.apply(5, &[1], &[], 2).holds(0, &[1], &[2, 2]).var(3, 2).ambient(1, 2);
    for settles in [false, true] {
        if settles {
            h.settle();
        } else {
            h.equal(0, 5);
        }
        h.store();
        // The other settled, too few bytes, a link upward, no file at all.
        let file = after(&h.without_files()).store();
        let last = file.len() as u16 - 1;
        h.set(last - 1, u8::from(!settles)).set(last, 0).load().set(last, 1);
        h.resize(1, 0).load().resize(0, 1).load().set(last, 1).set(16, 1).load();
        h.resize(u16::MAX, 0).load().store();
    }
    h
}

/// The same signature declared again, in part, and in full.
fn begun_again() -> History {
    let mut h = small().pop().expect("there are some");
    let (declared, start) = (declarations(&h), h.records.clone());
    h.store().load();
    for count in [0, 1, declared - 1, declared] {
        h.begin_again().load();
        start[..count].iter().for_each(|&words| _ = h.push(words));
        h.load().plain(&[]).load().close().conflicts();
    }
    h.begin_again().el().begin_again().store().load().begin_again().close().begin_again().store();
    h
}

/// A store and a load after every call, then both again, and calls that go on.
fn between_all_calls(history: &History) -> History {
    let mut h = History::new();
    h.store().load();
    for &words in &history.records {
        h.push(words).store().load();
    }
    go_on(&mut h);
    h
}

/// Calls that show what a structure holds.
pub fn go_on(h: &mut History) {
    h.conflicts().root(1).root_const(2).close().store().load();
    h.conflicts().settle().store().load().el().close().conflicts().ambient_lookup(&[0, 1]);
}

/// A file loaded under every shorter signature, and then gone on with.
fn under_less(history: &History) -> History {
    let mut h = history.clone();
    let declared = declarations(history);
    h.store();
    for count in 0..=declared {
        under(&mut h, &history.records[..count]);
        h.look_at_file().conflicts();
    }
    go_on(&mut h);
    h
}

/// Files loaded under signatures of which a declaration is another: a type of another kind,
/// with as many parents or not, a function that became one of a record 4 or of a record 5,
/// a relation with other types.
fn other_signatures() -> Vec<History> {
    let others: [Words; 6] = [
        record(1, 0, 0, &[], &[]),
        record(1, 2, 0, &[0], &[]),
        record(2, 0, 0, &[], &[0, 0, 0]),
        record(3, 0, 1, &[0], &[0, 1, 2, 3]),
        record(4, 0, 4, &[], &[5, 4, 1, 0]),
        record(5, 0, 0, &[], &[4, 2]),
    ];
    let mut cases = Vec::new();
    for history in small().iter().filter(|history| declarations(history) > 3) {
        let declared = declarations(history);
        let mut h = history.clone();
        h.store();
        for other in others {
            for place in 0..=declared {
                // Only a record of the same kind keeps the numbers of the others.
                let is_same = history.records.get(place).is_some_and(|words| words[1] == other[1]);
                if !is_same && place < declared {
                    continue;
                }
                h.begin_again();
                for (at, &words) in history.records[..declared].iter().enumerate() {
                    h.push(if at == place { other } else { words });
                }
                if place == declared {
                    h.push(other);
                }
                h.load().look_at_file().close();
            }
        }
        cases.push(h);
    }
    // Record 5 beside an identity, and a record 4 that makes an application one of id with
    // no argument.
    for last in [record(5, 4, 0, &[], &[1, 2]), record(4, 0, 1, &[], &[1, 2, 0, 3])] {
        let mut h = maps::signature();
        h.records.retain(|words| words[1] != 4);
        let declared = h.clone();
        h.els(3).apply(0, &[], &[], 1).apply(2, &[], &[0], 1).store().load();
        h.begin_again();
        declared.records.iter().for_each(|&words| _ = h.push(words));
        if last[1] == 5 {
            h.model_ids(0, 1, [0, 1, 2, 3]);
        }
        h.load().store();
        cases.push(h);
        let mut h = declared.clone();
        h.els(3).apply(2, &[], &[0], 1).store().begin_again();
        declared.records.iter().for_each(|&words| _ = h.push(words));
        h.model_ids(0, 1, [0, 1, 2, 3]).push(last).load().store().close();
        cases.push(h);
    }
    cases
}

/// Files that no call makes and that load: parents of facts and of impositions that are no
/// roots, an imposition and a mark on an element that is none, and settled where a close
/// has work. Then calls that go on.
fn never_made() -> Vec<History> {
    let mut start = History::new();
    start.model(&[]).plain(&[0]).func(&[0], &[], 1).pred(&[0], &[1]);
    let mut cases = Vec::new();
    // Places are counted from the end where they are negative.
    let mut case = |build: &dyn Fn(&mut History), changes: &[(isize, u8)]| {
        let mut h = start.clone();
        build(&mut h);
        let file = after(&h).store();
        h.store();
        for &(place, value) in changes {
            let end = if place < 0 { file.len() as isize } else { 0 };
            let place = (end + place) as usize;
            assert_ne!(file[place], value, "the change is one");
            h.set(place as u16, value);
        }
        h.load().store();
        go_on(&mut h);
        cases.push(h);
    };
    // Element 2 links to 1. Facts of 0 with parents 1 and 3, and then with parents 2 and 3,
    // or with parents 1 and 2, which are one fact as roots.
    let two_facts = |h: &mut History| {
        h.els(4).equal(1, 2).impose(0, 1, &[1]).impose(0, 1, &[3]).close();
    };
    case(&two_facts, &[(16 + 4 + 2, 2)]);
    case(&two_facts, &[(16 + 4 + 3, 2)]);
    let one_fact = |h: &mut History| {
        h.els(4).equal(1, 2).impose(0, 1, &[1]).close().holds(0, &[2], &[0]);
    };
    case(&one_fact, &[(16 + 4 + 1, 2)]);
    // The imposition's parent, its element, both.
    let at = 16 + 4 + 8 + 11;
    case(&one_fact, &[(at + 2, 2)]);
    case(&one_fact, &[(at, 2)]);
    case(&one_fact, &[(at, 2), (at + 2, 2)]);
    // A mark on 2, which links to 1, and on its root or another.
    let one_link = |h: &mut History| {
        h.els(4).equal(1, 2).impose(0, 1, &[1]).impose(3, 1, &[2]).impose(0, 1, &[3]).close();
    };
    let marks = -2 - 2 * 4 - 4;
    case(&one_link, &[(marks + 2, 1)]);
    case(&one_link, &[(marks + 1, 1), (marks + 2, 1)]);
    case(&one_link, &[(marks + 3, 1), (marks + 2, 1)]);
    // Settled, with a pair that waits and a type that is not there yet.
    let waiting = |h: &mut History| _ = h.els(4).equal(1, 2).impose(0, 1, &[3]);
    case(&waiting, &[(-2, 1)]);
    cases
}

/// Files of as many rows as a table may have, and of one more, that are right in all else.
pub fn at_the_limits() -> Vec<History> {
    let mut signature = History::new();
    signature.plain(&[]).plain(&[]).plain(&[]).plain(&[]).plain(&[]).pred(&[], &[]);
    signature.func(&[], &[], 0);
    // The lists of at most four of four elements, in order.
    let mut lists: Vec<Vec<u8>> = vec![vec![]];
    for length in 1..=4 {
        let shorter: Vec<Vec<u8>> =
            lists.iter().filter(|l| l.len() == length - 1).cloned().collect();
        lists.extend(shorter.iter().flat_map(|l| (0..4).map(move |el| [&l[..], &[el]].concat())));
    }
    lists.sort();
    let places = |list: &[u8]| {
        let mut row = list.to_vec();
        row.resize(4, 0);
        row.push(list.len() as u8);
        row
    };
    let empty = places(&[]);
    let mut cases = Vec::new();
    for more in [0, 1] {
        let mut els = Plain::with_els(256 + more);
        els.links.iter_mut().skip(256).for_each(|link| *link = 0);
        let mut facts = Plain::with_els(256);
        for number in 0..1024 + more {
            let typ = number % 4 + if number == 1024 { 4 } else { 0 };
            facts.facts.push([vec![typ as u8], empty.clone()].concat());
            facts.owners.push(number.min(1023) / 4);
        }
        let mut func_apps = Plain::with_els(4);
        let mut pred_apps = Plain::with_els(4);
        for list in &lists[..256 + more] {
            let row = [vec![0], empty.clone(), places(list)].concat();
            func_apps.func_apps.push([row.clone(), vec![3]].concat());
            pred_apps.pred_apps.push(row);
        }
        let mut impositions = Plain::with_els(1);
        impositions.impositions = vec![[vec![0, 0], empty.clone()].concat(); 64 + more];
        let mut pairs = Plain::with_els(1);
        pairs.pairs = vec![vec![0, 0]; 256 + more];
        for plain in [els, facts, func_apps, pred_apps, impositions, pairs] {
            let mut h = signature.clone();
            h.file(&plain.bytes()).load().store().conflicts().el();
            cases.push(h);
        }
    }
    cases
}

/// The tables of a file, for files that are made by hand.
#[derive(Default)]
struct Plain {
    links: Vec<u8>,
    facts: Vec<Vec<u8>>,
    owners: Vec<usize>,
    func_apps: Vec<Vec<u8>>,
    pred_apps: Vec<Vec<u8>>,
    impositions: Vec<Vec<u8>>,
    pairs: Vec<Vec<u8>>,
}

impl Plain {
    fn with_els(count: usize) -> Plain {
        Plain { links: (0..count).map(|el| el as u8).collect(), ..Plain::default() }
    }

    /// The file, with no variables, ambient elements or marks.
    fn bytes(&self) -> Vec<u8> {
        let tables = [&self.func_apps, &self.pred_apps, &self.impositions];
        let mut file = Vec::new();
        let word = |file: &mut Vec<u8>, number: usize| file.extend((number as u16).to_le_bytes());
        let columns = |file: &mut Vec<u8>, rows: &[Vec<u8>]| {
            let width = rows.first().map_or(0, Vec::len);
            (0..width).for_each(|place| file.extend(rows.iter().map(|row| row[place])));
        };
        word(&mut file, self.links.len());
        word(&mut file, self.facts.len());
        tables.iter().for_each(|table| word(&mut file, table.len()));
        word(&mut file, 0);
        word(&mut file, 0);
        word(&mut file, self.pairs.len());
        file.extend(&self.links);
        columns(&mut file, &self.facts);
        for (place, el) in self.owners.iter().enumerate() {
            let is_last = self.owners.get(place + 1) != Some(el);
            word(&mut file, if is_last { 0 } else { place + 2 });
        }
        tables.iter().for_each(|table| columns(&mut file, table));
        file.extend(vec![0; self.links.len()]);
        columns(&mut file, &self.pairs);
        for el in 0..self.links.len() {
            let first = self.owners.iter().position(|&owner| owner == el);
            word(&mut file, first.map_or(0, |place| place + 1));
        }
        file.extend([0, 1]);
        file
    }
}

/// The stand-in's state after a history without files.
pub fn after(history: &History) -> State {
    standin::after(&bytes(&history.records))
}

/// Puts stores and loads between the calls of a list: mostly both, sometimes a load of what
/// was stored some calls ago, a store with little room, a damaged file, or a signature that
/// is declared again, in part, with other parents of a type, or in full.
pub fn scatter(rng: &mut Rng, history: &mut History) {
    let chance = rng.pick(&[3, 10, 30, 100]);
    let declared = declarations(history);
    let records = std::mem::take(&mut history.records);
    let mut load_at = None;
    for (at, &words) in records.iter().enumerate() {
        if load_at == Some(at) {
            history.load();
        }
        if rng.percent(chance) {
            match rng.below(20) {
                0..=1 => {
                    history.store();
                    load_at = Some(at + rng.between(1, 4));
                }
                2 => _ = history.store_in(rng.between(16, 400) as u16),
                3..=4 => damage(rng, history.store()),
                5 if at >= declared && declared > 0 => {
                    history.store();
                    if rng.percent(30) {
                        let count = declared - rng.between(1, declared.min(3));
                        under(history, &records[..count]);
                    }
                    if rng.percent(30) {
                        under(history, &with_other_parents(rng, &records[..declared]));
                    }
                    under(history, &records[..declared]);
                }
                _ => _ = history.store().load(),
            }
        }
        history.push(words);
    }
    if rng.percent(50) {
        history.store().load().close().store();
    }
}

/// A load under these declarations.
fn under(history: &mut History, declarations: &[Words]) {
    history.begin_again();
    declarations.iter().for_each(|&words| _ = history.push(words));
    history.load();
}

/// The declarations with a parent less, or one more, in a type that is not the first one,
/// before which there is none that could be its parent.
fn with_other_parents(rng: &mut Rng, declarations: &[Words]) -> Vec<Words> {
    let mut others = declarations.to_vec();
    let places = 0..others.len();
    let types: Vec<usize> = places.filter(|&place| others[place][1] == 1).skip(1).collect();
    if !types.is_empty() {
        let words = &mut others[rng.pick(&types)];
        match usize::from(words[4]) {
            count @ 1..=4 if rng.percent(50) => {
                words[4] -= 1;
                words[5 + count] = 0;
            }
            0..4 => words[4] += 1,
            _ => {}
        }
    }
    others
}

/// Changes that a load may refuse or not, and the load.
fn damage(rng: &mut Rng, history: &mut History) {
    for _ in 0..rng.between(1, 2) {
        let most = rng.pick(&[18, 60, 150, 300]);
        let place = rng.below(most) as u16;
        history.set(place, rng.pick(&[0, 0, 1, 1, 2, 2, 3, 4, 5, 6, 64, 255]));
    }
    if rng.percent(5) {
        history.resize(rng.below(3) as u16, rng.below(3) as u16);
    }
    history.load();
}
