//! Fixed histories: P1 to P10, every refusal number for every kind that can
//! meet it, and the edges of document 01, of settle, of maps, of conflict reports, of
//! files, of the parents of impositions and of the facts that a close adds.

use oracle::record::{AMBIENT_LOOKUP, TYPE_LOOKUP};
use oracle::stream::{Entry, SHEET, SHEET_WITH_DUMPS};

use crate::history::{bytes, chained, record, History, Words};
use crate::{added, counts, files, finds, maps, proved, settled, settles};

/// All fixed histories in order. Small ones with dumps.
pub fn all() -> Vec<Entry> {
    let mut entries = without_files();
    entries.extend(files::all().iter().map(History::list_with_dumps));
    entries.extend(files::full().iter().map(files::parked_when_full));
    entries.extend(files::at_the_limits().iter().map(History::list));
    entries.extend(counts::in_files().iter().map(History::list));
    // A sheet cannot hold the kinds of files.
    for words in [105, 106, 107, 108].map(|kind| record(kind, 0, 0, &[], &[])) {
        entries.push(History::new().push(words).sheet());
    }
    entries
}

/// The fixed histories that have no kinds 105 to 108.
fn without_files() -> Vec<Entry> {
    let mut entries = Vec::new();
    for history in proved::all() {
        entries.extend([history.sheet(), history.sheet_with_dumps()]);
        entries.extend([history.list_with_dumps(), history.list_with_flags()]);
        if history.has_closes() {
            let settling = history.with_settles();
            entries.extend([settling.sheet(), settling.list_with_dumps()]);
            entries.push(settling.list_with_flags());
        }
    }
    for (start, records) in numbered_refusals() {
        let mut all = start.clone();
        for (_, words) in records {
            entries.push(start.clone().push(words).conflicts().sheet());
            all.push(words);
        }
        entries.push(all.list_with_dumps());
    }
    entries.extend(altered_words().iter().map(History::list));
    for history in small_cases() {
        entries.push(history.list_with_dumps());
        entries.push(history.without_finds().sheet_with_dumps());
        if history.has_closes() {
            entries.push(history.with_settles().list_with_dumps());
        }
    }
    for history in settles::small() {
        entries.push(history.list_with_dumps());
        entries.push(history.without_finds().sheet_with_dumps());
    }
    for history in maps::small() {
        entries.push(history.list_with_dumps());
        entries.push(history.without_finds().sheet_with_dumps());
        if history.has_closes() {
            entries.push(history.with_settles().list_with_dumps());
        }
    }
    for (history, _) in finds::small() {
        entries.push(history.list_with_dumps());
        entries.push(history.sheet_with_dumps());
        entries.push(history.with_settles().list_with_dumps());
    }
    entries.extend(counts::small().iter().map(History::list_with_dumps));
    for (history, _) in added::small() {
        entries.push(history.list_with_dumps());
        entries.push(history.sheet_with_dumps());
        entries.push(history.with_settles().list_with_dumps());
    }
    let (most, _) = added::most();
    entries.extend([most.list(), most.sheet()]);
    entries.extend(finds::refused().map(|(history, _)| history.list_with_flags()));
    let (most, _) = finds::most();
    entries.extend([most.list(), most.with_settles().sheet()]);
    entries.extend(settled::all().iter().map(History::list_with_flags));
    for history in settled::accepted() {
        entries.push(history.without_finds().sheet_with_dumps());
    }
    entries.extend(settled::full_queues().iter().map(|history| history.without_finds().sheet()));
    // A sheet cannot hold the kind of a find.
    entries.push(History::new().el().root(0).sheet());
    entries.extend(sheet_shapes());
    for history in signature_limits() {
        entries.extend([history.list(), history.without_finds().sheet()]);
    }
    for history in structure_limits() {
        entries.extend([history.list_with_flags(), history.without_finds().sheet()]);
    }
    for history in fact_limits() {
        entries.extend([history.list_with_flags(), history.with_settles().list_with_flags()]);
    }
    entries.push(fact_limits()[0].without_finds().sheet());
    for history in maps::limits() {
        let settling = history.with_settles();
        entries.extend([history.list_with_flags(), settling.without_finds().sheet()]);
    }
    for count in [129, 130] {
        entries.push(maps::identities(count).close().sheet());
    }
    for history in
        [maps::reversed_chain(127), maps::forward_chain(127), maps::chains_in_boxes(4, 30)]
    {
        entries.extend([history.list(), history.with_settles().sheet()]);
    }
    entries.push(maps::one_more_than_elements(31).list());
    let refused = [maps::refused_in_full(), maps::nine_in_a_second_close(true)];
    entries.extend(refused.iter().map(History::list_with_dumps));
    entries.push(refused_close_in_full().list_with_dumps());
    entries.push(refused_close_in_full().with_settles().list_with_dumps());
    entries.extend([deep_links(256), long_rounds()].map(|history| history.with_settles().list()));
    entries.push(settles::as_many_closes(33).list());
    for (levels, one_more) in [(0, true), (1, false), (2, true)] {
        entries.push(settles::at_the_fact_limit(levels, one_more).list_with_flags());
    }
    let refused = settles::at_the_fact_limit(1, true);
    entries.extend([refused.list_with_dumps(), refused.without_finds().sheet()]);
    entries
}

/// Six types, ten functions, a predicate, a model and a morphism application.
fn signature() -> History {
    let mut h = History::new();
    h.model(&[]).plain(&[0]).mor(0, &[]);
    h.model(&[]).mor(3, &[]).push(record(1, 2, 0, &[0, 3], &[]));
    for _ in 0..4 {
        h.func(&[], &[2], 0);
    }
    h.func(&[], &[2, 1], 1).func(&[0], &[1], 1);
    for _ in 0..4 {
        h.func(&[], &[4], 3);
    }
    h.pred(&[0], &[1]);
    h.model_ids(0, 2, [0, 1, 2, 3]).mor_app(4, 2, 1);
    h
}

/// The signature, three elements (1 is marked), a variable and an ambient.
pub fn beginning() -> History {
    let mut h = signature();
    h.el().marked_el().el().var(7, 0).ambient(0, 0);
    h
}

/// A record of each kind that `signature` (kinds 1 to 5) or `beginning` accepts.
fn good_record(kind: u16) -> Words {
    match kind {
        1 => record(1, 3, 3, &[0, 3], &[]),
        2 => record(2, 0, 0, &[0, 3], &[1, 5]),
        3 => record(3, 0, 1, &[0, 3], &[1, 5]),
        4 => record(4, 3, 4, &[], &[6, 7, 8, 9]),
        5 => record(5, 6, 0, &[], &[2, 5]),
        6 => record(6, 1, 0, &[], &[]),
        7 => record(7, 0, 2, &[], &[]),
        8 => record(8, 2, 5, &[1, 0], &[]),
        9 => record(9, 5, 2, &[0, 1], &[1, 2]),
        10 => record(10, 0, 0, &[0, 1], &[1, 2]),
        11 => record(11, 8, 2, &[], &[]),
        12 => record(12, 3, 2, &[], &[]),
        _ => record(kind, 0, 0, &[], &[]),
    }
}

/// Each kind with each of its words set to telling values.
fn altered_words() -> Vec<History> {
    let mut histories = Vec::new();
    for kind in 1..=15 {
        let mut h = if kind < 6 { signature() } else { beginning() };
        for word in 1..16 {
            for value in [0, 1, 2, 4, 5, 6, 63, 64, u16::MAX] {
                let mut words = good_record(kind);
                words[word] = value;
                h.push(words);
            }
            // Declarations would soon fill their tables.
            if kind < 6 {
                histories.push(h);
                h = signature();
            }
        }
        histories.push(h);
    }
    histories
}

/// A record, and the number that refuses it or 0.
pub type Numbered = (u16, Words);

/// Histories and what may come next, one record at a time. Where a number that comes
/// later applies too, a comment says that it is "not" that one.
pub fn numbered_refusals() -> Vec<(History, Vec<Numbered>)> {
    let altered = |kind: u16, word: usize, value: u16| {
        let mut words = good_record(kind);
        words[word] = value;
        words
    };
    // Kinds 1 to 5 before any other call.
    let before = vec![
        (3, record(1, 4, 0, &[], &[])),  // kind of type
        (3, record(1, 0, 1, &[], &[])),  // B without a Mor
        (3, record(1, 2, 9, &[9], &[])), // not 5
        (5, record(1, 0, 0, &[6], &[])), // parent
        (5, record(1, 3, 6, &[], &[])),  // model of a Mor
        (5, record(1, 3, 1, &[6], &[])), // not 6
        (6, record(1, 3, 1, &[], &[])),
        (3, record(2, 1, 0, &[], &[])),
        (5, record(2, 0, 0, &[6], &[])), // parent
        (5, record(2, 0, 0, &[], &[6])), // argument
        (3, record(3, 1, 0, &[], &[])),
        (5, record(3, 0, 6, &[], &[])),            // codomain
        (5, record(3, 0, 0, &[6], &[])),           // parent
        (5, record(3, 0, 0, &[], &[6])),           // argument
        (3, record(4, 3, 4, &[], &[6, 7, 8])),     // three functions
        (5, record(4, 6, 4, &[], &[6, 7, 8, 9])),  // type
        (5, record(4, 3, 6, &[], &[6, 7, 8, 9])),  // mor
        (5, record(4, 3, 4, &[], &[6, 7, 8, 10])), // function
        (5, record(4, 1, 2, &[], &[6, 7, 8, 10])), // not 6
        (5, record(4, 0, 2, &[], &[6, 7, 8, 10])), // not 8
        (6, record(4, 1, 4, &[], &[6, 7, 8, 9])),  // not a Model
        (6, record(4, 3, 1, &[], &[6, 7, 8, 9])),  // not a Mor
        (6, record(4, 3, 2, &[], &[6, 7, 8, 9])),  // Mor of another
        (6, record(4, 3, 2, &[], &[0, 1, 2, 3])),  // not 8
        (8, record(4, 0, 2, &[], &[6, 7, 8, 9])),  // model
        (8, record(4, 3, 4, &[], &[6, 7, 8, 0])),  // function of a model
        (8, record(4, 3, 4, &[], &[4, 7, 8, 9])),  // morphism application
        (8, record(4, 3, 4, &[], &[6, 7, 8, 6])),  // twice in one record
        (8, record(4, 3, 4, &[], &[6, 6, 8, 9])),  // twice in one record
        (3, record(5, 6, 0, &[], &[2])),           // one type
        (3, record(5, 6, 1, &[], &[2, 5])),        // B
        (5, record(5, 10, 0, &[], &[2, 5])),       // function
        (5, record(5, 6, 0, &[], &[6, 5])),        // morphism type
        (5, record(5, 6, 0, &[], &[2, 6])),        // member type
        (5, record(5, 6, 0, &[], &[1, 6])),        // not 6
        (6, record(5, 6, 0, &[], &[1, 5])),
        (6, record(5, 0, 0, &[], &[1, 5])), // not 8
        (8, record(5, 0, 0, &[], &[2, 5])), // function of a model
        (8, record(5, 4, 0, &[], &[2, 5])), // function given again
        (8, record(5, 6, 0, &[], &[2, 1])), // pair
    ];
    // Any kind after elements.
    let mut after = Vec::new();
    for kind in 1..=5 {
        after.push((4, good_record(kind)));
        after.push((3, altered(kind, 14, 1))); // not 4
    }
    after.extend([
        (4, record(1, 3, 9, &[], &[])),           // not 5
        (4, record(1, 3, 1, &[], &[])),           // not 6
        (4, record(4, 1, 2, &[], &[6, 7, 8, 9])), // not 6
        (4, record(5, 0, 0, &[], &[2, 5])),       // not 8
        (3, record(0, 0, 0, &[], &[])),           // kind
        (3, record(16, 0, 0, &[], &[])),          // kind
        (3, record(u16::MAX, 0, 0, &[], &[])),    // kind
        (3, record(6, 2, 0, &[], &[])),           // mark
        (3, record(6, 0, 1, &[], &[])),           // B
        (5, record(7, 3, 0, &[], &[])),           // A
        (5, record(7, 0, 3, &[], &[])),           // B
        (5, record(8, 3, 1, &[0], &[])),          // element
        (5, record(8, 0, 6, &[0], &[])),          // type
        (5, record(8, 0, 1, &[3], &[])),          // parent
        (5, record(8, 3, 1, &[], &[])),           // element, not 15
        (5, record(8, 0, 6, &[0, 0], &[])),       // type, not 15
        (5, record(8, 0, 5, &[0, 1, 3], &[])),    // parent, not 15
        (15, record(8, 0, 1, &[], &[])),          // fewer
        (15, record(8, 0, 1, &[0, 0], &[])),      // more
        (15, record(8, 0, 0, &[0], &[])),         // of a Model
        (15, record(8, 0, 2, &[0], &[])),         // of a Mor
        (15, record(8, 0, 5, &[1], &[])),         // of an Enum
        (15, record(8, 0, 5, &[0, 1, 2], &[])),   // of an Enum
        (0, record(8, 0, 5, &[2, 2], &[])),       // a parent twice
        (0, record(9, 5, 2, &[], &[1])),          // the parents of applications are free
        (0, record(10, 0, 0, &[], &[1])),         // and of predicates too
        (5, record(9, 10, 0, &[], &[])),          // function
        (5, record(9, 5, 3, &[0], &[1])),         // result
        (5, record(9, 5, 2, &[3], &[1])),         // parent
        (5, record(9, 5, 2, &[0], &[3])),         // argument
        (5, record(9, 2, 3, &[], &[0])),          // not 7
        (7, record(9, 2, 0, &[], &[])),           // id, not 12
        (7, record(9, 3, 0, &[], &[])),           // comp, not 12
        (7, record(9, 4, 0, &[], &[])),           // morphism application
        (0, record(9, 0, 0, &[], &[1])),          // dom
        (0, record(9, 1, 0, &[], &[1])),          // cod
        (5, record(10, 1, 0, &[0], &[1])),        // predicate
        (5, record(10, 0, 0, &[3], &[1])),        // parent
        (5, record(10, 0, 0, &[0], &[3])),        // argument
        (3, record(11, 64, 0, &[], &[])),         // key
        (3, record(11, 64, 3, &[], &[])),         // not 5
        (0, record(11, 63, 0, &[], &[])),
        (5, record(11, 7, 3, &[], &[])), // not 8
        (8, record(11, 7, 0, &[], &[])),
        (5, record(12, 6, 0, &[], &[])), // type
        (5, record(12, 3, 3, &[], &[])), // element
        (5, record(12, 1, 3, &[], &[])), // not 6
        (5, record(12, 0, 3, &[], &[])), // not 8
        (6, record(12, 1, 0, &[], &[])),
        (8, record(12, 0, 1, &[], &[])),
    ]);
    for kind in 6..=15 {
        for word in [4, 5, 9, 13, 14, 15] {
            after.push((3, altered(kind, word, 5))); // count, slot or unused word
        }
    }
    // A slot past the count, or an unused word, beside too few parents: not 15.
    let mut fewer = record(8, 2, 5, &[0, 1], &[]);
    fewer[4] = 1;
    after.push((3, fewer));
    let mut fewer = record(8, 2, 5, &[], &[]);
    fewer[15] = 1;
    after.push((3, fewer));
    let mut all = vec![(signature(), before), (beginning(), after)];
    all.extend(maps::numbered_refusals());
    all.push(counts::numbered_refusals());
    all
}

/// Small histories, each for one sentence of document 01 or of README.md.
fn small_cases() -> Vec<History> {
    let mut cases = joins();
    cases.extend([lookups(), deep_links(8)]);
    cases.extend([stale_results(), deep_stale_result(), stale_keys()]);
    let mut case = |build: &dyn Fn(&mut History)| {
        let mut h = History::new();
        build(&mut h);
        cases.push(h);
    };
    // Number 4 follows each accepted call of kinds 6 to 15, and no other.
    case(&|h| _ = h.close().plain(&[]));
    case(&|h| _ = h.conflicts().plain(&[]));
    case(&|h| _ = h.settle().plain(&[]));
    case(&|h| _ = h.el().plain(&[]));
    case(&|h| {
        h.plain(&[]).type_lookup(0, &[]).ambient_lookup(&[]).root(0).plain(&[]);
        h.equal(0, 0).push(record(6, 2, 0, &[], &[])).plain(&[]).close().plain(&[]);
    });
    // Parents of kinds 1 to 3 need not be Models; counts need not match.
    case(&|h| {
        h.plain(&[]).plain(&[0]).pred(&[0], &[1]).func(&[0], &[1, 1], 1).els(3);
        h.apply(0, &[], &[0], 1).apply(0, &[0, 1], &[1, 2, 0, 1], 2);
        h.holds(0, &[], &[0]).holds(0, &[1, 2, 0, 1], &[0, 1, 2]).close().conflicts();
    });
    // An argument without a type does not stop the ones after it.
    case(&|h| {
        h.plain(&[]).plain(&[0]).func(&[], &[1, 0], 0).pred(&[], &[1, 0]).els(4);
        h.apply(0, &[], &[0, 1], 2).holds(0, &[], &[2, 3]).close();
    });
    // Facts of several types on one element: one conflict per class, and facts
    // without parents.
    case(&|h| {
        h.plain(&[]).plain(&[]).plain(&[0]).els(3);
        for typ in [0, 1] {
            h.impose(1, typ, &[]).impose(2, typ, &[]);
        }
        h.impose(1, 2, &[0]).impose(1, 2, &[2]).conflicts().close().conflicts();
    });
    // Facts are ordered by type, then place by place.
    case(&|h| {
        h.plain(&[]).plain(&[0, 0]).plain(&[0]).els(4).impose(0, 2, &[1]).impose(0, 1, &[2, 1]);
        h.impose(0, 1, &[1, 3]).impose(0, 1, &[1, 2]).impose(3, 2, &[2]).impose(3, 2, &[1]);
        h.close().conflicts();
    });
    // Marked parents: the order of the facts as roots decides who joins whom.
    for marks in [[true, false, false], [false, true, false], [false, false, true]] {
        case(&|h| {
            h.plain(&[]).plain(&[0]).el();
            for mark in marks {
                h.push(record(6, mark.into(), 0, &[], &[]));
            }
            h.impose(0, 1, &[1]).impose(0, 1, &[2]).impose(0, 1, &[3]);
            h.close().conflicts().equal(3, 2).close().close().conflicts();
        });
    }
    // Impositions that become equal stay.
    case(&|h| {
        h.plain(&[]).plain(&[0]).els(3).impose(0, 1, &[1]).impose(0, 1, &[2]).equal(1, 2);
        h.close().impose(0, 1, &[2]).close().impose(2, 1, &[2]).impose(1, 1, &[1]);
    });
    // Ambients, variables and predicate applications are stored as given.
    case(&|h| {
        h.model(&[]).pred(&[0], &[0]).els(3).equal(0, 1).close();
        h.var(5, 1).var(0, 2).ambient(0, 1).holds(0, &[1], &[1]).holds(0, &[0], &[0]);
        h.holds(0, &[1], &[1]).ambient_lookup(&[0, 0]).equal(0, 2).close();
        h.ambient_lookup(&[0]).holds(0, &[0], &[0]);
    });
    // The results of one key, in the order of the old keys.
    case(&|h| {
        h.plain(&[]).func(&[], &[0], 0).els(7);
        h.apply(0, &[], &[2], 3).apply(0, &[], &[1], 5).apply(0, &[], &[0], 4);
        h.equal(0, 1).equal(1, 2).close().close();
    });
    cases
}

/// Finds and lookups with their refusals.
fn lookups() -> History {
    let mut h = History::new();
    h.model(&[]).model(&[]).plain(&[0, 1]).plain(&[0]);
    h.root(0).root_const(0).ambient_lookup(&[]).ambient_lookup(&[0]);
    h.els(2).ambient(1, 1).ambient(0, 0);
    h.ambient_lookup(&[1, 0, 1, 1]).ambient_lookup(&[0, 2]); // 10
    h.ambient_lookup(&[2, 4]).ambient_lookup(&[4]); // 5, not 10
    let mut five = record(AMBIENT_LOOKUP, 0, 0, &[], &[0, 4, 0, 0]);
    five[5] = 5;
    h.push(five); // 3, not 5
    five[5] = u16::MAX;
    h.push(five); // 3
    for given in 0..=4 {
        h.type_lookup(2, &[7, 8, 9, 10][..given]).type_lookup(3, &[1, 1, 1, 1][..given]);
    }
    h.type_lookup(4, &[]).type_lookup(u16::MAX, &[0]); // 5
    let mut five = record(TYPE_LOOKUP, 4, 0, &[0, 0, 0, 0], &[]);
    five[4] = 5;
    h.push(five); // 3, not 5
    h.root(1).root(2).root_const(2).root_const(u16::MAX); // 5
    h
}

/// A chain of links as long as it can be, found and shortened.
fn deep_links(els: u16) -> History {
    let mut h = History::new();
    h.plain(&[]).plain(&[0]).els(els.into());
    for el in 1..els {
        h.equal(el - 1, el);
    }
    h.close();
    let last = els - 1;
    h.root_const(last).equal(last, last).root_const(last);
    h.root(last).root_const(last).root_const(last - 1);
    h.equal(last, last - 1).root_const(last).root_const(last - 1).root_const(last - 2);
    h.var(0, last).root_const(last).impose(last, 1, &[last]).root_const(last);
    h.root(last / 2).root_const(last / 2).equal(0, 0).close().root(last);
    h
}

/// A stored result that a close left stale, given again. Element 3 is marked
/// and joins 0 in the impositions, after functionality.
fn stale_results() -> History {
    let mut h = History::new();
    h.model(&[]).plain(&[0]).func(&[], &[], 0).el().el().el().marked_el();
    h.apply(0, &[], &[], 3).impose(2, 1, &[0]).impose(2, 1, &[3]).close();
    h.apply(0, &[], &[], 3).apply(0, &[], &[], 0).apply(0, &[], &[], 1).close().close();
    h
}

/// A stale result two links deep: 5 joins 3, and 3 joins 0. Given again, its path
/// is shortened.
fn deep_stale_result() -> History {
    let mut h = History::new();
    h.model(&[]).plain(&[0]).func(&[], &[], 0).els(3).marked_el().el().marked_el();
    h.apply(0, &[], &[], 5).impose(2, 1, &[3]).impose(2, 1, &[5]).impose(2, 1, &[0]);
    h.close().root_const(5).apply(0, &[], &[], 5).root_const(5).close();
    h
}

/// A stored key that a close left stale, given again: it gets a second entry,
/// which the next close makes one with the first.
fn stale_keys() -> History {
    let mut h = History::new();
    h.model(&[]).plain(&[0]).func(&[], &[1], 1).el().el().el().marked_el();
    h.apply(0, &[], &[3], 1).impose(2, 1, &[0]).impose(2, 1, &[3]).close();
    h.apply(0, &[], &[3], 2).apply(0, &[], &[0], 1).close().close().conflicts();
    h
}

/// Marked parents that join in the course of a close, where the order of the
/// passes and of the facts decides who joins whom, or in which round.
fn joins() -> Vec<History> {
    let mut start = History::new();
    start.model(&[]).plain(&[0]).plain(&[0, 0]).plain(&[0; 4]).pred(&[0], &[1]);
    start.func(&[0], &[], 1).func(&[0], &[1], 1).func(&[], &[0], 0);
    let with_els = |marked: &[u16], els: u16| {
        let mut h = start.clone();
        for el in 0..els {
            h.push(record(6, marked.contains(&el).into(), 0, &[], &[]));
        }
        h
    };

    // Typing joins 3 and 2 and drains the pair that functionality had queued.
    let mut whole_queue = with_els(&[3], 8);
    whole_queue.apply(2, &[], &[0], 4).apply(2, &[], &[1], 5).equal(0, 1);
    whole_queue.apply(0, &[2], &[], 6).apply(0, &[3], &[], 6).close().close();

    // As stored the facts of 0 have parents 2, 5; as roots 1, 2.
    let mut order_of_roots = with_els(&[6], 8);
    order_of_roots.impose(0, 1, &[2]).impose(0, 1, &[5]).close().equal(1, 5);
    order_of_roots.apply(0, &[6], &[], 0).close();
    order_of_roots.impose(7, 1, &[6]).impose(7, 1, &[1]).close().conflicts();

    // One look at the facts of 4 joins 1, 2 and 3 at once.
    let mut one_look = with_els(&[1, 2, 3], 9);
    one_look.impose(4, 1, &[1]).impose(5, 1, &[2]).impose(6, 1, &[3]).close();
    one_look.equal(4, 5).equal(5, 6).apply(0, &[0], &[], 4);
    one_look.apply(2, &[], &[3], 7).apply(2, &[], &[0], 8).close().close();

    // Only facts of one type join, and they do in every parent.
    let mut every_parent = with_els(&[2, 3, 4], 6);
    every_parent.impose(0, 2, &[1, 1]).impose(0, 2, &[1, 3]).impose(0, 1, &[2]);
    every_parent.impose(5, 3, &[1; 4]).impose(5, 3, &[1, 1, 1, 4]).close().conflicts();

    // A merge without a new fact is a change.
    let mut merge_alone = with_els(&[2], 3);
    merge_alone.impose(0, 1, &[1]).close().impose(0, 1, &[2]).close().close();

    // Element 0 gets parents 3 and 2 or 4: function arguments come first, then
    // predicate arguments, then results.
    let mut arguments_first = with_els(&[3], 6);
    arguments_first.holds(0, &[3], &[0]).holds(0, &[4], &[0]).apply(1, &[2], &[0], 5);
    arguments_first.close().conflicts().impose(1, 1, &[3]).impose(1, 1, &[2]).close().conflicts();
    let mut results_last = with_els(&[3], 6);
    results_last.holds(0, &[3], &[0]).holds(0, &[4], &[0]).apply(0, &[2], &[], 0);
    results_last.close().conflicts().impose(1, 1, &[3]).impose(1, 1, &[2]).close().conflicts();

    // The first result is typed before the merge with the second: 2 is marked
    // and joins 1 one round earlier if the first result holds it.
    let mut first_result = Vec::new();
    for results in [[6, 7], [7, 6]] {
        let mut h = with_els(&[2], 8);
        h.impose(results[0], 1, &[2]).close();
        h.apply(1, &[1], &[3], results[0]).apply(1, &[1], &[4], results[1]);
        h.equal(3, 4).close().close();
        first_result.push(h);
    }
    let orders = [arguments_first, results_last];
    let rounds = [whole_queue, order_of_roots, one_look, every_parent, merge_alone];
    rounds.into_iter().chain(orders).chain(first_result).collect()
}

/// Sheets that are edges by their bytes or their chain.
fn sheet_shapes() -> Vec<Entry> {
    let close = record(13, 0, 0, &[], &[]);
    let settle = record(15, 0, 0, &[], &[]);
    let el = record(6, 0, 0, &[], &[]);
    let sheet = |bytes: Vec<u8>| Entry { mode: SHEET, bytes };
    let linked = |links: &[u16], words: Words| {
        let records: Vec<Words> = links.iter().map(|&next| with_next(words, next)).collect();
        Entry { mode: SHEET_WITH_DUMPS, bytes: bytes(&records) }
    };
    let mut full = vec![close; 1024];
    full[0] = el;
    let mut entries = vec![
        sheet(vec![]),
        sheet(vec![0]),
        sheet(vec![0; 31]),
        sheet(vec![0; 32]),
        sheet(vec![0; 33]),
        sheet(bytes(&[close])[..31].to_vec()),
        sheet([bytes(&[close]), vec![0]].concat()),
        sheet([bytes(&[close]), vec![0; 32]].concat()),
        sheet(bytes(&chained(&full))),
        sheet(bytes(&chained(&full))[..32767].to_vec()),
        sheet([bytes(&chained(&full)), vec![0]].concat()),
        sheet(bytes(&chained(&[full.clone(), vec![close]].concat()))),
        linked(&[0], el),
        linked(&[1], el),
        linked(&[1], record(99, 0, 0, &[], &[])), // 2, not 3
        linked(&[0, 0], el),
        linked(&[1, 0], el),
        linked(&[1, 1], el),
        linked(&[1, 2], el),
        linked(&[2, 0], el),
        linked(&[2, 0, 1], el),
        linked(&[2, 1, 1], el),
        linked(&[1, 2, 1], el),
        linked(&[1, 2, 3], el),
        linked(&[2, 9, 0], el),
        linked(&[1, 1, 0, 0, 0], close),
        linked(&[1, 1, 0], settle),
        linked(&[3, 4, 0, 1, 2], el),
        linked(&[u16::MAX, 0], el),
    ];
    // A loop over a whole sheet, its last visit neither zero nor done.
    let mut looped = chained(&full);
    looped[1023][0] = 1;
    entries.push(sheet(bytes(&looped)));
    entries
}

fn with_next(words: Words, next: u16) -> Words {
    let mut words = words;
    words[0] = next;
    words
}

/// Each table of the signature filled, and one more.
fn signature_limits() -> Vec<History> {
    let mut types = History::new();
    for _ in 0..33 {
        types.plain(&[]);
    }
    types.mor(0, &[]).plain(&[32]).push(record(1, 4, 0, &[], &[])); // 6, 5, 3, not 9
    types.el().plain(&[]); // 4, not 9

    let mut preds = History::new();
    preds.plain(&[]);
    for _ in 0..33 {
        preds.pred(&[], &[0]);
    }
    preds.pred(&[1], &[]).el().holds(31, &[], &[0]).holds(32, &[], &[0]).close();

    let mut funcs = History::new();
    funcs.plain(&[]);
    for _ in 0..65 {
        funcs.func(&[], &[], 0);
    }
    funcs.func(&[], &[], 1).el().apply(63, &[], &[], 0).apply(64, &[], &[], 0).close();

    let mut models = History::new();
    for number in 0..9 {
        models.model(&[]).mor(2 * number, &[]);
    }
    for _ in 0..36 {
        models.func(&[], &[], 0);
    }
    for number in 0..9 {
        let first = 4 * number;
        models.model_ids(2 * number, 2 * number + 1, [first, first + 1, first + 2, first + 3]);
    }
    models.model_ids(0, 1, [32, 33, 34, 35]).model_ids(16, 1, [32, 33, 34, 35]); // 8, 6

    let mut mor_apps = History::new();
    mor_apps.model(&[]).mor(0, &[]).mor(0, &[]);
    for _ in 0..17 {
        mor_apps.plain(&[0]);
    }
    for _ in 0..34 {
        mor_apps.func(&[], &[], 0);
    }
    for number in 0..33 {
        mor_apps.mor_app(number, 1 + number % 2, 3 + number / 2);
    }
    mor_apps.mor_app(33, 1, 3).mor_app(33, 3, 3); // 8, 6
    vec![types, preds, funcs, models, mor_apps]
}

/// Each table of the structure filled, and one more.
fn structure_limits() -> Vec<History> {
    let mut els = History::new();
    els.els(256).var(0, 255).el().equal(255, 256).close().el();
    els.push(record(6, 2, 0, &[], &[])); // 3, not 9

    let mut pairs = History::new();
    pairs.els(2).equal(1, 0);
    for _ in 0..255 {
        pairs.equal(0, 1);
    }
    pairs.equal(0, 1).equal(0, 0).equal(0, 2); // 9, 9, 5
    pairs.close().equal(0, 0);

    vec![
        els,
        pairs,
        pairs_by_applications(false),
        pairs_by_applications(true),
        pairs_by_stale_results(),
        impositions(),
        function_applications(false),
        function_applications(true),
        predicate_applications(),
        deep_links(256),
        long_rounds(),
        full_queue_inside_a_close(),
    ]
}

/// With all pairs queued an application needs no pair if its key is new or its
/// result is the stored one.
fn pairs_by_applications(with_record_5: bool) -> History {
    let mut h = History::new();
    h.model(&[]).mor(0, &[]);
    for _ in 0..6 {
        h.func(&[], &[], 0);
    }
    h.model_ids(0, 1, [1, 2, 3, 4]);
    if with_record_5 {
        h.mor_app(5, 1, 0);
    }
    h.els(2).apply(0, &[], &[], 0).apply(3, &[], &[0], 0);
    for _ in 0..256 {
        h.equal(0, 1);
    }
    h.apply(0, &[], &[], 1).apply(0, &[], &[], 0).apply(0, &[], &[0], 1);
    // With a record 5 it is 7 for all of these; else 9, 12, 12.
    h.apply(3, &[], &[0], 1).apply(3, &[], &[], 0).apply(4, &[], &[0], 0);
    h.apply(0, &[], &[], 2).apply(3, &[], &[], 2); // 5
    h.close().apply(0, &[], &[], 1).close();
    h
}

/// A stale result of the same class needs a pair.
fn pairs_by_stale_results() -> History {
    let mut h = stale_results();
    h.records.truncate(11);
    for _ in 0..256 {
        h.equal(0, 0);
    }
    h.apply(0, &[], &[], 3).apply(0, &[], &[], 0).close().apply(0, &[], &[], 3);
    h
}

fn impositions() -> History {
    let mut h = History::new();
    h.plain(&[]).plain(&[0]).els(9);
    for el in 0..8 {
        for parent in 0..8 {
            h.impose(el, 1, &[parent]);
        }
    }
    h.impose(0, 1, &[8]).impose(0, 1, &[0]).impose(0, 2, &[8]); // 9, accepted, 5
    for el in 1..8 {
        h.equal(0, el);
    }
    h.close().impose(7, 1, &[7]).impose(8, 1, &[8]).close();
    h
}

fn function_applications(with_record_5: bool) -> History {
    let mut h = History::new();
    h.plain(&[]).model(&[]).mor(1, &[]);
    for _ in 0..6 {
        h.func(&[], &[0], 0);
    }
    h.model_ids(1, 2, [1, 2, 3, 4]);
    if with_record_5 {
        h.mor_app(5, 2, 0);
    }
    h.els(16);
    for left in 0..16 {
        for right in 0..16 {
            h.apply(0, &[left], &[right], left);
        }
    }
    h.apply(0, &[], &[], 0).apply(0, &[0], &[0], 0).apply(0, &[0], &[0], 1); // 9, no, yes
                                                                             // With a record 5 it is 7 for all of these; else 9, 12, 9, 12.
    h.apply(3, &[], &[0], 0).apply(3, &[], &[], 0).apply(4, &[], &[0, 0], 0).apply(4, &[], &[0], 0);
    h.apply(8, &[], &[], 0).apply(3, &[], &[], 16); // 5
    h.close().apply(0, &[], &[], 0).apply(0, &[], &[1, 1], 1);
    h
}

fn predicate_applications() -> History {
    let mut h = History::new();
    h.plain(&[]).pred(&[], &[0]).els(16);
    for left in 0..16 {
        for right in 0..16 {
            h.holds(0, &[left], &[right]);
        }
    }
    h.holds(0, &[], &[]).holds(0, &[0], &[0]).holds(1, &[], &[]); // 9, no, 5
    h.equal(0, 1).close().holds(0, &[], &[]).holds(0, &[1], &[1]);
    h
}

/// Two chains of applications that merge one element a round.
fn long_rounds() -> History {
    let mut h = History::new();
    h.plain(&[]).func(&[], &[0], 0).els(256);
    for el in 0..127 {
        h.apply(0, &[], &[el], el + 1).apply(0, &[], &[el + 128], el + 129);
    }
    h.equal(0, 128).close().close().conflicts().root_const(255);
    h
}

/// One close queues 255 pairs by functionality and one more by typing: the keys
/// are all lists of 254 and 255, which merge, and 253 is marked.
fn full_queue_inside_a_close() -> History {
    let mut h = History::new();
    h.model(&[]).plain(&[0]).func(&[0], &[1], 0);
    h.els(253).marked_el().els(2).impose(254, 1, &[253]).close();
    for key in 0..256 {
        let at = |bit: u16| 254 + (key >> bit) % 2;
        h.apply(0, &[at(7), at(6), at(5), at(4)], &[at(3), at(2), at(1), at(0)], key);
    }
    h.equal(254, 255).close().close();
    h
}

/// Four types without parents, one with one parent, one with two, a predicate
/// that gives an element the first four, and 256 elements of which those up to
/// `marked` are marked.
pub fn fact_signature(marked: usize) -> History {
    let mut h = History::new();
    h.plain(&[]).plain(&[]).plain(&[]).plain(&[]).plain(&[0]).plain(&[0, 0]);
    h.pred(&[], &[0, 1, 2, 3]).func(&[0], &[], 4);
    for el in 0..256 {
        h.push(record(6, u16::from(el < marked), 0, &[], &[]));
    }
    h
}

/// Gives four facts to each of the elements.
pub fn four_facts_each(h: &mut History, els: impl Iterator<Item = u16>) {
    for el in els {
        h.holds(0, &[], &[el, el, el, el]);
    }
}

/// Fact 1,024 and fact 1,025.
fn fact_limits() -> Vec<History> {
    // By typing alone, then one more by an imposition.
    let mut typed = fact_signature(0);
    four_facts_each(&mut typed, 0..256);
    typed.close().close().impose(0, 4, &[1]).close().conflicts().close();

    // Fact 1,025 in typing. The close had merged before it was refused.
    let mut refused = fact_signature(0);
    four_facts_each(&mut refused, 0..255);
    refused.close().root_const(9).equal(255, 9).apply(0, &[7], &[], 7).close();
    for parent in 0..4 {
        refused.impose(20, 4, &[parent]);
    }
    refused.close().root_const(255).conflicts().close();

    // The last fact and the one too many by impositions.
    let mut imposed = fact_signature(0);
    four_facts_each(&mut imposed, 0..255);
    for parent in 0..4 {
        imposed.impose(20, 4, &[parent]);
    }
    imposed.close().close().impose(20, 4, &[3]).close().impose(20, 4, &[4]).close().conflicts();

    let mut cases = vec![typed, refused, imposed];
    for extra in [6, 7] {
        cases.push(stale_copy_imposed(extra));
        cases.push(stale_copy_typed(extra));
    }
    cases.extend([merges_make_room(), only_a_moment(), only_in_the_rounds()]);
    cases
}

/// 1,017 facts and `extra` more; then the parent of one merges, so that it and
/// its rewritten copy both count. With 7 more the close is refused.
fn stale_copy_imposed(extra: u16) -> History {
    let mut h = fact_signature(0);
    four_facts_each(&mut h, (0..256).filter(|&el| el != 1 && el != 2));
    h.impose(0, 4, &[2]);
    for parent in 0..extra {
        h.impose(0, 4, &[parent + 3]);
    }
    h.close().equal(1, 2).close().root_const(2).conflicts().close();
    h
}

/// The same where typing makes the copy.
fn stale_copy_typed(extra: u16) -> History {
    let mut h = fact_signature(0);
    four_facts_each(&mut h, (0..256).filter(|&el| el != 1 && el != 2));
    h.apply(0, &[2], &[], 0);
    for parent in 0..extra {
        h.impose(0, 4, &[parent + 3]);
    }
    h.close().equal(1, 2).close().root_const(2).conflicts().close();
    h
}

/// 1,024 facts, and an imposing that merges before it inserts: 3 and 4 are
/// marked and hold the same four facts.
fn merges_make_room() -> History {
    let mut h = fact_signature(5);
    four_facts_each(&mut h, 0..255);
    h.impose(10, 5, &[3, 11]);
    for parent in 20..23 {
        h.impose(parent, 4, &[parent]);
    }
    h.close().close().impose(10, 5, &[4, 12]).close().root_const(4).conflicts();
    h
}

/// 1,024 facts, then one more, then an imposing that would merge some away.
fn only_a_moment() -> History {
    let mut h = fact_signature(5);
    four_facts_each(&mut h, 0..255);
    h.impose(10, 5, &[3, 11]);
    for parent in 20..23 {
        h.impose(parent, 4, &[parent]);
    }
    h.close().impose(23, 4, &[23]).impose(10, 5, &[4, 12]).close().root_const(4).close();
    h
}

/// 1,025 facts by typing, of which the impositions would merge some away.
fn only_in_the_rounds() -> History {
    let mut h = fact_signature(5);
    four_facts_each(&mut h, 0..255);
    h.impose(10, 5, &[3, 11]).close();
    for parent in 20..24 {
        h.apply(0, &[parent], &[], parent);
    }
    h.impose(10, 5, &[4, 12]).close().root_const(4).close();
    h
}

/// A settled structure, then a close that is refused with 11, with dumps: 205
/// applications give five facts each to 15 elements.
fn refused_close_in_full() -> History {
    let mut h = History::new();
    h.plain(&[]);
    for _ in 0..5 {
        h.plain(&[0]);
    }
    h.func(&[0], &[1, 2, 3, 4], 5).els(15).close();
    for number in 0..205 {
        let (el, parent) = (number / 14, number % 14);
        h.apply(0, &[parent], &[el, el, el, el], el);
    }
    h.var(3, 14).close().equal(13, 14).close();
    h
}
