//! Histories of the number of parents that an imposition gives (M-105).

use crate::edges::Numbered;
use crate::files;
use crate::history::{record, History, Words};

/// Types of no to four parents, one for each number: of every kind, a Mor of a Model
/// with another number, and with parents that are no Models or stand twice.
const TYPES: [(u16, &[u16]); 5] =
    [(1, &[]), (0, &[0]), (3, &[0, 1]), (2, &[0, 0, 1]), (1, &[1, 0, 1, 0])];

fn signature() -> History {
    with_types(&TYPES)
}

/// Types of these kinds with these parents. The model of a Mor is type 0.
fn with_types(types: &[(u16, &[u16])]) -> History {
    let mut h = History::new();
    for &(kind, parents) in types {
        h.push(record(1, kind, 0, parents, &[]));
    }
    h
}

/// Small ones, for lists with dumps.
pub fn small() -> Vec<History> {
    vec![every_number(), twice(), nothing_moves()]
}

/// Each number of parents of a type beside each number given, then with those that were
/// accepted a close and a report.
pub fn every_number() -> History {
    let mut h = signature();
    h.els(5);
    for typ in 0..5 {
        for given in 0..=4 {
            h.impose((typ + 2) % 5, typ, &[4, 3, 2, 1][..given]);
        }
    }
    h.close().conflicts();
    h
}

/// Places are counted, not elements or classes.
fn twice() -> History {
    let mut h = signature();
    h.els(5).impose(0, 2, &[1, 1]).impose(0, 2, &[1, 1, 2]).impose(0, 4, &[3; 4]);
    h.impose(0, 1, &[1, 1]).equal(1, 2).close().impose(3, 2, &[1, 2]);
    h.impose(3, 2, &[1, 2, 4]).impose(3, 3, &[2, 1, 2]).close().conflicts();
    h
}

/// A refused imposition leaves links that `root` would shorten, settled or not, and the
/// flag for number 4; what comes after it goes on.
fn nothing_moves() -> History {
    let mut h = signature();
    h.els(6).equal(1, 2).close().equal(0, 1).close().impose(3, 1, &[2]).settle();
    for _ in 0..2 {
        h.impose(2, 1, &[]).impose(2, 2, &[2]).impose(2, 0, &[2]).impose(3, 1, &[2, 2]);
        h.root_const(2).plain(&[]).conflicts().close().equal(4, 5);
    }
    h.impose(2, 2, &[2]).impose(2, 2, &[2, 3]).impose(2, 2, &[2, 3, 4]).close().conflicts();
    h
}

/// A full queue, and an imposition that is in it, with one parent less or more too.
pub fn numbered_refusals() -> (History, Vec<Numbered>) {
    let mut h = signature();
    h.els(9);
    for number in 0..64 {
        h.impose(number / 8, 1, &[number % 8]);
    }
    let with_tail = |words: Words| {
        let mut words = words;
        words[14] = 1;
        words
    };
    let records = vec![
        (9, record(8, 0, 1, &[8], &[])),
        (0, record(8, 0, 1, &[0], &[])),
        (15, record(8, 0, 1, &[], &[])),               // not 9
        (15, record(8, 0, 1, &[0, 0], &[])),           // the first parent is that of an entry
        (15, record(8, 0, 2, &[8], &[])),              // not 9
        (5, record(8, 0, 1, &[0, 9], &[])),            // not 15, not 9
        (3, with_tail(record(8, 0, 1, &[0, 9], &[]))), // not 5, not 15, not 9
    ];
    (h, records)
}

/// A fact and an imposition of each type, with as many parents as it has, and the file
/// with one parent less or one more in each of them. All parents are 0, so that the
/// number alone is wrong; the fifth parent of the last type has no place.
pub fn in_files() -> Vec<History> {
    let mut start = signature();
    start.els(5);
    for typ in 0..5 {
        start.impose(typ, typ, &[0; 4][..usize::from(typ)]);
    }
    start.close();
    let file = files::after(&start).store();
    let (facts, impositions) = (16 + 5, 16 + 5 + 8 * 5);
    let mut changed = start.clone();
    changed.store();
    for column in [facts + 5 * 5, impositions + 6 * 5] {
        for typ in 0..5 {
            let place = column + typ;
            assert_eq!(usize::from(file[place]), typ);
            for other in [typ.wrapping_sub(1), typ + 1] {
                if other <= 5 {
                    changed.set(place as u16, other as u8).load();
                }
            }
            changed.set(place as u16, typ as u8);
        }
    }
    changed.load().store();
    files::go_on(&mut changed);

    // Under signatures whose types have as many parents, or of which one has another
    // number.
    let mut signatures = vec![TYPES.to_vec()];
    signatures.push(vec![(0, &[]), (1, &[0]), (0, &[1, 1]), (0, &[2, 0, 0]), (2, &[3; 4])]);
    for (typ, parents) in [(1, &[][..]), (1, &[0, 0]), (2, &[0]), (3, &[0; 4]), (4, &[])] {
        let mut types = TYPES.to_vec();
        types[typ].1 = parents;
        signatures.push(types);
    }
    let mut elsewhere = start;
    elsewhere.store();
    for types in signatures {
        elsewhere.begin_again();
        with_types(&types).records.iter().for_each(|&words| _ = elsewhere.push(words));
        elsewhere.load().look_at_file().close().conflicts();
    }
    vec![changed, elsewhere]
}
