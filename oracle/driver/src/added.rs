//! Histories of the facts that a close adds (M-106).

use crate::edges::{fact_signature, four_facts_each};
use crate::history::{record, History};
use crate::maps::{COD, COMP, DOM, ID};

/// A history, and the four numbers of each of its closes.
pub type Closing = (History, Vec<[usize; 4]>);

/// The functions and the predicates of `start`.
const PART: u16 = 0;
const BOX: u16 = 1;
const IN_BOX: u16 = 0;
const OPEN: u16 = 1;

/// Boxes 0, parts 1 of a box and 2 of two boxes, a type 3 without parents; a function to
/// parts, one of boxes, a predicate of the parts of a box, one of a box and another element.
/// Elements, of which these are marked.
fn start(els: u16, marked: &[u16]) -> History {
    let mut h = History::new();
    h.model(&[]).plain(&[0]).plain(&[0, 0]).plain(&[]);
    h.func(&[0], &[], 1).func(&[], &[0], 0).pred(&[0], &[1]).pred(&[], &[0, 3]);
    for el in 0..els {
        h.push(record(6, marked.contains(&el).into(), 0, &[], &[]));
    }
    h
}

/// Small ones, to be run with dumps.
pub fn small() -> Vec<Closing> {
    let mut cases = Vec::new();
    let mut case = |marked: &[u16], closes: &[[usize; 4]], build: &dyn Fn(&mut History)| {
        let mut history = start(7, marked);
        build(&mut history);
        cases.push((history, closes.to_vec()));
    };
    let quiet = [0, 0, 1, 0];
    // What several ask for is added once: 0 and 1 are boxes, and 1 has the other type.
    case(&[], &[[1, 0, 2, 3], quiet, quiet], &|h| {
        h.apply(BOX, &[], &[0], 1).apply(BOX, &[], &[1], 0).holds(OPEN, &[], &[0, 1]);
        h.impose(0, 0, &[]).close().impose(1, 0, &[]).impose(1, 3, &[]).close();
        h.holds(OPEN, &[], &[1, 1]).close();
    });
    // In the rounds one, in the impositions two; then one; then, after a settle, one.
    case(&[], &[[1, 0, 2, 3], [1, 0, 1, 1], quiet, [1, 0, 2, 1], quiet], &|h| {
        h.holds(IN_BOX, &[1], &[4]).impose(4, 1, &[2]).impose(5, 1, &[2]).close();
        h.impose(5, 1, &[3]).close().close().impose(6, 1, &[3]).impose(6, 1, &[2]).settle();
        h.apply(PART, &[3], &[], 4).close().close();
    });
    // A merge moves facts, and of two that are one it drops one. None is added.
    case(&[], &[[1, 0, 1, 3], [1, 1, 2, 0], quiet], &|h| {
        h.impose(0, 1, &[2]).impose(1, 1, &[2]).impose(1, 1, &[3]).close();
        h.equal(0, 1).close().close();
    });
    // A stale fact, and its copy by typing, which is added; then one fact is left.
    case(&[], &[[1, 0, 2, 1], [1, 1, 2, 1], quiet], &|h| {
        h.apply(PART, &[1], &[], 2).close().equal(0, 1).close().close();
    });
    // Two copies, one in each round: box 2 joins 1 by an equality, 1 joins 0 as the result
    // of one key.
    case(&[], &[[1, 0, 2, 5], [1, 3, 3, 2], quiet], &|h| {
        h.apply(BOX, &[], &[3], 0).apply(BOX, &[], &[4], 1).apply(PART, &[2], &[], 5).close();
        h.equal(1, 2).equal(3, 4).close().close();
    });
    // Two elements get one fact each and then join, so that there is one.
    case(&[], &[[1, 2, 3, 4], quiet], &|h| {
        h.apply(BOX, &[], &[0], 2).apply(BOX, &[], &[1], 3).equal(0, 1);
        h.holds(IN_BOX, &[4], &[2]).holds(IN_BOX, &[4], &[3]).close().close();
    });
    // An imposing that merges: the stored fact is stale then, and its copy is added; the
    // stored fact is the one to be inserted; another parent differs, so that there are two;
    // two merges and one fact.
    case(&[3], &[[1, 0, 1, 1], [1, 1, 1, 1], quiet], &|h| {
        h.impose(4, 1, &[3]).close().impose(4, 1, &[1]).close().close();
    });
    case(&[3], &[[1, 0, 1, 1], [1, 1, 1, 0], quiet], &|h| {
        h.impose(4, 1, &[1]).close().impose(4, 1, &[3]).close().close();
    });
    case(&[3], &[[1, 0, 1, 1], [1, 1, 1, 1], quiet], &|h| {
        h.impose(4, 2, &[1, 2]).close().impose(4, 2, &[3, 5]).close().close();
    });
    case(&[3, 6], &[[1, 0, 1, 1], [1, 2, 1, 1], quiet], &|h| {
        h.impose(4, 2, &[3, 6]).close().impose(4, 2, &[1, 2]).close().close();
    });
    // The same in typing, which drains the pair of functionality too; 3 is a box then.
    case(&[6], &[[1, 0, 2, 4], [1, 3, 2, 2], quiet], &|h| {
        h.apply(BOX, &[], &[0], 2).apply(BOX, &[], &[1], 2).apply(PART, &[6], &[], 5).close();
        h.apply(BOX, &[], &[3], 0).apply(BOX, &[], &[4], 1).equal(3, 4);
        h.apply(PART, &[2], &[], 5).close().close();
    });
    cases.extend([laws_alone(), same_length(), every_round()]);
    cases
}

/// A Model 0 and its Mor 1 under it, which is the codomain of its functions. Applied without
/// parents they ask for no fact.
fn untyped_maps() -> History {
    let mut h = History::new();
    h.model(&[]).mor(0, &[0]);
    for _ in 0..4 {
        h.func(&[], &[], 1);
    }
    h.model_ids(0, 1, [DOM, COD, ID, COMP]);
    h
}

/// A change without a merge and without a fact: the laws give the identity its dom and cod.
fn laws_alone() -> Closing {
    let mut h = untyped_maps();
    h.el().apply(ID, &[], &[0], 0).close().close();
    (h, vec![[1, 0, 2, 0], [0, 0, 1, 0]])
}

/// The same where there are as many applications before and after. The first close joins 1
/// and 0 in its impositions. In the second the two doms are one, and a law gives 0 its cod.
fn same_length() -> Closing {
    let mut h = untyped_maps();
    h.el().marked_el().apply(COMP, &[1], &[1, 1], 1);
    h.apply(DOM, &[0], &[0], 0).apply(DOM, &[0], &[1], 0);
    h.impose(0, 1, &[1]).close().close().close();
    (h, vec![[1, 1, 2, 2], [1, 0, 2, 0], [0, 0, 1, 0]])
}

/// A fact in each round but the last, two in the first, and one in the impositions: each
/// round gives one map more a dom, which the next one types.
fn every_round() -> Closing {
    let mut h = History::new();
    h.model(&[]).mor(0, &[0]).plain(&[]);
    h.func(&[], &[2], 2);
    for _ in 0..3 {
        h.func(&[], &[], 1);
    }
    h.model_ids(0, 1, [DOM, COD, ID, COMP]).els(6);
    for map in 1..=3 {
        h.apply(COMP, &[], &[map, 4], map - 1);
    }
    h.apply(DOM, &[], &[3], 5).impose(4, 0, &[]).close().close();
    (h, vec![[1, 0, 5, 6], [0, 0, 1, 0]])
}

/// More facts than there can be at a time: 1,021 in the first round, of which merges leave
/// 257 in the second, and 64 in the impositions. The results of the 192 keys join, which are
/// lists of 254 and 255.
pub fn most() -> Closing {
    let mut h = fact_signature(0);
    four_facts_each(&mut h, 0..255);
    for key in 0..192 {
        let at = |bit: u16| 254 + (key >> bit) % 2;
        h.apply(0, &[at(7), at(6), at(5), at(4)], &[at(3), at(2), at(1), at(0)], key);
    }
    for number in 0..64 {
        h.impose(192 + number % 32, 4, &[192 + number / 32]);
    }
    h.equal(254, 255).close().close();
    (h, vec![[1, 192, 3, 1085], [0, 0, 1, 0]])
}
