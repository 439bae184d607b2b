//! Histories of the finds of a conflict report (M-103).

use crate::history::{record, History};
use crate::{edges, maps};

/// A history, and the conflicts and the finds of each of its reports.
pub type Reported = (History, Vec<[usize; 2]>);

/// The number of parents of each type.
const PARENTS: [usize; 6] = [0, 4, 2, 0, 3, 1];

/// Types with `PARENTS`, and elements.
fn start(els: usize) -> History {
    let mut h = History::new();
    for count in PARENTS {
        h.plain(&[0; 4][..count]);
    }
    h.els(els);
    h
}

/// Small ones without a refused call.
pub fn small() -> Vec<Reported> {
    let mut cases = Vec::new();
    let mut case = |reports: &[[usize; 2]], build: &dyn Fn(&mut History)| {
        let mut history = start(9);
        build(&mut history);
        cases.push((history, reports.to_vec()));
    };
    // No fact; an imposition is none before a close; a class with one fact; two facts
    // that become one.
    case(&[[0, 0], [0, 0]], &|h| _ = h.conflicts().close().conflicts());
    case(&[[0, 0], [1, 2], [1, 2], [1, 2]], &|h| {
        h.impose(0, 2, &[1, 2]).impose(0, 4, &[1, 2, 3]).conflicts().close().conflicts();
        h.conflicts().close().conflicts();
    });
    case(&[[0, 0]], &|h| {
        h.impose(0, 1, &[5, 6, 7, 8]).impose(1, 2, &[5, 6]).impose(2, 0, &[]).close().conflicts();
    });
    case(&[[1, 1], [0, 0]], &|h| {
        h.impose(0, 5, &[4]).impose(0, 5, &[6]).close().conflicts();
        h.equal(4, 6).close().conflicts();
    });
    // Three facts, and four that disagree with the first; the last parent alone differs.
    case(&[[1, 2]], &|h| {
        h.impose(0, 2, &[5, 4]).impose(0, 2, &[4, 6]).impose(0, 2, &[4, 5]).close().conflicts();
    });
    case(&[[1, 3]], &|h| {
        h.impose(0, 4, &[1, 2, 3]).impose(0, 4, &[1, 2, 4]).impose(0, 4, &[1, 3, 2]);
        h.impose(0, 4, &[2, 2, 3]).impose(0, 5, &[1]).close().conflicts();
    });
    case(&[[1, 4]], &|h| {
        h.impose(0, 1, &[5, 6, 7, 8]).impose(0, 1, &[5, 6, 7, 7]).close().conflicts();
    });
    // The first fact decides, whenever it came and however many parents the others have.
    case(&[[1, 4]], &|h| _ = h.impose(0, 5, &[1]).impose(0, 1, &[5, 6, 7, 8]).close().conflicts());
    case(&[[1, 0]], &|h| _ = h.impose(0, 1, &[5, 6, 7, 8]).impose(0, 0, &[]).close().conflicts());
    case(&[[1, 0]], &|h| _ = h.impose(0, 0, &[]).impose(0, 3, &[]).close().conflicts());
    case(&[[1, 3], [1, 2], [1, 4], [1, 0]], &|h| {
        h.impose(0, 5, &[1]).impose(0, 4, &[1, 2, 3]).close().conflicts();
        h.impose(0, 2, &[1, 2]).close().conflicts();
        h.impose(0, 1, &[5, 6, 7, 8]).close().conflicts();
        h.impose(0, 0, &[]).close().conflicts();
    });
    // A parent twice, or four times; the element itself; one parent of several classes.
    case(&[[1, 2]], &|h| _ = h.impose(0, 2, &[4, 4]).impose(0, 5, &[4]).close().conflicts());
    case(&[[1, 4]], &|h| _ = h.impose(0, 1, &[0; 4]).impose(0, 1, &[1; 4]).close().conflicts());
    case(&[[3, 6]], &|h| {
        for el in [2, 0, 1] {
            h.impose(el, 2, &[4, 5]).impose(el, 2, &[5, 4]);
        }
        h.close().conflicts();
    });
    // Several classes: four, two and no finds; one fact; none; three finds.
    case(&[[4, 9]], &|h| {
        h.impose(0, 1, &[5, 6, 7, 8]).impose(0, 2, &[5, 6]).impose(1, 2, &[5, 6]);
        h.impose(1, 4, &[5, 6, 7]).impose(2, 0, &[]).impose(2, 1, &[5, 6, 7, 8]);
        h.impose(3, 4, &[5, 6, 7]).impose(5, 4, &[6, 7, 8]).impose(5, 4, &[6, 7, 7]);
        h.close().conflicts();
    });
    // The order of the roots decides: 5 joins 2, so that its fact comes first.
    case(&[[1, 3], [1, 3]], &|h| {
        h.impose(0, 4, &[5, 1, 1]).impose(0, 4, &[3, 4, 1]).close().conflicts();
        h.equal(2, 5).close().conflicts();
    });
    // Classes that merge: the facts of three elements, two of which become one.
    case(&[[0, 0], [1, 2]], &|h| {
        h.impose(0, 5, &[4]).impose(1, 2, &[4, 7]).impose(2, 2, &[6, 7]).close().conflicts();
        h.equal(0, 1).equal(1, 2).equal(4, 6).close().conflicts();
    });
    // A declared pair joins nothing before a close.
    case(&[[1, 1], [1, 1], [2, 3]], &|h| {
        h.impose(0, 5, &[4]).impose(0, 5, &[6]).impose(1, 2, &[4, 4]).close().conflicts();
        h.impose(1, 4, &[1, 2, 3]).equal(4, 6).conflicts();
        h.impose(0, 5, &[1]).close().conflicts();
    });
    cases.push(joined_boxes());
    cases
}

/// A marked box 2 joins box 0 in the impositions, so that two facts of element 3 are
/// one. A fact with box 1 then disagrees.
fn joined_boxes() -> Reported {
    let mut history = start(2);
    history.marked_el().els(3);
    history.impose(3, 5, &[2]).impose(4, 2, &[2, 1]).close().conflicts();
    history.impose(3, 5, &[0]).impose(4, 4, &[0, 1, 2]).close().conflicts();
    history.impose(3, 5, &[1]).close().conflicts();
    (history, vec![[0, 0], [1, 2], [2, 3]])
}

/// The same report after a close or a settle that is refused, with 3, 9 or 11. What
/// they would have worked gives a first fact without parents.
pub fn refused() -> [Reported; 3] {
    let mut three = start(9);
    three.impose(0, 2, &[1, 2]).impose(0, 5, &[1]).close().conflicts().impose(0, 0, &[]);
    three.push(record(13, 1, 0, &[], &[])).conflicts().push(record(15, 1, 0, &[], &[]));
    three.push(record(14, 1, 0, &[], &[])).conflicts().close().conflicts();

    let mut nine = maps::signature();
    nine.els(131).impose(0, 2, &[1]).impose(0, 2, &[2]).close().conflicts();
    for el in 0..130 {
        nine.apply(maps::ID, &[], &[el], 130);
    }
    nine.close().conflicts().settle().conflicts();

    let mut eleven = edges::fact_signature(0);
    eleven.impose(0, 5, &[1, 2]).impose(0, 5, &[2, 1]).close().conflicts();
    edges::four_facts_each(&mut eleven, 0..256);
    eleven.close().conflicts().settle().conflicts();

    [
        (three, vec![[1, 2], [1, 2], [1, 2], [1, 0]]),
        (nine, vec![[1, 1]; 3]),
        (eleven, vec![[1, 2]; 3]),
    ]
}

/// As many finds as there can be: 256 classes, each with a first fact of four parents.
pub fn most() -> Reported {
    let mut history = History::new();
    history.plain(&[]).plain(&[0; 4]).plain(&[0; 4]).pred(&[0; 4], &[1, 2]).els(256);
    for el in 0..256 {
        history.holds(0, &[el, 0, 255, el], &[el, el]);
    }
    history.close().conflicts();
    (history, vec![[256, 1024]])
}
