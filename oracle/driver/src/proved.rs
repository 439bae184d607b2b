//! P1 to P10 of document 01.

use crate::history::History;

/// P1: fresh, close.
pub fn p1() -> History {
    let mut p = History::new();
    p.close();
    p
}

/// P2's types and function: a Model, a type under it, a function to that type.
fn p2_signature(p: &mut History) -> &mut History {
    p.model(&[]).plain(&[0]).func(&[0], &[], 1)
}

/// P2: two results with different parents made equal.
pub fn p2() -> History {
    let mut p = History::new();
    p2_signature(&mut p).els(4);
    p.apply(0, &[0], &[], 2).apply(0, &[1], &[], 3);
    p.equal(2, 3).close().conflicts();
    p
}

/// P3: a one-argument function whose arguments are made equal. Document 01
/// leaves its types open; here there is one Plain type.
pub fn p3() -> History {
    let mut p = History::new();
    p.plain(&[]).func(&[], &[0], 0).els(4);
    p.apply(0, &[], &[0], 2).apply(0, &[], &[1], 3);
    p.equal(0, 1).close();
    p
}

/// P4: an imposition whose parent merges later.
pub fn p4() -> History {
    let mut p = History::new();
    p.model(&[]).plain(&[0]).els(3);
    p.impose(2, 1, &[1]).close();
    p.equal(0, 1).close().close();
    p
}

/// P5: a marked parent that joins in the impositions.
pub fn p5() -> History {
    let mut p = History::new();
    p2_signature(&mut p).el().marked_el().els(3);
    p.apply(0, &[0], &[], 2).apply(0, &[1], &[], 3);
    p.impose(4, 1, &[0]).impose(4, 1, &[1]);
    p.close().close().close();
    p
}

/// P6: a type with two parents looked up with one and with three.
pub fn p6() -> History {
    let mut p = History::new();
    p.model(&[]).model(&[]).plain(&[0, 1]);
    p.type_lookup(2, &[7]).type_lookup(2, &[7, 8, 9]);
    p
}

/// P7: a type of two parents imposed with one, which is refused, and with two.
pub fn p7() -> History {
    let mut p = History::new();
    p.model(&[]).model(&[]).plain(&[0, 1]).els(3);
    p.impose(0, 2, &[1]).impose(0, 2, &[1, 2]).close().conflicts();
    p
}

/// P8: two equalities, the last drained first.
pub fn p8() -> History {
    let mut p = History::new();
    p.els(3).equal(1, 2).equal(0, 2).close();
    p
}

/// P9: two marked elements merged, or a marked one with an unmarked one.
pub fn p9(marks: [bool; 2]) -> History {
    let mut p = History::new();
    for mark in marks {
        if mark {
            p.marked_el();
        } else {
            p.el();
        }
    }
    p.equal(0, 1).close();
    p
}

/// P10: an element made equal to itself.
pub fn p10() -> History {
    let mut p = History::new();
    p.el().equal(0, 0).close();
    p
}

/// All of them; P9 with both, the first or the second marked.
pub fn all() -> Vec<History> {
    let p9s = [[true, true], [true, false], [false, true]].map(p9);
    let before = [p1(), p2(), p3(), p4(), p5(), p6(), p7(), p8()];
    before.into_iter().chain(p9s).chain([p10()]).collect()
}
