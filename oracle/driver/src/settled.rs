//! Histories of the question whether a structure is settled (M-101), asked after
//! every call: what takes it away, what leaves it, and what gives it back.

use crate::edges;
use crate::history::{record, History};

/// All of them, for lists.
pub fn all() -> Vec<History> {
    let mut cases = accepted();
    cases.extend(full_queues());
    cases.extend(refused());
    cases
}

/// The builder's case: settled, an equality, and the closes after it.
pub fn builder() -> History {
    let mut h = History::new();
    h.els(2).settle().equal(0, 1).close().close();
    h
}

/// A settled structure: 1 is in the class of 0, and 4 in that of 3. Element 2 has a
/// type by an imposition, 3 as a result, 5 as an argument of a predicate. Element 6 is
/// marked and 7 is alone.
pub fn start() -> History {
    let mut h = History::new();
    h.model(&[]).plain(&[0]).func(&[0], &[], 1).func(&[], &[1], 0).pred(&[0], &[1]);
    h.els(6).marked_el().el().equal(0, 1).equal(3, 4);
    h.impose(2, 1, &[1]).apply(0, &[1], &[], 4).holds(0, &[1], &[5]).settle();
    h
}

/// A call, or a few.
pub type Calls<'a> = &'a dyn Fn(&mut History);

/// Calls that `start` answers with yes. A close then changes something.
pub const YES_WITH_WORK: [Calls; 6] = [
    &|h| _ = h.equal(1, 7),
    &|h| _ = h.impose(7, 1, &[1]),
    &|h| _ = h.apply(0, &[7], &[], 7),
    &|h| _ = h.apply(0, &[1], &[], 7),
    &|h| _ = h.holds(0, &[7], &[7]),
    // The two parents join at the end of a close, so the next one changes something too.
    &|h| _ = h.apply(0, &[6], &[], 7).impose(2, 1, &[6]),
];

/// Calls that `start` answers with yes, though there is nothing for a close to do.
pub const YES_WITHOUT_WORK: [Calls; 3] = [
    // A predicate application under another name.
    &|h| _ = h.holds(0, &[1], &[5]),
    // An imposition of a type that the element has as a result.
    &|h| _ = h.impose(4, 1, &[1]),
    // An application whose result has its type already.
    &|h| _ = h.apply(0, &[1, 2], &[], 4),
];

/// Calls that `start` answers with no, as given before and under other names.
pub const NO: [Calls; 9] = [
    &|h| _ = h.equal(0, 1),
    &|h| _ = h.equal(4, 3),
    &|h| _ = h.equal(6, 6),
    &|h| _ = h.impose(2, 1, &[1]),
    &|h| _ = h.impose(2, 1, &[0]),
    &|h| _ = h.apply(0, &[1], &[], 4),
    &|h| _ = h.apply(0, &[0], &[], 3),
    &|h| _ = h.apply(0, &[0], &[], 4),
    &|h| _ = h.holds(0, &[0], &[5]),
];

/// Calls that have no such answer.
pub const OTHERS: [Calls; 9] = [
    &|h| _ = h.el(),
    &|h| _ = h.marked_el(),
    &|h| _ = h.var(3, 4),
    &|h| _ = h.ambient(0, 1),
    &|h| _ = h.conflicts(),
    &|h| _ = h.root(4),
    &|h| _ = h.root_const(4),
    &|h| _ = h.type_lookup(1, &[4]),
    &|h| _ = h.ambient_lookup(&[]),
];

/// Histories without a refused call.
pub fn accepted() -> Vec<History> {
    let mut cases = vec![builder(), builder().with_settles()];
    // Calls after the settled structure, and two closes. An element comes before the
    // second, and the first has a settle in its place too.
    let mut after_start = |calls: Calls| {
        let mut h = start();
        calls(&mut h);
        h.close().el().close();
        cases.extend([h.with_settles(), h]);
    };
    for calls in [&YES_WITH_WORK[..], &YES_WITHOUT_WORK, &NO, &OTHERS].concat() {
        after_start(calls);
    }
    // All that leave it, one after the other, and again.
    after_start(&|h| {
        for calls in [&NO[..], &OTHERS, &NO].concat() {
            calls(h);
        }
    });
    // A no after a yes gives nothing back, nor does any other call.
    for yes in [&YES_WITH_WORK[..], &YES_WITHOUT_WORK].concat() {
        after_start(&|h| {
            yes(h);
            for calls in [&NO[..], &OTHERS].concat() {
                calls(h);
            }
        });
    }
    // What was a yes is a no, with and without a close between.
    for yes in [&YES_WITH_WORK[..5], &YES_WITHOUT_WORK].concat() {
        after_start(&|h| {
            yes(h);
            yes(h);
            h.settle();
            yes(h);
        });
    }
    let mut case = |build: Calls| {
        let mut h = History::new();
        build(&mut h);
        cases.push(h);
    };
    // A fresh structure is not settled, whatever is called before its first close.
    case(&|h| {
        h.model(&[]).pred(&[], &[]).el().equal(0, 0).holds(0, &[], &[]).holds(0, &[], &[]);
        h.var(0, 0).ambient(0, 0).conflicts().root(0).root_const(0).type_lookup(0, &[]);
        h.ambient_lookup(&[0]).close();
    });
    case(&|h| _ = h.close().el().equal(0, 0).close());
    case(&|h| _ = h.settle().marked_el().equal(0, 0).equal(0, 0).settle());
    // A close that changed something, and calls that leave it so.
    case(&|h| {
        h.plain(&[]).pred(&[], &[0]).els(2).equal(0, 1).impose(0, 0, &[]).close();
        h.equal(0, 1).impose(1, 0, &[]).conflicts().el().close().holds(0, &[], &[0]).close();
    });
    cases
}

/// Settled structures with a queue that is full, or almost.
pub fn full_queues() -> Vec<History> {
    let mut cases = Vec::new();
    let mut case = |build: Calls| {
        let mut h = History::new();
        build(&mut h);
        cases.push(h);
    };
    // Equalities within a class fill the queue; a close empties it and reports no change.
    case(&|h| {
        h.els(3).equal(0, 1).settle();
        for _ in 0..128 {
            h.equal(0, 1).equal(2, 2);
        }
        h.var(0, 1).close().equal(1, 0).settle();
    });
    // A full queue, and calls that need no place in it.
    case(&|h| {
        h.model(&[]).func(&[], &[], 0).pred(&[], &[0]).els(2);
        h.apply(0, &[], &[], 1).holds(0, &[], &[0]).impose(0, 0, &[]).settle();
        for _ in 0..256 {
            h.equal(0, 0);
        }
        h.apply(0, &[], &[], 1).holds(0, &[], &[0]).impose(0, 0, &[]).el().marked_el();
        h.var(0, 1).ambient(0, 1).conflicts().root(1).root_const(1).type_lookup(0, &[]);
        h.ambient_lookup(&[0]).settle();
    });
    // A yes that takes the last place of the queue.
    case(&|h| {
        h.els(2).settle();
        for _ in 0..255 {
            h.equal(0, 0);
        }
        h.equal(0, 1).close().close();
    });
    cases
}

/// Refused calls in a settled structure, of every kind and number that can be met.
fn refused() -> Vec<History> {
    let mut cases = Vec::new();
    for (mut h, records) in edges::numbered_refusals() {
        h.settle();
        for (_, words) in records.iter().filter(|(number, _)| *number != 0) {
            h.push(*words);
        }
        h.root(9).root_const(9).type_lookup(9, &[]).ambient_lookup(&[9]).ambient_lookup(&[3]);
        h.close();
        cases.push(h);
    }
    let mut h = start();
    for kind in 6..=15 {
        h.push(record(kind, 0, 0, &[], &[0; 4]));
    }
    cases.push(h);
    // Number 9 where the answer would be yes.
    let mut case = |build: Calls| {
        let mut h = History::new();
        build(&mut h);
        cases.push(h);
    };
    case(&|h| _ = h.els(256).settle().el().close());
    case(&|h| {
        h.plain(&[]).func(&[], &[], 0).els(2).apply(0, &[], &[], 0).settle();
        for _ in 0..256 {
            h.equal(0, 0);
        }
        h.equal(0, 1).equal(0, 0).apply(0, &[], &[], 1).close().apply(0, &[], &[], 1).close();
    });
    case(&|h| {
        h.plain(&[]).plain(&[0]).els(9);
        for number in 0..64 {
            h.impose(number / 8, 1, &[number % 8]);
        }
        h.settle().impose(0, 1, &[8]).impose(0, 1, &[0]).close();
    });
    case(&|h| {
        h.plain(&[]).func(&[], &[0], 0).pred(&[], &[0]).els(17);
        for number in 0..256 {
            h.apply(0, &[number / 16], &[number % 16], 0);
            h.holds(0, &[number / 16], &[number % 16]);
        }
        h.settle().apply(0, &[], &[16], 0).holds(0, &[], &[16]);
        h.apply(0, &[0], &[0], 0).holds(0, &[0], &[0]).close();
    });
    cases
}
