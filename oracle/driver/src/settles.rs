//! Histories of settles (kind 15): how many closes they run, and where one of
//! these closes is refused.

use crate::history::{record, History};

/// Small ones, to be run with dumps.
pub fn small() -> Vec<History> {
    let mut cases = Vec::new();
    let mut case = |build: &dyn Fn(&mut History)| {
        let mut h = History::new();
        build(&mut h);
        cases.push(h);
    };
    // No element; a settled structure settles with one close.
    case(&|h| _ = h.settle().settle().conflicts().close().settle());
    // Number 4 follows an accepted settle and no refused one.
    case(&|h| {
        h.push(record(15, 1, 0, &[], &[])).plain(&[]).settle().plain(&[]).close().plain(&[]);
    });
    // Settled says nothing of what is declared after it: the next settle closes.
    case(&|h| {
        h.model(&[]).plain(&[0]).func(&[0], &[], 1).pred(&[0], &[1]).els(4);
        h.settle().equal(0, 1).settle().settle().impose(2, 1, &[0]).settle().settle();
        h.apply(0, &[1], &[], 2).settle().apply(0, &[0], &[], 3).settle().settle();
        h.holds(0, &[2], &[3]).settle().var(0, 3).ambient(0, 1).settle().conflicts();
    });
    // Conflicts before a settle, inside what it closes and after it.
    case(&|h| {
        p5_with_a_member(h);
        h.conflicts().close().conflicts().close().conflicts().close().conflicts();
    });
    case(&|h| _ = p5_with_a_member(h).conflicts().settle().conflicts());
    // What a settle finds half done: one close, or two, came before it.
    case(&|h| _ = p5_with_a_member(h).close().settle().settle());
    case(&|h| _ = p5_with_a_member(h).close().close().settle());
    // What a settle rewrites to roots, and ambient elements, which it leaves.
    case(&|h| {
        h.model(&[]).plain(&[0]).pred(&[0], &[1]).els(4).holds(0, &[1], &[2]).impose(3, 1, &[1]);
        h.var(5, 1).ambient(0, 1).settle().equal(0, 1).settle().root_const(1).settle();
    });
    // One close more than elements, and as many.
    case(&|h| _ = h.plain(&[]).el().impose(0, 0, &[]).settle());
    case(&|h| _ = h.els(2).equal(0, 1).settle());
    cases.extend((3..=6).map(as_many_closes));
    cases
}

/// P5's boxes and drums, and a part that is imposed under both drums.
fn p5_with_a_member(h: &mut History) -> &mut History {
    h.model(&[]).model(&[0]).func(&[0], &[], 1).plain(&[1]);
    h.el().marked_el().els(4).apply(0, &[0], &[], 2).apply(0, &[1], &[], 3);
    h.impose(4, 2, &[2]).impose(4, 2, &[3]).impose(5, 1, &[0]).impose(5, 1, &[1])
}

/// A settle of as many closes as there are elements, which are 3 to 33. Each close
/// but the last merges one element with 0; that one brings a fact along which, in
/// the next close, disagrees with one of 0 in a marked parent.
pub fn as_many_closes(els: u16) -> History {
    let mut h = History::new();
    h.model(&[]);
    for _ in 1..els - 1 {
        h.plain(&[0]);
    }
    h.el();
    for _ in 1..els {
        h.marked_el();
    }
    // The element that a close merges with 0.
    let merged = |close: u16| els - close;
    // What is for a later close stands earlier in the queue, and has its own type.
    for close in (3..els).rev() {
        let typ = close - 1;
        h.impose(0, typ, &[merged(close)]).impose(merged(close - 1), typ, &[0]);
    }
    h.impose(0, 1, &[merged(1)]).impose(merged(1), 1, &[merged(2)]).impose(0, 1, &[0]);
    h.settle();
    h
}

/// Few facts that come to many in one close of a settle, for number 11.
///
/// In close `levels + 1` the last element merges with the one before it, which is
/// smaller, in the next round that one with the one before it, and so on for
/// `steps` merges. The last element is a parent of five facts for each of `apps`
/// applications, of which there are at most 25. Each merge makes these facts stale,
/// and the same round puts copies with the new root beside them. The end of the
/// close makes them one again.
pub struct Copies {
    pub levels: u16,
    pub steps: u16,
    pub apps: u16,
}

impl Copies {
    /// Elements 0 to 4 get the facts, 5 is for `start`; then two for each level, the
    /// second one marked; then those that merge.
    pub fn els(&self) -> u16 {
        6 + 2 * self.levels + self.steps + 1
    }

    /// All but what starts it. Facts of type 6 may be added to elements 0 to 4.
    pub fn prepare(&self, h: &mut History) {
        h.model(&[]);
        for _ in 0..5 {
            h.plain(&[0, 0]);
        }
        h.plain(&[0]);
        h.func(&[0, 0], &[1, 2, 3, 4], 5).func(&[0], &[], 0).func(&[], &[0], 0).els(6);
        for _ in 0..self.levels {
            h.el().marked_el();
        }
        h.els(usize::from(self.steps) + 1);
        let last = self.els() - 1;
        for number in 0..self.apps {
            let (el, parent) = (number / 5, number % 5);
            h.apply(0, &[last, parent], &[el, el, el, el], el);
        }
        h.apply(2, &[], &[last], last);
        for el in last - self.steps + 1..last {
            h.apply(2, &[], &[el], el - 1);
        }
        // The two of a level merge at the end of a close, and so in the next close
        // those of the level after it.
        for level in (1..self.levels).rev() {
            let [a, b] = pair(level);
            h.impose(a - 2, 6, &[a]).impose(b - 2, 6, &[b]);
        }
        if self.levels > 0 {
            let [a, b] = pair(self.levels - 1);
            h.apply(1, &[a], &[], last - 1).apply(1, &[b], &[], last);
        }
    }

    /// Merges the two of the first level, or with no level the last two elements.
    pub fn start(&self, h: &mut History) {
        if self.levels > 0 {
            let [a, b] = pair(0);
            h.impose(5, 6, &[a]).impose(5, 6, &[b]);
        } else {
            h.equal(self.els() - 1, self.els() - 2);
        }
    }
}

/// The two elements of a level, from 0.
fn pair(level: u16) -> [u16; 2] {
    [6 + 2 * level, 7 + 2 * level]
}

/// A settled structure, and a settle that comes to 1,024 facts in close `levels + 1`
/// or, with one more, is refused there. The closes before it are accepted.
pub fn at_the_fact_limit(levels: u16, one_more: bool) -> History {
    let mut h = History::new();
    // 12 times 85 facts, and those of the elements that merge and of the levels.
    let copies = Copies { levels, steps: 11, apps: 17 };
    copies.prepare(&mut h);
    for parent in 0..3 - levels + u16::from(one_more) {
        h.impose(0, 6, &[parent]);
    }
    h.settle();
    copies.start(&mut h);
    h.settle().conflicts().root_const(7);
    for _ in 0..=levels {
        h.close();
    }
    h.settle();
    h
}
