//! Histories of identities and composites (M-102): what their laws give, how many
//! rounds that takes, and where a close has no room for it.

use crate::edges::Numbered;
use crate::history::{record, History};
use crate::settles::as_many_closes;

/// The functions of the model in the signatures here.
pub const DOM: u16 = 0;
pub const COD: u16 = 1;
pub const ID: u16 = 2;
pub const COMP: u16 = 3;

/// A function whose applications without parents give no fact.
pub const FILL: u16 = 4;

/// A function that gives a box one part; two boxes with one part join where one is
/// marked.
pub const PART: u16 = 5;

/// A Model 0 with its Mor 1 and functions.
pub fn signature() -> History {
    let mut h = History::new();
    h.model(&[]).mor(0, &[]).plain(&[0]);
    h.func(&[], &[1], 0).func(&[], &[1], 0).func(&[], &[0], 1).func(&[], &[1, 1], 1);
    h.func(&[], &[], 2).model_ids(0, 1, [DOM, COD, ID, COMP]);
    h
}

/// A Model 0 of boxes, a type of parts under it, and a Model 2 with its Mor 3 and
/// functions that have a box as parent. The predicate gives a box a part too.
pub fn under_boxes() -> History {
    let mut h = History::new();
    h.model(&[]).plain(&[0]).model(&[]).mor(2, &[]);
    h.func(&[0], &[3], 2).func(&[0], &[3], 2).func(&[0], &[2], 3).func(&[0], &[3, 3], 3);
    h.func(&[], &[], 1).func(&[0], &[], 1).pred(&[0], &[1]);
    h.model_ids(2, 3, [DOM, COD, ID, COMP]);
    h
}

/// Elements, of which these are marked.
fn with_marks(mut h: History, els: u16, marked: &[u16]) -> History {
    for el in 0..els {
        h.push(record(6, marked.contains(&el).into(), 0, &[], &[]));
    }
    h
}

/// Small ones, to be run with dumps.
pub fn small() -> Vec<History> {
    let mut cases = vec![beside_the_book(), builder(), two_models(), in_other_order()];
    cases.extend(laws());
    cases.extend(disagreeing());
    cases.extend([reversed_chain(6), forward_chain(6), squares(5), chains_in_boxes(2, 3)]);
    cases.extend(parents());
    cases.extend(stale());
    cases.extend([one_more_than_elements(2), one_more_than_elements(4), no_law_to_obey()]);
    cases
}

/// The values that one law gives, one history for each.
pub fn laws() -> Vec<History> {
    let mut cases = Vec::new();
    let mut case = |build: &dyn Fn(&mut History)| {
        let mut h = signature();
        h.els(6);
        build(&mut h);
        cases.push({ h.close().close().conflicts().root_const(5) }.clone());
    };
    case(&|h| _ = h.apply(ID, &[], &[0], 1));
    case(&|h| _ = h.apply(ID, &[], &[0], 0));
    for el in [0, 1] {
        for func in [DOM, COD] {
            case(&|h| _ = h.apply(ID, &[], &[0], 1).apply(func, &[], &[el], 5));
        }
    }
    // A composite 2 of 0 and 1 gets, or gives, one value; nothing without one.
    case(&|h| _ = h.apply(COMP, &[], &[0, 1], 2));
    for el in [0, 1, 2] {
        for func in [DOM, COD] {
            case(&|h| _ = h.apply(COMP, &[], &[0, 1], 2).apply(func, &[], &[el], 5));
        }
    }
    cases
}

/// Composites both sides of whose laws have a value, so that the two are joined.
pub fn disagreeing() -> Vec<History> {
    let mut cases = Vec::new();
    let sides = [(DOM, 0), (COD, 0), (DOM, 1), (COD, 1), (DOM, 2), (COD, 2)];
    for (at, (func, el)) in sides.into_iter().enumerate() {
        for (other_func, other) in &sides[at + 1..] {
            let mut h = signature();
            h.els(6).apply(COMP, &[], &[0, 1], 2);
            h.apply(func, &[], &[el], 3).apply(*other_func, &[], &[*other], 4);
            h.close().close();
            cases.push(h);
        }
    }
    // The pairs of an identity, drained last first.
    let mut h = signature();
    h.els(5).apply(ID, &[], &[3], 4).apply(DOM, &[], &[4], 1).apply(COD, &[], &[4], 2).close();
    cases.push(h);
    cases
}

/// The close joins 4 and 5: 0 and 3 are equal, and so are the doms of 0 and 2.
pub fn beside_the_book() -> History {
    let mut h = signature();
    h.els(6).apply(COMP, &[], &[0, 1], 2).apply(DOM, &[], &[3], 4).apply(DOM, &[], &[2], 5);
    h.equal(0, 3).close().close();
    h
}

/// All types are known before the maps are composed, so that the laws alone work, in a
/// settled structure: first an application is added, then a pair queued.
pub fn builder() -> History {
    let mut h = signature();
    h.els(8).apply(DOM, &[], &[0], 3).apply(DOM, &[], &[1], 4).apply(COD, &[], &[1], 5);
    h.apply(DOM, &[], &[2], 6).settle();
    h.apply(COMP, &[], &[0, 1], 2).apply(COMP, &[], &[0, 1], 2).conflicts().close();
    h.apply(COMP, &[], &[0, 1], 2).close().apply(ID, &[], &[5], 1).apply(ID, &[], &[4], 1);
    h.close().apply(ID, &[], &[5], 1).close().close();
    h
}

/// Two models; the functions of the second are numbered the other way round.
fn two_models() -> History {
    let mut h = signature();
    h.model(&[]).mor(3, &[]);
    h.func(&[], &[4, 4], 4).func(&[], &[3], 4).func(&[], &[4], 3).func(&[], &[4], 3);
    h.model_ids(3, 4, [8, 7, 6, 5]).els(10);
    h.apply(6, &[], &[0], 1).apply(5, &[], &[2, 1], 3).apply(5, &[], &[3, 4], 5);
    h.apply(8, &[], &[2], 6).apply(7, &[], &[5], 7).apply(ID, &[], &[8], 9);
    h.apply(COMP, &[], &[1, 9], 1).close().close().conflicts();
    h
}

/// Function numbers and element numbers that lead the pass through the laws in another
/// order.
fn in_other_order() -> History {
    let mut h = History::new();
    h.model(&[]).mor(0, &[]);
    h.func(&[], &[1, 1], 1).func(&[], &[0], 1).func(&[], &[1], 0).func(&[], &[1], 0);
    h.model_ids(0, 1, [3, 2, 1, 0]).els(9);
    h.apply(0, &[], &[5, 4], 3).apply(0, &[], &[4, 3], 2).apply(0, &[], &[3, 5], 1);
    h.apply(1, &[], &[0], 5).apply(3, &[], &[2], 7).apply(2, &[], &[2], 8);
    h.close().close();
    h
}

/// Map i, then g, is map i - 1, and the last map has a dom. The composites are taken
/// in order, so each round gives the dom of one map more: one round more than
/// composites, and no merge.
pub fn reversed_chain(count: u16) -> History {
    let mut h = signature();
    let (g, x) = (count + 1, count + 2);
    h.els(usize::from(count) + 3);
    for map in 1..=count {
        h.apply(COMP, &[], &[map, g], map - 1);
    }
    h.apply(DOM, &[], &[count], x).close().close().conflicts();
    h
}

/// The same where the first map has the dom: one round gives all.
pub fn forward_chain(count: u16) -> History {
    let mut h = reversed_chain(count);
    for words in h.records.iter_mut().filter(|words| words[1] == 9 && words[2] == DOM) {
        words[10] = 0;
    }
    h
}

/// Each map twice is the one before it. A composite adds two applications before it in
/// the table.
fn squares(count: u16) -> History {
    let mut h = signature();
    h.els(usize::from(count) + 2);
    for map in 1..=count {
        h.apply(COMP, &[], &[map, map], map - 1);
    }
    h.apply(DOM, &[], &[count], count + 1).close().close();
    h
}

/// Reversed chains over the same maps, each in its own box, with no merge but those
/// that start the next: where a chain ends, typing joins its box and the marked box of
/// the next. So a close runs many more rounds than there are elements.
pub fn chains_in_boxes(chains: u16, count: u16) -> History {
    let mut h = History::new();
    h.model(&[]).plain(&[0]).model(&[]).mor(2, &[]);
    h.func(&[0, 0], &[1], 2).func(&[0, 0], &[3], 2);
    h.func(&[0, 0], &[2], 3).func(&[0, 0], &[3, 3], 3).pred(&[0], &[1]);
    h.model_ids(2, 3, [DOM, COD, ID, COMP]);
    // For each chain a box, a second parent, and the map that it ends with; then what
    // they share; then the map that each begins with.
    let (second, end, g, x, maps) =
        (chains, 2 * chains, 3 * chains, 3 * chains + 1, 3 * chains + 2);
    let begin = maps + count;
    let marked: Vec<u16> = (1..chains).collect();
    let mut h = with_marks(h, begin + chains, &marked);
    for chain in 0..chains {
        let parents = [chain, second + chain];
        for map in 1..count {
            h.apply(COMP, &parents, &[maps + map, g], maps + map - 1);
        }
        h.apply(COMP, &parents, &[maps, g], end + chain);
        h.apply(COMP, &parents, &[begin + chain, g], maps + count - 1);
        // The dom of the map that it begins with stands in the box of the chain before.
        h.apply(DOM, &[chain.saturating_sub(1), second + chain], &[begin + chain], x);
        if chain > 0 {
            h.holds(0, &[chain], &[end + chain - 1]);
        }
    }
    h.close().close().conflicts();
    h
}

/// Parents as they are declared, others, and more or fewer of them.
fn parents() -> Vec<History> {
    let mut cases = Vec::new();
    let mut case = |build: &dyn Fn(&mut History)| {
        let mut h = under_boxes();
        h.els(9);
        build(&mut h);
        cases.push({ h.close().close().conflicts() }.clone());
    };
    case(&|h| _ = h.apply(ID, &[0], &[2], 3).apply(ID, &[1], &[4], 3));
    case(&|h| _ = h.apply(ID, &[], &[2], 3).apply(ID, &[0, 1], &[4], 3).apply(DOM, &[0], &[3], 5));
    case(&|h| {
        h.apply(COMP, &[0], &[2, 3], 4).apply(DOM, &[1], &[2], 5).apply(COD, &[0, 1], &[3], 6);
        h.apply(COD, &[], &[2], 7).apply(COMP, &[1], &[3, 4], 2).apply(COD, &[1], &[4], 8);
    });
    case(&|h| {
        h.apply(COMP, &[1], &[2, 3], 4).apply(DOM, &[0], &[2], 5).apply(DOM, &[1], &[4], 6);
        h.equal(0, 1);
    });
    // dom and cod with other than one argument have no law.
    case(&|h| {
        h.apply(ID, &[0], &[2], 3).apply(DOM, &[0], &[3, 3], 4).apply(COD, &[0], &[], 5);
    });
    cases
}

/// Boxes that join in typing, so that the laws of that round find keys and results that
/// are no roots.
pub fn stale() -> Vec<History> {
    // Box 1 joins 0. Its applications are found under it, as they are stored, in the
    // same round; what they give is stored under 0. The second composite, earlier in
    // order, shows in which round that was.
    let mut parent = with_marks(under_boxes(), 9, &[1]);
    parent.apply(PART, &[0], &[], 2).apply(PART, &[1], &[], 2).apply(DOM, &[1], &[4], 7);
    parent.apply(COMP, &[1], &[4, 5], 6).apply(COMP, &[1], &[3, 5], 6).close().close();
    // The key under 0 is there already.
    let mut both = with_marks(under_boxes(), 9, &[1]);
    both.apply(PART, &[0], &[], 2).apply(PART, &[1], &[], 2).apply(DOM, &[1], &[4], 7);
    both.apply(COMP, &[1], &[4, 5], 6).apply(DOM, &[0], &[6], 8).close().close();
    let mut identity = with_marks(under_boxes(), 9, &[1]);
    identity.apply(PART, &[0], &[], 2).apply(PART, &[1], &[], 2).apply(ID, &[1], &[4], 7);
    identity.apply(DOM, &[0], &[7], 8).close().close();
    // Map 5 joins 3: it is looked up as 3, and its dom is stored under 5.
    let mut argument = with_marks(under_boxes(), 9, &[5]);
    argument.apply(PART, &[3], &[], 2).apply(PART, &[5], &[], 2).apply(DOM, &[0], &[5], 8);
    argument.apply(COMP, &[0], &[5, 6], 7).apply(COMP, &[0], &[1, 6], 7).close().close();

    // Element 5 joins 3, and 3 joins 0, in typing. A law that queues 5 shortens its
    // path, also within one class.
    let deep = || {
        let mut h = with_marks(under_boxes(), 10, &[3, 5]);
        h.holds(0, &[3], &[2]).holds(0, &[5], &[2]).apply(PART, &[0], &[], 2);
        h
    };
    let mut stored = deep();
    stored.apply(ID, &[9], &[0], 7).apply(DOM, &[9], &[7], 5);
    let mut given = deep();
    given.apply(ID, &[9], &[5], 7).apply(DOM, &[9], &[7], 0).apply(COD, &[9], &[7], 0);
    let mut returned = deep();
    returned.apply(COMP, &[9], &[6, 8], 7).apply(DOM, &[9], &[6], 5);
    let mut another = deep();
    another.apply(ID, &[9], &[1], 7).apply(DOM, &[9], &[7], 5);
    let mut cases = vec![parent, both, identity, argument];
    for mut h in [stored, given, returned, another] {
        h.close().root_const(5).close();
        cases.push(h);
    }

    // Boxes that join in the impositions leave stale keys for the next close.
    let mut imposed = with_marks(under_boxes(), 9, &[1]);
    imposed.apply(DOM, &[0], &[4], 7).apply(COMP, &[1], &[4, 5], 6).apply(ID, &[1], &[8], 5);
    imposed.impose(2, 1, &[0]).impose(2, 1, &[1]).close().close().close();
    cases.push(imposed);
    cases
}

/// A settle of one close more than there are elements, which are 2 to 31: all but the
/// last two merge one element each with 0, the last of them element 1, and then the
/// laws add an application.
pub fn one_more_than_elements(els: u16) -> History {
    let mut h = with_marks(under_boxes(), els, &[1]);
    if els == 2 {
        h.impose(0, 1, &[0]).impose(0, 1, &[1]);
    } else {
        let slow = as_many_closes(els).records;
        let types = usize::from(els) - 1;
        let (model, mor) = (types as u16, types as u16 + 1);
        h.records = slow[..types].to_vec();
        h.model(&[]).mor(model, &[]);
        h.func(&[0], &[mor], model).func(&[0], &[mor], model);
        h.func(&[0], &[model], mor).func(&[0], &[mor, mor], mor);
        h.model_ids(model, mor, [DOM, COD, ID, COMP]);
        h.records.extend(&slow[types..slow.len() - 1]);
    }
    h.apply(COMP, &[1], &[0, 0], 0).apply(DOM, &[0], &[0], 0).settle();
    h
}

/// A model that is applied in dom and cod only, and functions that no model has.
fn no_law_to_obey() -> History {
    let mut h = signature();
    h.func(&[], &[0], 1).func(&[], &[1, 1], 1).els(6);
    h.apply(5, &[], &[0], 1).apply(6, &[], &[1, 1], 2).apply(DOM, &[], &[1], 3);
    h.apply(COD, &[], &[1], 4).equal(0, 5).close().close();
    h
}

/// Identities with one result. Each but the first queues two pairs: 129 of them close,
/// 130 have no room.
pub fn identities(count: u16) -> History {
    let mut h = signature();
    h.els(usize::from(count) + 1);
    for el in 0..count {
        h.apply(ID, &[], &[el], count);
    }
    h
}

/// Composites of one map whose dom is not that of the results. Each queues two pairs:
/// 128 of them close, 129 have no room.
pub fn composites(count: u16) -> History {
    let mut h = signature();
    let (f, first) = (2, 4);
    h.els(usize::from(first + count)).apply(DOM, &[], &[f], 0).apply(DOM, &[], &[3], 1);
    for g in first..first + count {
        h.apply(COMP, &[], &[f, g], 3);
    }
    h
}

/// Applications that give no fact and no law.
pub fn fill(h: &mut History, count: u16) -> &mut History {
    for number in 0..count {
        h.apply(FILL, &[], &[number / 16, number % 16], 0);
    }
    h
}

/// Closes at the limits of their tables, and one more: each accepted or refused with 9
/// or 11, and closed once more.
pub fn limits() -> Vec<History> {
    let mut cases = Vec::new();
    for count in [129, 130] {
        cases.push(identities(count));
    }
    for count in [128, 129] {
        cases.push(composites(count));
    }
    // 256 pairs, and laws that need none: their value is stored.
    let mut stored = identities(129);
    stored.els(3).apply(ID, &[], &[131], 132);
    stored.apply(DOM, &[], &[132], 131).apply(COD, &[], &[132], 131);
    cases.push(stored);
    // 70 pairs of functionality, and 186 or 188 of the laws.
    for count in [94, 95] {
        let mut h = identities(count);
        h.els(160);
        for el in 100..171 {
            h.apply(FILL, &[], &[el], el + 71).equal(100, el);
        }
        cases.push(h);
    }
    // 256 or 254 pairs, and one within a class: 5 joins 3, and 3 joins 0, in typing.
    for count in [129, 128] {
        let mut h = with_marks(under_boxes(), 150, &[3, 5]);
        h.holds(0, &[3], &[2]).holds(0, &[5], &[2]).apply(PART, &[0], &[], 2);
        for el in 10..10 + count {
            h.apply(ID, &[0], &[el], 149);
        }
        h.apply(ID, &[9], &[0], 7).apply(DOM, &[9], &[7], 5);
        cases.push(h);
    }
    // 256 applications, and one more, by an identity.
    for count in [253, 254, 255] {
        let mut h = signature();
        fill(h.els(18), count).apply(ID, &[], &[16], 17);
        cases.push(h);
    }
    // The same by a composite; and what is stored already needs no room.
    for count in [253, 254] {
        let mut h = signature();
        fill(h.els(20), count).apply(COMP, &[], &[16, 17], 18).apply(DOM, &[], &[18], 19);
        cases.push(h);
    }
    let mut known = signature();
    fill(known.els(18), 253).apply(ID, &[], &[16], 17);
    known.apply(DOM, &[], &[17], 16).apply(COD, &[], &[17], 16);
    cases.push(known);
    // A merge makes room before the laws come.
    let mut room = signature();
    fill(room.els(18), 255).apply(ID, &[], &[16], 17).equal(0, 1);
    cases.push(room);
    for (one_app, one_fact) in [(false, false), (true, false), (false, true), (true, true)] {
        cases.push(nine_and_eleven(one_app, one_fact));
    }
    cases.extend([eleven_before_nine(), nine_before_impositions()]);
    for h in &mut cases {
        h.close().root_const(5).close().conflicts();
    }
    cases.extend([nine_in_a_second_close(false), nine_in_a_second_close(true)]);
    cases.extend([pairs_in_a_second_close(128), pairs_in_a_second_close(129)]);
    cases
}

/// Four types for each of 255 elements and one for the last; a dom that gives a fact to
/// its argument and to its value; a cod that gives none.
pub fn many_facts() -> History {
    let mut h = History::new();
    h.model(&[]).mor(0, &[]).plain(&[0]).plain(&[]).plain(&[]).plain(&[]).plain(&[]).plain(&[]);
    h.func(&[], &[7], 7).func(&[], &[], 2).func(&[], &[0], 1).func(&[], &[1, 1], 1);
    h.func(&[], &[], 2).pred(&[], &[3, 4, 5, 6]);
    h.model_ids(0, 1, [DOM, COD, ID, COMP]).els(256);
    for el in 0..255 {
        h.holds(0, &[], &[el, el, el, el]);
    }
    h
}

/// 1,022 facts and two more by typing the first dom, which comes in the round after the
/// laws gave it: 1,024, or one more. 256 applications, or one more, in the round
/// before; that number is met first.
pub fn nine_and_eleven(one_app: bool, one_fact: bool) -> History {
    let mut h = many_facts();
    fill(&mut h, 253 + u16::from(one_app)).apply(ID, &[], &[16], 17);
    if one_fact {
        h.holds(0, &[], &[255]);
    }
    h
}

/// Fact 1,025 in typing, and in the same round application 257 by the laws.
pub fn eleven_before_nine() -> History {
    let mut h = many_facts();
    fill(&mut h, 254).apply(ID, &[], &[16], 17).holds(0, &[], &[255, 255, 255]);
    h
}

/// Application 257 in a round, and fact 1,025 in the impositions.
pub fn nine_before_impositions() -> History {
    let mut h = many_facts();
    fill(&mut h, 254).apply(ID, &[], &[16], 17);
    for typ in [3, 4, 5, 6] {
        h.impose(255, typ, &[]);
    }
    h
}

/// A settle whose first close joins two boxes in the impositions. In the second the
/// laws give application 256, or one more.
pub fn nine_in_a_second_close(one_more: bool) -> History {
    let mut h = with_marks(under_boxes(), 18, &[17]);
    fill(&mut h, 253 + u16::from(one_more));
    h.apply(COMP, &[17], &[4, 5], 6).apply(DOM, &[16], &[4], 7);
    h.impose(2, 1, &[16]).impose(2, 1, &[17]).settle().root_const(17).close().close().settle();
    h
}

/// The same with pairs: each composite queues two.
fn pairs_in_a_second_close(count: u16) -> History {
    let mut h = with_marks(under_boxes(), 10 + count, &[1]);
    h.apply(DOM, &[0], &[3], 4).apply(DOM, &[0], &[5], 6);
    for g in 10..10 + count {
        h.apply(COMP, &[1], &[3, g], 5);
    }
    h.impose(2, 1, &[0]).impose(2, 1, &[1]).settle().root_const(1).close().close().settle();
    h
}

/// A refused close with dumps: it joins 1 and 0 before it meets 9.
pub fn refused_in_full() -> History {
    let mut h = identities(130);
    h.equal(0, 1).equal(1, 2).close().equal(129, 128).equal(128, 127).close().close();
    h
}

/// Applications of id and comp, and the number that refuses each or 0: without a
/// record 5, and with one, also of another Mor than the model's.
pub fn numbered_refusals() -> Vec<(History, Vec<Numbered>)> {
    // The second model's id is declared with a parent and two arguments, its comp with
    // no argument; that is not looked at.
    let models = || {
        let mut h = signature();
        h.model(&[]).mor(3, &[]);
        h.func(&[], &[4], 3).func(&[], &[4], 3).func(&[0], &[3, 3], 4).func(&[], &[], 4);
        h.func(&[], &[1, 0], 0).model_ids(3, 4, [5, 6, 7, 8]);
        h
    };
    let with_five = |words: [u16; 16]| {
        let mut words = words;
        words[5] = 5;
        words
    };
    let free = vec![
        (0, record(9, ID, 1, &[], &[0])),
        (0, record(9, ID, 1, &[2], &[0])),
        (0, record(9, COMP, 1, &[], &[0, 1])),
        (0, record(9, COMP, 1, &[0, 1, 2, 0], &[0, 1])),
        (0, record(9, 7, 1, &[], &[0])),
        (0, record(9, 8, 1, &[], &[0, 1])),
        (0, record(9, 9, 1, &[], &[])), // of no model
        (0, record(9, DOM, 1, &[], &[])),
        (0, record(9, COD, 1, &[], &[0, 1])),
        (12, record(9, ID, 1, &[], &[])),
        (12, record(9, ID, 1, &[], &[0, 1])),
        (12, record(9, ID, 1, &[], &[0, 1, 2, 0])),
        (12, record(9, COMP, 1, &[], &[])),
        (12, record(9, COMP, 1, &[], &[0])),
        (12, record(9, COMP, 1, &[], &[0, 1, 2])),
        (12, record(9, COMP, 1, &[], &[0, 1, 2, 0])),
        (12, record(9, 7, 1, &[0], &[0, 1])),
        (12, record(9, 8, 1, &[], &[])),
        (3, with_five(record(9, ID, 1, &[], &[0, 1, 2, 0]))), // not 12
        (5, record(9, ID, 3, &[], &[])),                      // result, not 12
        (5, record(9, ID, 1, &[3], &[])),                     // parent, not 12
        (5, record(9, COMP, 1, &[], &[0, 3, 0])),             // argument, not 12
    ];
    let barred = vec![
        (7, record(9, ID, 1, &[], &[0])),
        (7, record(9, COMP, 1, &[], &[0, 1])),
        (7, record(9, 7, 1, &[], &[0])),
        (7, record(9, 8, 1, &[], &[0, 1])),
        (7, record(9, 9, 1, &[], &[0, 1])), // morphism application
        (7, record(9, ID, 1, &[], &[])),    // not 12
        (7, record(9, COMP, 1, &[], &[0])), // not 12
        (7, record(9, 8, 1, &[], &[])),     // not 12
        (5, record(9, ID, 3, &[], &[0])),   // not 7
        (0, record(9, DOM, 1, &[], &[0])),
        (0, record(9, COD, 1, &[], &[0])),
        (0, record(9, 5, 1, &[], &[0])),
    ];
    let els = |h: &mut History| h.els(3).clone();
    vec![
        (els(&mut models()), free),
        (els(models().mor_app(9, 1, 0)), barred.clone()),
        (els(models().mor_app(9, 4, 2)), barred.clone()),
        // A Mor that no record 4 names.
        (els(models().mor(0, &[]).mor_app(9, 5, 2)), barred),
    ]
}
