//! P1 to P10 as document 01 has them, settles, the edges, and the tools themselves.

use std::collections::BTreeSet;
use std::fs;
use std::path::Path;

use oracle::record::{self, Record, LOAD};
use oracle::stream::{self, Entry, LIST};
use standin::Fault;

use crate::compare::{first_difference, stream_of, Subject};
use crate::history::History;
use crate::rng::Rng;
use crate::settled::{self, Calls};
use crate::{
    added, counts, damage, edges, files, finds, histories, maps, proved, random, sample, settles,
    shrink,
};

/// What an entry prints, without the line that begins it.
fn answers(entry: &Entry) -> Vec<String> {
    let text = stream::answer(&stream_of(std::slice::from_ref(entry)));
    text.lines().skip(1).map(str::to_string).collect()
}

fn sheet(history: &History) -> Vec<String> {
    answers(&history.sheet())
}

fn list(history: &History) -> Vec<String> {
    answers(&history.list())
}

/// The structure after the last record of a list.
fn structure(history: &History) -> Vec<String> {
    let lines = answers(&history.list_with_dumps());
    let is_dump = |line: &String| line.as_bytes()[1] == b' ';
    let start = lines.iter().rposition(|line| !is_dump(line)).expect("it has answers");
    lines[start + 1..].to_vec()
}

/// The structure after the first so many records.
fn structure_after(history: &History, records: usize) -> Vec<String> {
    structure(&History { records: history.records[..records].to_vec() })
}

fn tagged(lines: &[String], tag: &str) -> Vec<String> {
    lines.iter().filter(|line| line.starts_with(tag)).cloned().collect()
}

#[test]
fn p1_fresh() {
    assert_eq!(sheet(&proved::p1()), ["close 0 0 1 0", "end 1"]);
}

#[test]
fn p2_one_conflict() {
    let lines = ["close 1 1 2 2", "conflict 2 1 0 / 1 1", "conflicts 1", "end 12"];
    assert_eq!(sheet(&proved::p2()), lines);
    let lines = ["close 1 1 2 2", "conflict 2 1 0 / 1 1", "conflicts 1 1"];
    assert_eq!(list(&proved::p2())[10..], lines);
}

#[test]
fn p3_results_of_one_key() {
    assert_eq!(sheet(&proved::p3()), ["close 1 2 3 2", "end 10"]);
}

#[test]
fn p4_stale_parent_of_a_fact() {
    let p = proved::p4();
    assert_eq!(sheet(&p), ["close 1 0 1 1", "close 1 1 2 1", "close 0 0 1 0", "end 10"]);
    assert_eq!(tagged(&structure(&p), "f "), ["f 2 1 0"]);
}

#[test]
fn p5_stale_key() {
    let p = proved::p5();
    assert_eq!(sheet(&p), ["close 1 1 2 3", "close 1 1 3 0", "close 0 0 1 0", "end 15"]);
    assert_eq!(tagged(&structure_after(&p, 13), "a "), ["a 0 0 / = 2", "a 0 1 / = 3"]);
    assert_eq!(tagged(&structure_after(&p, 14), "a "), ["a 0 0 / = 2"]);
    assert_eq!(tagged(&structure(&p), "i "), ["i 4 1 0", "i 4 1 0"]);
}

#[test]
fn p6_leading_parents() {
    assert_eq!(list(&proved::p6())[3..], ["absent", "type 2 7 8"]);
}

#[test]
fn p7_one_parent_of_two() {
    let p = proved::p7();
    assert_eq!(sheet(&p), ["refused 15 at 6"]);
    assert_eq!(list(&p)[6..], ["refused 15", "answer 1", "close 1 0 1 1", "conflicts 0 0"]);
    assert_eq!(tagged(&structure(&p), "f "), ["f 0 2 1 2"]);
    assert_eq!(structure_after(&p, 6), structure_after(&p, 7));
}

#[test]
fn p8_last_pair_first() {
    let p = proved::p8();
    assert_eq!(sheet(&p), ["close 1 2 2 0", "end 6"]);
    assert_eq!(tagged(&structure(&p), "e "), ["e 0 0 0", "e 1 0 0", "e 2 0 0"]);
}

#[test]
fn p9_marks() {
    let marks = |marks| tagged(&structure(&proved::p9(marks)), "e ");
    assert_eq!(marks([true, true]), ["e 0 0 1", "e 1 0 0"]);
    assert_eq!(marks([true, false]), ["e 0 0 0", "e 1 0 0"]);
    assert_eq!(marks([false, true]), ["e 0 0 0", "e 1 0 0"]);
}

#[test]
fn p10_equal_to_itself() {
    assert_eq!(sheet(&proved::p10()), ["close 0 0 1 0", "end 3"]);
}

#[test]
fn p1_p4_and_p5_as_settles() {
    let settled = |p: History| sheet(&p.with_settles());
    assert_eq!(settled(proved::p1()), ["settle 1 0", "end 1"]);
    assert_eq!(settled(proved::p4()), ["settle 2 0", "settle 2 1", "end 9"]);
    assert_eq!(settled(proved::p5()), ["settle 3 2", "end 13"]);
    for p in [proved::p1(), proved::p4(), proved::p5()] {
        assert_eq!(structure(&p.with_settles()), structure(&p));
    }
}

/// One close more than elements for none and one, as many for more.
#[test]
fn settles_of_the_most_closes() {
    assert_eq!(list(History::new().settle()), ["settle 1 0"]);
    let mut one = History::new();
    one.plain(&[]).el().impose(0, 0, &[]).settle();
    assert_eq!(list(&one)[3..], ["settle 2 0"]);
    for els in 3..=33 {
        let mut h = settles::as_many_closes(els);
        assert_eq!(list(&h).last(), Some(&format!("settle {els} {}", els - 1)));
        let before = h.records.len() - 1;
        h.records.truncate(before);
        for _ in 0..els {
            h.close();
        }
        let closes = &list(&h)[before..];
        let (last, others) = closes.split_last().expect("it has closes");
        assert_eq!(last, "close 0 0 1 0");
        assert!(others.iter().all(|line| line.starts_with("close 1 1 1 ")));
    }
}

/// The answer and the structure of a settle that comes to 1,024 facts or to one more
/// in a close after accepted ones.
#[test]
fn a_refused_settle_leaves_everything() {
    for levels in 0..=2 {
        let merges = levels + 11;
        let accepted = settles::at_the_fact_limit(levels, false);
        let line = format!("settle {} {merges}", levels + 2);
        assert!(list(&accepted).contains(&line));

        let refused = settles::at_the_fact_limit(levels, true);
        let is_settle = |words: &[u16; 16]| words[1] == 15;
        let first = refused.records.iter().position(is_settle).expect("it settles");
        let second = first + 3 - usize::from(levels == 0);
        assert!(is_settle(&refused.records[second]));
        let lines = list(&refused);
        assert_eq!((&lines[first][..], &lines[second][..]), ("settle 2 0", "refused 11"));
        assert_eq!(structure_after(&refused, second), structure_after(&refused, second + 1));
        // The closes that the settle ran, one at a time.
        let closes = &lines[lines.len() - usize::from(levels) - 2..lines.len() - 1];
        let (last, others) = closes.split_last().expect("it has closes");
        assert_eq!(last, "refused 11");
        assert!(others.iter().all(|line| line.starts_with("close 1 1 1 ")));
    }
}

/// The last line of each call's answer, and whether the structure is settled after it.
fn asked(history: &History) -> Vec<(String, bool)> {
    let lines = answers(&history.list_with_flags());
    let is_flags = |line: &String| line.starts_with("s ");
    let flags = (0..lines.len()).filter(|&at| is_flags(&lines[at]));
    flags.map(|at| (lines[at - 1].clone(), lines[at].ends_with('1'))).collect()
}

/// What calls answer after the settled structure of `settled::start`, and what a close
/// then does.
fn asked_after_start(calls: Calls) -> (Vec<(String, bool)>, (String, bool)) {
    let mut h = settled::start();
    let before = asked(&h);
    assert_eq!(before.last(), Some(&("settle 2 2".to_string(), true)));
    calls(&mut h);
    let mut after = asked(h.close()).split_off(before.len());
    let closed = after.pop().expect("it closes");
    (after, closed)
}

#[test]
fn the_builder_is_told_no() {
    let lines = ["settle 1 0", "answer 1", "close 1 1 2 0", "close 0 0 1 0"];
    let flags = [true, false, false, true];
    let expected: Vec<_> = lines.map(str::to_string).into_iter().zip(flags).collect();
    assert_eq!(asked(&settled::builder())[2..], expected);
}

#[test]
fn a_yes_takes_settled_away() {
    for (calls, changes) in settled::YES_WITH_WORK
        .map(|calls| (calls, true))
        .into_iter()
        .chain(settled::YES_WITHOUT_WORK.map(|calls| (calls, false)))
    {
        let (after, (line, is_settled)) = asked_after_start(calls);
        assert!(after.iter().all(|asked| *asked == ("answer 1".to_string(), false)));
        assert_eq!(line != "close 0 0 1 0", changes);
        assert_eq!(is_settled, !changes);
    }
}

#[test]
fn settled_comes_back_with_the_last_of_three_closes() {
    let mut h = settled::start();
    settled::YES_WITH_WORK[5](&mut h);
    let asked = asked(h.close().close().close());
    let lines = ["close 1 1 2 1", "close 1 1 3 0", "close 0 0 1 0"].map(str::to_string);
    let expected: Vec<_> = lines.into_iter().zip([false, false, true]).collect();
    assert_eq!(asked[asked.len() - 3..], expected);
}

#[test]
fn other_calls_leave_settled() {
    let quiet = ("close 0 0 1 0".to_string(), true);
    for calls in settled::NO {
        let (after, closed) = asked_after_start(calls);
        assert_eq!((after, closed), (vec![("answer 0".to_string(), true)], quiet.clone()));
    }
    for calls in settled::OTHERS {
        let (after, closed) = asked_after_start(calls);
        assert!(after.iter().all(|(line, is_settled)| !line.starts_with("refused") && *is_settled));
        assert_eq!(closed, quiet);
    }
}

/// P1 to P10: settled after a close that reports no change, and then at once no more.
#[test]
fn p1_to_p10_asked_after_every_call() {
    for p in proved::all() {
        let quiet = |(line, is_settled): &(String, bool)| *is_settled == (line == "close 0 0 1 0");
        assert!(asked(&p).iter().all(quiet));
        let settling = asked(&p.with_settles());
        let quiet = |(line, is_settled): &(String, bool)| {
            *is_settled == (line.starts_with("settle") || line.starts_with("conflicts"))
        };
        assert!(settling.iter().all(quiet));
    }
}

/// The applications that a history leaves.
fn apps(h: &History) -> Vec<String> {
    tagged(&structure(h), "a ")
}

/// The applications that a close leaves beside those that are given.
fn apps_given_by(build: &dyn Fn(&mut History)) -> Vec<String> {
    let mut h = maps::signature();
    h.els(6);
    build(&mut h);
    let before = apps(&h);
    let mut after = apps(h.close());
    after.retain(|app| !before.contains(app));
    after
}

#[test]
fn each_law_alone() {
    use maps::{COD, COMP, DOM, ID};
    let identity = apps_given_by(&|h| _ = h.apply(ID, &[], &[0], 1));
    assert_eq!(identity, ["a 0 / 1 = 0", "a 1 / 1 = 0"]);
    // The composite 2 of 0 and 1: from a value to where it is given.
    let laws = [((DOM, 0), (DOM, 2)), ((COD, 1), (COD, 2)), ((COD, 0), (DOM, 1))];
    for (one, other) in laws {
        for ((func, el), (to_func, to)) in [(one, other), (other, one)] {
            let given = apps_given_by(&|h| {
                h.apply(COMP, &[], &[0, 1], 2).apply(func, &[], &[el], 5);
            });
            assert_eq!(given, [format!("a {to_func} / {to} = 5")]);
        }
    }
    assert!(apps_given_by(&|h| _ = h.apply(COMP, &[], &[0, 1], 2)).is_empty());
}

#[test]
fn laws_beside_equalities() {
    let h = maps::beside_the_book();
    assert_eq!(list(&h)[h.records.len() - 2..], ["close 1 2 3 5", "close 0 0 1 0"]);
    assert_eq!(tagged(&structure(&h), "e ")[3..], ["e 3 0 0", "e 4 4 0", "e 5 4 0"]);
}

/// Laws whose premises name exact elements would find nothing here, and leave 0 and 1
/// apart.
#[test]
fn laws_reach_past_the_elements_given() {
    let mut h = maps::signature();
    h.els(4).apply(maps::COMP, &[], &[1, 1], 0);
    h.apply(maps::DOM, &[], &[2], 0).apply(maps::DOM, &[], &[3], 1);
    h.equal(1, 2).equal(0, 3).close();
    assert_eq!(tagged(&structure(&h), "e "), ["e 0 0 0", "e 1 0 0", "e 2 1 0", "e 3 0 0"]);
}

#[test]
fn identities_with_one_result() {
    assert_eq!(list(maps::identities(129).close()).last(), Some(&"close 1 128 3 130".to_string()));
    let mut h = maps::identities(130);
    let before = structure(&h);
    assert_eq!(list(h.close()).last(), Some(&"refused 9".to_string()));
    assert_eq!(structure(&h), before);
}

/// Rounds that merges do not bound, and neither do elements.
#[test]
fn chains_of_composites() {
    for count in [2, 6, 127] {
        let lines = list(&maps::reversed_chain(count));
        assert!(lines.contains(&format!("close 1 0 {} {}", count + 1, count + 3)));
        assert!(list(&maps::forward_chain(count)).contains(&format!("close 1 0 2 {}", count + 3)));
    }
    let h = maps::chains_in_boxes(4, 30);
    assert!(list(&h).iter().any(|line| line.starts_with("close 1 3 129 ")));
    assert_eq!(tagged(&structure(&h), "e ").len(), 48);
}

#[test]
fn nine_and_eleven_in_one_close() {
    let last_line = |mut h: History| list(h.close()).pop().expect("it closes");
    assert_eq!(last_line(maps::nine_and_eleven(false, false)), "close 1 0 3 1024");
    assert_eq!(last_line(maps::nine_and_eleven(true, false)), "refused 9");
    assert_eq!(last_line(maps::nine_and_eleven(false, true)), "refused 11");
    assert_eq!(last_line(maps::nine_and_eleven(true, true)), "refused 9");
    assert_eq!(last_line(maps::eleven_before_nine()), "refused 11");
    assert_eq!(last_line(maps::nine_before_impositions()), "refused 9");
}

#[test]
fn a_settle_meets_nine_after_an_accepted_close() {
    let accepted = maps::nine_in_a_second_close(false);
    assert!(list(&accepted).contains(&"settle 3 1".to_string()));
    let refused = maps::nine_in_a_second_close(true);
    let settle = refused.records.iter().position(|words| words[1] == 15).expect("it settles");
    let closes = ["refused 9", "root 17 0", "close 1 1 2 5", "refused 9", "refused 9"];
    assert_eq!(list(&refused)[settle..], closes);
    assert_eq!(structure_after(&refused, settle), structure_after(&refused, settle + 1));
}

#[test]
fn settles_of_one_close_more_than_elements() {
    for els in 2..=31 {
        let h = maps::one_more_than_elements(els);
        assert_eq!(list(&h).last(), Some(&format!("settle {} {}", els + 1, els - 1)));
        assert_eq!(tagged(&structure(&h), "e ").len(), els.into());
    }
}

/// Lists print the conflicts and the finds of a report, sheets the conflicts alone.
#[test]
fn reports_have_their_finds() {
    let assert_list = |history: &History, reports: &[[usize; 2]]| {
        let lines = reports.iter().map(|[n, finds]| format!("conflicts {n} {finds}"));
        assert_eq!(tagged(&list(history), "conflicts "), lines.collect::<Vec<_>>());
    };
    for (history, reports) in finds::small().into_iter().chain([finds::most()]) {
        assert_list(&history, &reports);
        assert_list(&history.with_settles(), &reports);
        let lines = reports.iter().map(|[n, _]| format!("conflicts {n}"));
        assert_eq!(tagged(&sheet(&history), "conflicts "), lines.collect::<Vec<_>>());
    }
    for (history, reports) in finds::refused() {
        assert_list(&history, &reports);
    }
}

/// What is refused between the reports of `finds::refused`.
#[test]
fn reports_stand_beside_refusals() {
    let refusals = finds::refused().map(|(history, _)| tagged(&list(&history), "refused "));
    assert_eq!(refusals, [vec!["refused 3"; 3], vec!["refused 9"; 2], vec!["refused 11"; 2]]);
}

/// An imposition is accepted where it gives as many parents as its type has, and else
/// refused with 15.
#[test]
fn impositions_give_the_parents_of_their_types() {
    let h = counts::every_number();
    let lines = list(&h);
    let first = lines.iter().rposition(|line| line.starts_with("number ")).expect("elements") + 1;
    for typ in 0..5 {
        for given in 0..5 {
            let expected = if given == typ { "answer 1" } else { "refused 15" };
            assert_eq!(lines[first + 5 * typ + given], expected, "{given} of {typ} parents");
        }
    }
    assert_eq!(lines[first + 25..], ["close 1 0 1 5", "conflicts 0 0"]);
}

/// A refused one leaves the structure, with its links and flags.
#[test]
fn an_imposition_refused_with_15_leaves_everything() {
    let mut refused = 0;
    for h in counts::small() {
        for (place, line) in last_lines(&h).iter().enumerate() {
            if line == "refused 15" {
                assert_eq!(structure_after(&h, place), structure_after(&h, place + 1));
                refused += 1;
            }
        }
    }
    assert_eq!(refused, 33);
}

/// The file with another number of parents in a fact or an imposition, and under
/// signatures whose types have another.
#[test]
fn files_have_the_parents_of_their_types() {
    let [changed, elsewhere] = &counts::in_files()[..] else { panic!("two of them") };
    let loads = |h: &History| {
        let lines = last_lines(h).into_iter().zip(&h.records);
        let loads = lines.filter(|(_, words)| words[1] == LOAD);
        loads.map(|(line, _)| line).collect::<Vec<_>>()
    };
    // Those that go on come last.
    assert_eq!(loads(changed)[..18], ["refused 14"; 18]);
    assert_eq!(loads(changed)[18..], ["answer 1"; 3]);
    assert_eq!(loads(elsewhere)[..2], ["answer 1"; 2]);
    assert_eq!(loads(elsewhere)[2..], ["refused 14"; 5]);
}

/// The lines of closes are the same in lists and in sheets.
#[test]
fn closes_have_the_facts_that_they_added() {
    for (history, closes) in added::small().into_iter().chain([added::most()]) {
        let line = |[c, m, r, f]: &[usize; 4]| format!("close {c} {m} {r} {f}");
        let lines: Vec<String> = closes.iter().map(line).collect();
        assert_eq!(tagged(&list(&history), "close "), lines);
        assert_eq!(tagged(&sheet(&history), "close "), lines);
    }
}

/// A history that may grow by `limit` records of one kind and no more.
fn assert_limit(start: &History, limit: u16, grow: &dyn Fn(&mut History, u16)) {
    let mut h = start.clone();
    for number in 0..limit {
        grow(&mut h, number);
    }
    assert_eq!(sheet(&h), [format!("end {}", h.records.len())]);
    grow(&mut h, limit);
    assert_eq!(sheet(&h), [format!("refused 9 at {}", h.records.len() - 1)]);
}

#[test]
fn tables_are_full_at_their_limits() {
    let none = History::new();
    assert_limit(&none, 32, &|h, _| _ = h.plain(&[]));
    assert_limit(&none, 32, &|h, _| _ = h.pred(&[], &[]));
    assert_limit(&none, 256, &|h, _| _ = h.el());
    let mut start = History::new();
    start.plain(&[]).plain(&[0]);
    assert_limit(&start, 64, &|h, _| _ = h.func(&[], &[], 0));
    start.func(&[], &[], 0).pred(&[], &[]).els(17);
    assert_limit(&start, 256, &|h, _| _ = h.equal(0, 0));
    assert_limit(&start, 64, &|h, n| _ = h.impose(n % 16, 1, &[n / 16]));
    assert_limit(&start, 256, &|h, n| _ = h.apply(0, &[n % 16], &[n / 16], 0));
    assert_limit(&start, 256, &|h, n| _ = h.holds(0, &[n % 16], &[n / 16]));
}

#[test]
fn facts_1024_and_1025() {
    let mut h = History::new();
    h.plain(&[]).plain(&[]).plain(&[]).plain(&[]).plain(&[]).pred(&[], &[0, 1, 2, 3]).els(256);
    for el in 0..256 {
        h.holds(0, &[], &[el, el, el, el]);
    }
    h.close();
    assert_eq!(sheet(&h), ["close 1 0 2 1024", "end 519"]);
    h.impose(0, 4, &[]).close();
    assert_eq!(sheet(&h), ["close 1 0 2 1024", "refused 11 at 520"]);
}

#[test]
fn sheets_of_1024_records_and_one_more() {
    let mut h = History::new();
    h.els(256);
    for _ in 0..768 {
        h.conflicts();
    }
    assert_eq!(sheet(&h).last().map(String::as_str), Some("end 1024"));
    h.conflicts();
    assert_eq!(sheet(&h), ["refused 1 at 0"]);
}

#[test]
fn next_index_on_the_last_record() {
    let mut entry = proved::p10().sheet();
    assert_eq!(answers(&entry), ["close 0 0 1 0", "end 3"]);
    entry.bytes[64] = 1;
    assert_eq!(answers(&entry), ["refused 2 at 2"]);
    entry.bytes[64] = 3;
    assert_eq!(answers(&entry), ["refused 2 at 2"]);
}

#[test]
fn numbered_refusals_have_their_numbers() {
    for (start, records) in edges::numbered_refusals() {
        for (number, words) in records {
            let lines = sheet(start.clone().push(words));
            let index = start.records.len();
            let last = match number {
                0 => format!("end {}", index + 1),
                _ => format!("refused {number} at {index}"),
            };
            assert_eq!(lines.last(), Some(&last), "{words:?}");
        }
    }
}

/// The last line of each call's answer in a list.
fn last_lines(history: &History) -> Vec<String> {
    let lines = list(history).into_iter();
    lines.filter(|line| !line.starts_with("conflict ")).collect()
}

/// The kinds of calls, and the numbers that each can meet.
const NUMBERS: [(u16, &[u16]); 23] = [
    (1, &[3, 4, 5, 6, 9]),
    (2, &[3, 4, 5, 9]),
    (3, &[3, 4, 5, 9]),
    (4, &[3, 4, 5, 6, 8, 9]),
    (5, &[3, 4, 5, 6, 8, 9]),
    (6, &[3, 9]),
    (7, &[3, 5, 9]),
    (8, &[3, 5, 9, 15]),
    (9, &[3, 5, 7, 9, 12]),
    (10, &[3, 5, 9]),
    (11, &[3, 5, 8]),
    (12, &[3, 5, 6, 8]),
    (13, &[3, 9, 11]),
    (14, &[3]),
    (15, &[3, 9, 11]),
    (101, &[5]),
    (102, &[5]),
    (103, &[3, 5]),
    (104, &[3, 5, 10]),
    (105, &[9]),
    (106, &[]),
    (107, &[13, 14]),
    (108, &[]),
];

#[test]
fn fixed_histories_meet_every_number_of_every_kind() {
    let mut met = BTreeSet::new();
    for entry in edges::all().iter().filter(|entry| entry.is_list()) {
        let lines = answers(&Entry { mode: LIST, ..entry.clone() });
        let last_lines = lines.iter().filter(|line| !line.starts_with("conflict "));
        for (bytes, line) in entry.bytes.chunks(record::BYTES).zip(last_lines) {
            let number = line.strip_prefix("refused ").map_or(0, |n| n.parse().expect("a number"));
            met.insert((Record::read(bytes).kind(), number));
        }
    }
    let mut due = BTreeSet::new();
    for (kind, numbers) in NUMBERS {
        due.extend([0].iter().chain(numbers).map(|&number| (kind, number)));
    }
    met.retain(|(kind, _)| NUMBERS.iter().any(|(known, _)| known == kind));
    assert_eq!(met, due);
}

/// A word of a random record: mostly small, so that some pass number 3.
fn random_word(rng: &mut Rng, place: usize) -> u16 {
    let word = match place {
        0 => rng.below(13),
        1 => {
            let calls = [1, 2, 3, 4, 5, 6, 6, 6, 7, 8, 9, 10, 11, 12, 13, 14, 15];
            let others = [101, 102, 103, 104, 105, 105, 106, 107, 107, 108, 109, 16];
            rng.pick(&[&calls[..], &others].concat())
        }
        _ if rng.percent(70) => 0,
        _ => rng.below(300),
    };
    word as u16
}

#[test]
fn any_bytes_are_answered() {
    for history in 0..3000 {
        let mut rng = Rng::new(5, history);
        let mut stream = Vec::new();
        for _ in 0..rng.below(4) {
            let mut bytes = Vec::new();
            for place in 0..rng.below(16 * 24) {
                bytes.extend(random_word(&mut rng, place % 16).to_le_bytes());
            }
            let mode = rng.below(6) as u32;
            Entry { mode, bytes }.write(&mut stream);
        }
        stream.truncate(stream.len().saturating_sub(rng.below(3)));
        assert_eq!(stream::answer(&stream), standin::answer(&stream, None));
    }
}

#[test]
fn random_histories_are_the_same_each_time() {
    let twice = [(); 2].map(|()| stream_of(&histories(50, 3)));
    assert_eq!(twice[0], twice[1]);
    assert_ne!(random::entry(3, 0), random::entry(4, 0));
}

/// The first difference of a wrong version, made small.
fn smallest_difference(fault: Fault) -> Entry {
    let subject = Subject::StandIn(Some(fault));
    let entries = histories(200, 1);
    let stream = stream_of(&entries);
    let expected = stream::answer(&stream).into_bytes();
    let index = first_difference(&expected, &subject.answer(&stream)).expect("it differs");
    shrink::shrink(&entries[index], &|entry| subject.differs_on(entry))
}

#[test]
fn a_difference_is_found_and_made_small() {
    // Three elements, two equalities and a close show the order of draining.
    assert_eq!(smallest_difference(Fault::FirstPairFirst).bytes.len(), 6 * 32);
    // An application, what it needs and a settle show a settle of one close.
    assert_eq!(smallest_difference(Fault::SettleClosesOnce).bytes.len(), 6 * 32);
}

#[test]
fn the_sample_is_what_the_oracle_answers() {
    let directory = Path::new(env!("CARGO_MANIFEST_DIR")).join("../../crates/replay");
    let input = fs::read(directory.join("stdin")).expect("the sample is there");
    let output = fs::read_to_string(directory.join("stdout")).expect("the sample is there");
    assert!(input == stream_of(&sample()), "make the sample again");
    assert!(output == stream::answer(&input), "make the sample again");
}

/// Each file of tools/park_cases.txt shows what it says and nothing else.
#[test]
fn shown_files_show_one_thing() {
    let mut reasons = BTreeSet::new();
    for case in files::shown() {
        let state = files::after(&case.signature);
        let found: BTreeSet<String> =
            state.troubles(&case.file).iter().map(|trouble| trouble.to_string()).collect();
        let mut h = case.signature.clone();
        h.file(&case.file).load().store();
        let lines = list(&h);
        let [.., given, loaded, stored] = &lines[..] else { panic!("three answers at least") };
        if case.number == 0 {
            assert_eq!((found.len(), &loaded[..]), (0, "answer 1"), "{}", case.reason);
            assert_eq!(given, stored, "{}", case.reason);
        } else {
            assert_eq!(found.into_iter().collect::<Vec<_>>(), [case.reason.clone()]);
            assert_eq!(*loaded, format!("refused {}", case.number), "{}", case.reason);
        }
        reasons.insert(case.reason);
    }
    assert!(reasons.len() > 45);
}

/// The worked example of docs/FILE.md is what P2 leaves after its close, stored.
#[test]
fn the_worked_example_is_p2_stored() {
    let path = Path::new(env!("CARGO_MANIFEST_DIR")).join("../../docs/FILE.md");
    let text = fs::read_to_string(path).expect("docs/FILE.md is there");
    let example = text.split("\n## Worked example\n").nth(1).expect("it has an example");
    let block = example.split("```").nth(1).expect("it has bytes");
    let bytes: Vec<u8> = block
        .split_whitespace()
        .map(|byte| u8::from_str_radix(byte, 16).expect("a byte in hex"))
        .collect();
    let mut p = proved::p2();
    p.records.retain(|words| words[1] != 14);
    assert_eq!(files::after(&p).store(), bytes);
    let stored = structure(p.store());
    let of_file: Vec<u8> = tagged(&stored, "b ")
        .iter()
        .flat_map(|line| line.split(' ').skip(1).map(|byte| byte.parse().expect("a byte")))
        .collect();
    assert_eq!(of_file, bytes);
    assert_eq!(bytes.len(), 74);
}

/// The kinds of files, as FORMAT.md has them.
#[test]
fn files_in_lists() {
    let mut h = History::new();
    h.store().store_in(17).el().load().set(17, 2).load();
    let lines = ["file 18 1 18", "refused 9", "number 0", "answer 1", "file 18 3 20", "refused 14"];
    assert_eq!(list(&h), lines);
    // The longest file, and that it leaves the structure.
    let full = files::full().pop().expect("there are some");
    let stored = list(full.clone().store());
    assert!(stored.last().is_some_and(|line| line.starts_with("file 16274 ")));
    let mut parked = full.clone();
    assert_eq!(
        structure(parked.store().load().look_at_file())[1018..],
        structure(full.clone().look_at_file())
    );
}

/// A store and a load between any two calls change no answer and no structure.
#[test]
fn parked_histories_answer_the_same() {
    for history in files::small().iter().skip(1).chain(&maps::small()) {
        let mut parked = History::new();
        for &words in &history.records {
            parked.store().load().push(words);
        }
        let answers = list(&parked).into_iter().skip(2).step_by(3);
        // A report of conflicts has several lines.
        if history.records.iter().all(|words| words[1] != 14) {
            assert_eq!(answers.collect::<Vec<_>>(), list(history));
        }
        assert_eq!(structure(&parked), structure(history));
    }
}

/// What a load brings back: settled, the flag for number 4, and all that was declared.
#[test]
fn a_load_goes_back() {
    let mut h = History::new();
    h.els(2).settle().store().equal(0, 1).load();
    assert_eq!(asked(&h)[4..], [("answer 1".to_string(), false), ("answer 1".to_string(), true)]);
    let mut h = History::new();
    h.plain(&[]).store().el().plain(&[]).load().plain(&[]);
    assert_eq!(list(&h)[2..], ["number 0", "refused 4", "answer 1", "number 1"]);
}

/// Damages of every sort are refused with 13 and 14, and load, and both readers agree.
#[test]
fn damaged_files_are_answered_alike() {
    let damaged = damage::of(&files::small()[5..9], &[]);
    let stream = stream_of(&damaged.entries);
    assert_eq!(stream::answer(&stream), standin::answer(&stream, None));
    let counts = damaged.counts.to_string();
    assert!(counts.starts_with("4 files, "), "{counts}");
    assert!(!counts.contains(" 0 "), "{counts}");
}
