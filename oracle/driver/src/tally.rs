//! What a run came to.

use std::collections::BTreeMap;
use std::fmt;

use oracle::record::{self, Record, LOAD, STORE};
use oracle::stream::Entry;

/// What the histories of a run came to.
#[derive(Default)]
pub struct Tally {
    histories: usize,
    bytes: usize,
    closes: usize,
    settles: usize,
    merges: usize,
    added: FactsAdded,
    conflicts: usize,
    /// Those that lists print.
    finds: usize,
    refusals: BTreeMap<u16, usize>,
    /// Those of closes and settles.
    close_refusals: BTreeMap<u16, usize>,
    stores: usize,
    /// Loads that were accepted, and refused.
    loads: [usize; 2],
    settled: FoundSettled,
}

impl Tally {
    pub fn add(&mut self, entries: &[Entry], answers: &str) {
        self.settled.add(entries, answers);
        self.add_by_kind(entries, answers);
        self.histories += entries.len();
        self.bytes += entries.iter().map(|entry| entry.bytes.len()).sum::<usize>();
        for line in answers.lines() {
            let mut words = line.split(' ');
            let word = words.next().unwrap_or_default();
            let mut number = || words.next().and_then(|word| word.parse::<usize>().ok());
            match word {
                "close" => {
                    self.closes += 1;
                    let [changed, merges, _rounds, added] =
                        [(); 4].map(|()| number().unwrap_or_default());
                    self.merges += merges;
                    self.added.add(changed == 1, merges, added);
                }
                "settle" => {
                    self.settles += 1;
                    let _closes = number();
                    self.merges += number().unwrap_or_default();
                }
                "conflicts" => {
                    self.conflicts += number().unwrap_or_default();
                    self.finds += number().unwrap_or_default();
                }
                "refused" => {
                    let cause = number().unwrap_or_default() as u16;
                    *self.refusals.entry(cause).or_default() += 1;
                }
                _ => {}
            }
        }
    }
}

impl Tally {
    /// What answers come to by the kinds of their calls.
    fn add_by_kind(&mut self, entries: &[Entry], answers: &str) {
        let (mut kinds, mut given) = (Vec::new(), 0);
        for line in answers.lines() {
            let words: Vec<&str> = line.split(' ').collect();
            let at = match words[..] {
                ["=", index] => {
                    kinds = record_kinds(&entries[index.parse::<usize>().expect("an index")]);
                    given = 0;
                    continue;
                }
                ["refused", _, "at", index] => index.parse().expect("an index"),
                // A line of a dump begins with one letter; a conflict is no whole answer.
                [word, ..] if word.len() > 1 && word != "conflict" => given,
                _ => continue,
            };
            given += 1;
            match (kinds.get(at), &words[..]) {
                (Some(13 | 15), ["refused", number, ..]) => {
                    let number = number.parse().expect("a number");
                    *self.close_refusals.entry(number).or_default() += 1;
                }
                (Some(&STORE), ["file", ..]) => self.stores += 1,
                (Some(&LOAD), [word, ..]) => self.loads[usize::from(*word == "refused")] += 1,
                _ => {}
            }
        }
    }
}

impl fmt::Display for Tally {
    fn fmt(&self, f: &mut fmt::Formatter) -> fmt::Result {
        write!(f, "{} histories, {} bytes: ", self.histories, self.bytes)?;
        write!(
            f,
            "{} closes, {} settles, {} merges, {} conflicts, {} finds, refusals",
            self.closes, self.settles, self.merges, self.conflicts, self.finds
        )?;
        self.refusals.iter().try_for_each(|(number, count)| write!(f, " {number}:{count}"))?;
        write!(f, ", of closes and settles")?;
        self.close_refusals
            .iter()
            .try_for_each(|(number, count)| write!(f, " {number}:{count}"))?;
        let [loaded, refused] = self.loads;
        write!(f, "; {} stores, {loaded} loads, {refused} refused", self.stores)?;
        let FactsAdded { facts, none, alone, beside } = self.added;
        write!(f, "; {facts} facts added by closes: none with a change in {none} of them, ")?;
        write!(f, "some without a merge in {alone}, some with merges in {beside}")?;
        let FoundSettled { calls, no, yes, refused } = self.settled;
        write!(f, "; {calls} calls of lists found it settled, of kinds 7 to 10 ")?;
        write!(f, "{no} answered with no, {yes} with yes, {refused} refused")
    }
}

/// The facts that closes added; the closes that changed something and added none, added some
/// and merged nothing, and did both. Those of settles print no number of facts.
#[derive(Default)]
struct FactsAdded {
    facts: usize,
    none: usize,
    alone: usize,
    beside: usize,
}

impl FactsAdded {
    fn add(&mut self, changed: bool, merges: usize, added: usize) {
        self.facts += added;
        match (added, merges) {
            (0, _) => self.none += usize::from(changed),
            (_, 0) => self.alone += 1,
            _ => self.beside += 1,
        }
    }
}

/// The calls of lists that found the structure settled, where the answers say so after
/// every call; of these the ones of kinds 7 to 10 by what they were answered with.
#[derive(Default)]
struct FoundSettled {
    calls: usize,
    no: usize,
    yes: usize,
    refused: usize,
}

impl FoundSettled {
    fn add(&mut self, entries: &[Entry], answers: &str) {
        let (mut kinds, mut answer, mut was_settled) = (Vec::new(), "", false);
        for line in answers.lines() {
            match line.split_once(' ') {
                Some(("=", index)) => {
                    kinds = kinds_of(&entries[index.parse::<usize>().expect("an index")]);
                    was_settled = false;
                }
                Some(("s", flags)) => {
                    if let Some(kind) = kinds.pop().filter(|_| was_settled) {
                        self.count(kind, answer);
                    }
                    was_settled = flags.ends_with('1');
                }
                Some(("answer" | "refused", _)) => answer = line,
                _ => {}
            }
        }
    }

    fn count(&mut self, kind: u16, answer: &str) {
        self.calls += 1;
        if (7..=10).contains(&kind) {
            match answer {
                "answer 0" => self.no += 1,
                "answer 1" => self.yes += 1,
                _ => self.refused += 1,
            }
        }
    }
}

/// The kinds of a list's calls, the last one first. A sheet has none.
fn kinds_of(entry: &Entry) -> Vec<u16> {
    let mut kinds = if entry.is_list() { record_kinds(entry) } else { Vec::new() };
    kinds.reverse();
    kinds
}

/// The kinds of the records in the order in which they stand.
fn record_kinds(entry: &Entry) -> Vec<u16> {
    let records = entry.bytes.chunks_exact(record::BYTES);
    records.map(|bytes| Record::read(bytes).kind()).collect()
}
