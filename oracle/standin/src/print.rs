//! The lines of answers, and of the structure.

use crate::calls::Answer;
use crate::close::Closed;
use crate::faults::Fault;
use crate::state::{App, Fact, State};

/// Where an answer is printed.
#[derive(Copy, Clone)]
pub enum Place {
    List,
    Sheet,
}

fn put(out: &mut String, numbers: &[u16]) {
    for number in numbers {
        *out += &format!(" {number}");
    }
}

impl State {
    fn put_fact(&self, out: &mut String, fact: &Fact) {
        put(out, &[fact.typ]);
        put(out, &fact.parents);
        if fact.parents.is_empty() && self.is(Fault::EmptyListHasSpace) {
            out.push(' ');
        }
    }

    /// The lines of an answer. A sheet prints only some of them, and no finds.
    pub fn put_answer(&self, out: &mut String, answer: &Answer, place: Place) {
        match answer {
            Answer::Refused(number) => *out += &format!("refused {number}"),
            Answer::Number(number) => *out += &format!("number {number}"),
            Answer::Said(yes) => *out += &format!("answer {}", u16::from(*yes)),
            Answer::Closed(closed) => self.put_closed(out, closed, place),
            Answer::Settled(settled) => {
                if self.is(Fault::SettlePrintsCloses) {
                    for closed in &settled.each {
                        self.put_closed(out, closed, place);
                        out.push('\n');
                    }
                }
                *out += "settle";
                let mut numbers = [settled.closes, settled.merges];
                if self.is(Fault::SettleMergesFirst) {
                    numbers.reverse();
                }
                put(out, &numbers);
                if self.is(Fault::SettlePrintsAdded) {
                    let added: usize = settled.each.iter().map(|closed| closed.added).sum();
                    *out += &format!(" {added}");
                }
            }
            Answer::Conflicts(report) => {
                for (el, a, b) in &report.conflicts {
                    *out += &format!("conflict {el}");
                    self.put_fact(out, a);
                    *out += " /";
                    self.put_fact(out, b);
                    out.push('\n');
                }
                let (count, finds) = (report.conflicts.len(), report.finds);
                let prints_finds = match place {
                    Place::List => !self.is(Fault::FindsUnprinted),
                    Place::Sheet => self.is(Fault::FindsInSheets),
                };
                *out += &if !prints_finds {
                    format!("conflicts {count}")
                } else if self.is(Fault::FindsPrintedFirst) {
                    format!("conflicts {finds} {count}")
                } else {
                    format!("conflicts {count} {finds}")
                };
            }
            Answer::File([length, low, high]) => *out += &format!("file {length} {low} {high}"),
            Answer::Found(find) => *out += &format!("root {} {}", find.root, find.count),
            Answer::Typed(None) => *out += "absent",
            Answer::Typed(Some(fact)) => {
                *out += "type";
                self.put_fact(out, fact);
            }
            Answer::Ambients(els) => {
                *out += "ambients";
                put(out, els);
            }
        }
        out.push('\n');
    }

    fn put_closed(&self, out: &mut String, closed: &Closed, place: Place) {
        let Closed { changed, merges, rounds, added } = *closed;
        let changed = u16::from(changed);
        let leaves_out = matches!(place, Place::Sheet) && self.is(Fault::AddedNotInSheets);
        *out += &if leaves_out {
            format!("close {changed} {merges} {rounds}")
        } else if self.is(Fault::AddedBeforeRounds) {
            format!("close {changed} {merges} {added} {rounds}")
        } else {
            format!("close {changed} {merges} {rounds} {added}")
        };
    }

    pub fn put_dump(&self, out: &mut String) {
        for el in 0..self.links.len() {
            let mark = u16::from(self.marks[el]);
            *out += &format!("e {el} {} {mark}\n", self.links[el]);
            for fact in &self.facts[el] {
                *out += &format!("f {el}");
                put(out, &[fact.typ]);
                put(out, &fact.parents);
                out.push('\n');
            }
        }
        for (app, result) in &self.func_apps {
            put_app(out, "a", app);
            *out += &format!(" = {result}\n");
        }
        for app in &self.pred_apps {
            put_app(out, "p", app);
            out.push('\n');
        }
        for (tag, els) in [("v", &self.vars[..]), ("m", &self.ambients[..])] {
            for (key, el) in els.iter().enumerate() {
                if let Some(el) = el {
                    *out += &format!("{tag} {key} {el}\n");
                }
            }
        }
        for (a, b) in &self.pairs {
            *out += &format!("q {a} {b}\n");
        }
        for (el, fact) in &self.impositions {
            *out += &format!("i {el}");
            put(out, &[fact.typ]);
            put(out, &fact.parents);
            out.push('\n');
        }
        self.put_flags(out);
    }

    pub fn put_flags(&self, out: &mut String) {
        *out += &format!("s {} {}\n", u16::from(self.begun), u16::from(self.settled));
    }
}

/// The bytes of a file, sixteen to a line.
pub fn put_bytes(out: &mut String, file: &[u8]) {
    for bytes in file.chunks(16) {
        out.push('b');
        for byte in bytes {
            *out += &format!(" {byte}");
        }
        out.push('\n');
    }
}

fn put_app(out: &mut String, tag: &str, app: &App) {
    *out += tag;
    put(out, &[app.head]);
    put(out, &app.parents);
    *out += " /";
    put(out, &app.args);
}
