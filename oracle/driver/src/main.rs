//! The commands around the oracle; README.md lists them.

mod added;
mod compare;
mod counts;
mod damage;
mod edges;
mod files;
mod finds;
mod history;
mod maps;
mod mutants;
mod proved;
mod random;
mod rng;
mod settled;
mod settles;
mod shrink;
mod tally;
#[cfg(test)]
mod tests;

use std::io::{self, Read, Write};
use std::path::Path;
use std::process::ExitCode;
use std::time::Instant;
use std::{env, fs};

use compare::{first_difference, report, stream_of, Subject};
use oracle::stream::{self, Entry};
use standin::{Fault, FAULTS};
use tally::Tally;

const USAGE: &str = "\
driver answer                         the oracle's answers to the stream on standard input
driver standin [FAULT]                the stand-in's answers, right or with a numbered fault
driver show                           the stream on standard input as text
driver run N SEED [COMMAND [ARG]...]  the fixed histories and N random ones through all sides
driver damage [COMMAND [ARG]...]      damaged files through all sides
driver damage-stream                  the stream of the damaged files
driver mutants N SEED [FIRST]         which wrong versions, from FIRST on, these histories tell apart
driver sample DIRECTORY               writes stdin and stdout there";

/// Histories that are answered at a time.
const BATCH: u64 = 1000;

/// Random histories of the sample, and their seed.
const SAMPLE: (u64, u64) = (200, 1);

fn main() -> ExitCode {
    let words: Vec<String> = env::args().skip(1).collect();
    let words: Vec<&str> = words.iter().map(String::as_str).collect();
    let done = match words[..] {
        ["answer"] => put(stream::answer(&input()).as_bytes()),
        ["standin"] => put(&Subject::StandIn(None).answer(&input())),
        ["standin", fault] => match fault_numbered(fault) {
            Some(fault) => put(&Subject::StandIn(Some(fault)).answer(&input())),
            None => usage(),
        },
        ["show"] => {
            let shown = stream::entries(&input()).iter().map(compare::describe).collect::<String>();
            put(shown.as_bytes())
        }
        ["run", n, seed, ref command @ ..] => match (n.parse(), seed.parse()) {
            (Ok(n), Ok(seed)) => run(n, seed, command),
            _ => usage(),
        },
        ["damage", ref command @ ..] => run_damage(command),
        ["damage-stream"] => put(&damage::all().stream()),
        ["mutants", n, seed] => judge(n, seed, "1"),
        ["mutants", n, seed, first] => judge(n, seed, first),
        ["sample", directory] => write_sample(Path::new(directory)),
        _ => usage(),
    };
    if done {
        ExitCode::SUCCESS
    } else {
        ExitCode::FAILURE
    }
}

fn judge(n: &str, seed: &str, first: &str) -> bool {
    match (n.parse(), seed.parse(), first.parse()) {
        (Ok(n), Ok(seed), Ok(first)) => {
            mutants::judge(&histories(n, seed), &damage::all().entries, first) == 0
        }
        _ => usage(),
    }
}

fn usage() -> bool {
    eprintln!("{USAGE}");
    false
}

fn input() -> Vec<u8> {
    let mut bytes = Vec::new();
    io::stdin().read_to_end(&mut bytes).expect("standard input can be read");
    bytes
}

fn put(bytes: &[u8]) -> bool {
    io::stdout().write_all(bytes).is_ok()
}

fn fault_numbered(text: &str) -> Option<Fault> {
    let number: usize = text.parse().ok()?;
    FAULTS.get(number.checked_sub(1)?).map(|(fault, _)| *fault)
}

/// The fixed histories and then `n` random ones.
fn histories(n: u64, seed: u64) -> Vec<Entry> {
    let random = (0..n).map(|number| random::entry(seed, number));
    edges::all().into_iter().chain(random).collect()
}

/// Runs the histories through the oracle, the stand-in and the command, and
/// prints the first difference as the smallest history that shows it.
fn run(n: u64, seed: u64, command: &[&str]) -> bool {
    let begun = Instant::now();
    let subjects = subjects(command);
    let mut tally = Tally::default();
    for first in (0..n.max(1)).step_by(BATCH as usize) {
        let numbers = first..n.min(first + BATCH);
        let mut batch: Vec<Entry> = numbers.map(|number| random::entry(seed, number)).collect();
        if first == 0 {
            batch.splice(0..0, edges::all());
        }
        if !are_same(&batch, &subjects, &mut tally, &|index| name_of(first, index)) {
            return false;
        }
    }
    println!("{tally}, in {:.1} s", begun.elapsed().as_secs_f64());
    print_sides(&subjects);
    true
}

/// Runs the damaged files through the same sides.
fn run_damage(command: &[&str]) -> bool {
    let begun = Instant::now();
    let subjects = subjects(command);
    let damaged = damage::all();
    let mut tally = Tally::default();
    for (number, batch) in damaged.entries.chunks(BATCH as usize).enumerate() {
        let first = number * BATCH as usize;
        if !are_same(batch, &subjects, &mut tally, &|index| format!("list {}", first + index)) {
            return false;
        }
    }
    println!("{}, in {:.1} s", damaged.counts, begun.elapsed().as_secs_f64());
    print_sides(&subjects);
    true
}

/// The stand-in and, if given, the command.
fn subjects<'a>(command: &[&'a str]) -> Vec<(&'a str, Subject)> {
    let mut subjects = vec![("the stand-in", Subject::StandIn(None))];
    if !command.is_empty() {
        let words = command.iter().map(|word| word.to_string()).collect();
        subjects.push((command[0], Subject::Command(words)));
    }
    subjects
}

/// Whether all sides answer these histories alike. If not, says where they do not.
fn are_same(
    batch: &[Entry],
    subjects: &[(&str, Subject)],
    tally: &mut Tally,
    name_of: &dyn Fn(usize) -> String,
) -> bool {
    let stream = stream_of(batch);
    let answers = stream::answer(&stream);
    tally.add(batch, &answers);
    for (name, subject) in subjects {
        let given = subject.answer(&stream);
        if let Some(index) = first_difference(answers.as_bytes(), &given) {
            println!("{name} differs, first in {}", name_of(index));
            print_smallest(subject, &batch[index]);
            return false;
        }
    }
    true
}

fn print_sides(subjects: &[(&str, Subject)]) {
    let names: Vec<&str> = subjects.iter().map(|(name, _)| *name).collect();
    println!("The oracle's assertions held. 0 differences from {}.", names.join(" and "));
    if subjects.len() == 1 {
        println!("No command was given: ONLY THE ORACLE AND ITS STAND-IN RAN.");
    }
}

/// What a history is called: the first batch begins with the fixed ones.
fn name_of(first: u64, index: usize) -> String {
    let fixed = if first == 0 { edges::all().len() } else { 0 };
    match index.checked_sub(fixed) {
        None => format!("fixed history {index}"),
        Some(random) => format!("random history {}", first + random as u64),
    }
}

fn print_smallest(subject: &Subject, entry: &Entry) {
    if !subject.differs_on(entry) {
        println!("It does not differ when it is alone in a stream:");
        println!("{}", report(subject, entry));
        return;
    }
    let smallest = shrink::shrink(entry, &|candidate| subject.differs_on(candidate));
    println!("{}", report(subject, &smallest));
}

/// The histories of the sample.
fn sample() -> Vec<Entry> {
    let (n, seed) = SAMPLE;
    histories(n, seed)
}

fn write_sample(directory: &Path) -> bool {
    let stream = stream_of(&sample());
    let answers = stream::answer(&stream);
    println!("stdin {} bytes, stdout {} bytes", stream.len(), answers.len());
    fs::write(directory.join("stdin"), stream).is_ok()
        && fs::write(directory.join("stdout"), answers).is_ok()
}
