//! Holds the answers of another program against the oracle's, entry by entry.

use std::io::Write;
use std::process::{self, Command, Stdio};
use std::thread;

use oracle::stream::{self, Entry};
use standin::Fault;

/// A program that answers streams.
pub enum Subject {
    StandIn(Option<Fault>),
    /// A command and its arguments. It reads a stream and writes the answers.
    Command(Vec<String>),
}

impl Subject {
    pub fn answer(&self, stream: &[u8]) -> Vec<u8> {
        match self {
            Subject::StandIn(fault) => standin::answer(stream, *fault).into_bytes(),
            Subject::Command(words) => run(words, stream),
        }
    }

    /// Whether the subject answers an entry, alone in a stream, otherwise than
    /// the oracle.
    pub fn differs_on(&self, entry: &Entry) -> bool {
        let stream = stream_of(std::slice::from_ref(entry));
        self.answer(&stream) != stream::answer(&stream).into_bytes()
    }
}

/// Runs a command over a stream. What it wrote counts, however it ended.
fn run(words: &[String], stream: &[u8]) -> Vec<u8> {
    let mut child = Command::new(&words[0])
        .args(&words[1..])
        .stdin(Stdio::piped())
        .stdout(Stdio::piped())
        .spawn()
        .unwrap_or_else(|error| {
            eprintln!("{} does not start: {error}", words[0]);
            process::exit(2)
        });
    let mut input = child.stdin.take().expect("it is piped");
    // Writing beside reading, since both pipes may fill. A subject that stops
    // reading shows in its answers.
    thread::scope(|scope| {
        scope.spawn(move || _ = input.write_all(stream));
        child.wait_with_output().expect("it was started").stdout
    })
}

pub fn stream_of(entries: &[Entry]) -> Vec<u8> {
    let mut stream = Vec::new();
    for entry in entries {
        entry.write(&mut stream);
    }
    stream
}

/// The answers to each entry, its first line included.
fn by_entry(answers: &[u8]) -> Vec<&[u8]> {
    let mut starts: Vec<usize> = Vec::new();
    for at in 0..answers.len() {
        let is_line = at == 0 || answers[at - 1] == b'\n';
        if is_line && answers[at..].starts_with(b"= ") {
            starts.push(at);
        }
    }
    let ends = starts.iter().skip(1).copied().chain([answers.len()]);
    starts.iter().zip(ends).map(|(&start, end)| &answers[start..end]).collect()
}

/// The place of the first entry whose answers differ.
pub fn first_difference(expected: &[u8], given: &[u8]) -> Option<usize> {
    if expected == given {
        return None;
    }
    let (expected, given) = (by_entry(expected), by_entry(given));
    let same = expected.iter().zip(&given).take_while(|(a, b)| a == b).count();
    Some(same.min(expected.len() - 1))
}

/// The history as text, then the first line where the answers part.
pub fn report(subject: &Subject, entry: &Entry) -> String {
    let stream = stream_of(std::slice::from_ref(entry));
    let expected = stream::answer(&stream);
    let given = String::from_utf8_lossy(&subject.answer(&stream)).into_owned();
    let mut text = describe(entry);
    let mut lines = (expected.lines(), given.lines());
    for number in 1.. {
        match (lines.0.next(), lines.1.next()) {
            (None, None) => {
                text += "the answers differ in line ends only\n";
                break;
            }
            (a, b) if a == b => {}
            (a, b) => {
                let shown = |line: Option<&str>| line.unwrap_or("(no line)").to_string();
                text += &format!("line {number} of the answers\n");
                text += &format!("  oracle: {}\n  other:  {}\n", shown(a), shown(b));
                break;
            }
        }
    }
    text
}

/// An entry as text: one line for each record, kind by kind as in document 01.
pub fn describe(entry: &Entry) -> String {
    let mut text = format!("mode {}, {} bytes\n", entry.mode, entry.bytes.len());
    for (index, bytes) in entry.bytes.chunks(oracle::record::BYTES).enumerate() {
        if bytes.len() < oracle::record::BYTES {
            text += &format!("{index}: {} bytes {bytes:?}\n", bytes.len());
            continue;
        }
        let words = oracle::record::Record::read(bytes).words;
        text += &format!("{index}: next {} kind {}", words[0], words[1]);
        text += &format!(" A {} B {} counts {:?}", words[2], words[3], &words[4..6]);
        text += &format!(" parents {:?} arguments {:?}", &words[6..10], &words[10..14]);
        text += &format!(" unused {:?}\n", &words[14..]);
    }
    text
}
