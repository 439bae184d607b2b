//! Says of each wrong version whether a stream tells it apart, and how.

use oracle::stream::{self, Entry, SHEET, SHEET_WITH_DUMPS};
use standin::FAULTS;

use crate::compare::{stream_of, Subject};

/// On how many histories a wrong version shows, by where it shows. The damaged files are
/// run only where no history shows it.
#[derive(Default)]
struct Shown {
    sheets: usize,
    lists: usize,
    dumps: usize,
    damages: usize,
}

const MISSED: &str = "NOT TOLD APART";

impl Shown {
    fn verdict(&self) -> &'static str {
        match self {
            Shown { sheets: 1.., .. } => "sheet lines",
            Shown { lists: 1.., .. } => "list answers",
            Shown { dumps: 1.., .. } => "dumps only",
            Shown { damages: 1.., .. } => "damaged files",
            _ => MISSED,
        }
    }
}

/// Each entry as a stream of its own, with the answers to it.
fn answered(entries: &[Entry]) -> (Vec<Vec<u8>>, Vec<String>) {
    let streams: Vec<Vec<u8>> =
        entries.iter().map(|entry| stream_of(std::slice::from_ref(entry))).collect();
    let answers = streams.iter().map(|stream| stream::answer(stream)).collect();
    (streams, answers)
}

/// Prints a line for each wrong version from number `first` on; gives how many are not told
/// apart.
pub fn judge(entries: &[Entry], damaged: &[Entry], first: usize) -> usize {
    let (streams, expected) = answered(entries);
    let (damages, after_damage) = answered(damaged);
    println!("number  sheets  lists  dumps  told apart by   wrong version");
    let mut verdicts = Vec::new();
    for (number, (fault, text)) in (1..).zip(FAULTS).filter(|(number, _)| *number >= first) {
        let mut shown = Shown::default();
        for ((entry, stream), expected) in entries.iter().zip(&streams).zip(&expected) {
            let given = Subject::StandIn(Some(*fault)).answer(stream);
            if given == expected.as_bytes() {
                continue;
            }
            let given = String::from_utf8(given).expect("the stand-in prints ASCII");
            if answer_lines(&given).eq(answer_lines(expected)) {
                shown.dumps += 1;
            } else if matches!(entry.mode, SHEET | SHEET_WITH_DUMPS) {
                shown.sheets += 1;
            } else {
                shown.lists += 1;
            }
        }
        if shown.verdict() == MISSED {
            let differs = |(stream, expected): &(&Vec<u8>, &String)| {
                Subject::StandIn(Some(*fault)).answer(stream) != expected.as_bytes()
            };
            shown.damages = damages.iter().zip(&after_damage).filter(differs).count();
        }
        let verdict = shown.verdict();
        println!(
            "{:6}  {:6}  {:5}  {:5}  {verdict:14}  {text}",
            number, shown.sheets, shown.lists, shown.dumps,
        );
        verdicts.push(verdict);
    }
    let count = |wanted: &str| verdicts.iter().filter(|verdict| **verdict == wanted).count();
    let missed = count(MISSED);
    println!(
        "{} histories, {} wrong versions: {} by sheet lines, {} by list answers only, \
         {} by dumps only, {} by damaged files only, {missed} not told apart",
        entries.len(),
        verdicts.len(),
        count("sheet lines"),
        count("list answers"),
        count("dumps only"),
        count("damaged files"),
    );
    missed
}

/// The lines of answers that are no part of a dump. A dump's lines begin with
/// one letter.
fn answer_lines(answers: &str) -> impl Iterator<Item = &str> {
    answers.lines().filter(|line| {
        let bytes = line.as_bytes();
        !(bytes.len() > 1 && bytes[0].is_ascii_lowercase() && bytes[1] == b' ')
    })
}
