//! Times the Rust's close and the port's on the same sheets, a settle beside as many closes of the Rust, both sides' conflict
//! reports, the port's stores and loads, and a call of the port that does nothing, and prints a table.

mod clock;
mod port;
mod sheets;

use std::time::Duration;
use std::{env, fs};

use oracle::timing::Prepared;
use port::Call;

/// How often the whole list is run.
const RUNS: usize = 3;

/// How often either side is timed in a run; the least time counts.
const TURNS: usize = 7;

/// Where the Rust takes longer, either side is timed once in a run: it is far above the clock's errors.
const SLOW: Duration = Duration::from_secs(2);

/// A sheet, the call that is timed on it, and how many at once on either side: of closes so few that the Rust's copies stay in
/// the processor's cache.
struct Input {
    name: &'static str,
    call: Call,
    sheet: Vec<u8>,
    times: u64,
}

/// A row of the table, with the time of a call in each run. The Rust has no part in a call that does nothing.
struct Row {
    input: Input,
    line: String,
    prepared: Option<Prepared>,
    rust: Vec<f64>,
    port: Vec<f64>,
}

fn main() {
    let mut args = env::args().skip(1);
    let root = args.next().expect("usage: bench ROOT [WORD]...");
    let words: Vec<String> = args.collect();
    let sample =
        |name| fs::read(format!("{root}/samples/{name}.sheet")).expect("the sample is there");
    let input = |name, call, sheet, times| Input { name, call, sheet, times };
    let close = |name, sheet, times| input(name, Call::Close, sheet, times);
    let settle = |name, sheet, times| input(name, Call::Settle, sheet, times);
    let conflicts = |name, sheet, times| input(name, Call::Conflicts, sheet, times);
    let inputs = [
        input("nothing", Call::Nothing, sample("p1"), 1000),
        close("P1", sample("p1"), 1000),
        close("P2", sample("p2"), 300),
        close("two-names", sample("two-names"), 300),
        close("P5", sample("p5"), 300),
        close("unnamed-box", sample("unnamed-box"), 100),
        close("two chains of 128, 256 facts", sheets::two_chains_250(), 2),
        close("two chains of 128, 990 facts", sheets::two_chains_990(), 1),
        close("two chains of 128, 990 facts, all marked", sheets::two_chains_marked(), 1),
        close("one chain of 256, 256 facts", sheets::one_chain_250(), 2),
        close("one chain of 256, 990 facts", sheets::one_chain_990(), 1),
        close("one chain of 252, 1,024 facts gathering", sheets::gathering(), 1),
        close("a chain of 127 composites", sheets::composites(), 2),
        close("transfer-box", sample("transfer-box"), 100),
        settle("P5, settled", sample("p5-settled"), 300),
        settle("unnamed-box, settled", sample("unnamed-box-settled"), 100),
        settle("33 elements merged one by one, settled", sheets::merged_one_by_one(), 20),
        settle("two chains of 128, 990 facts, settled", sheets::two_chains_settled(), 1),
        conflicts("P2, conflicts", sample("p2"), 1000),
        conflicts("1,024 facts in one class, conflicts", sheets::one_class(), 200),
        conflicts("1,024 facts in 256 classes, conflicts", sheets::many_classes(), 200),
        input("every table full, stored", Call::Store, sheets::full(), 200),
        input("every table full, loaded", Call::Load, sheets::full(), 200),
    ];
    let is_asked = |input: &Input| {
        words.is_empty() || words.iter().any(|word| input.name.contains(word.as_str()))
    };
    let mut rows: Vec<Row> = inputs.into_iter().filter(is_asked).map(Row::new).collect();
    for _ in 0..RUNS {
        rows.iter_mut().for_each(Row::run);
    }
    println!("| sheet | line | Rust | port | port / Rust, least | greatest |");
    println!("|---|---|---|---|---|---|");
    rows.iter().for_each(|row| println!("{}", row.shown()));
    let named = |name| rows.iter().find(|row| row.input.name == name);
    if let (Some(nothing), Some(p1)) = (named("nothing"), named("P1")) {
        let (least, greatest) = ratios(&p1.port, &nothing.port);
        println!("\nP1 takes {least} to {greatest} times the call that does nothing.");
    }
    for row in &rows {
        if let Some(bytes) = row.input.call.bytes(&row.input.sheet) {
            let per_second = bytes as f64 / least(&row.port) / 1e6;
            println!("\n{}: {per_second:.0} million bytes per second.", row.input.name);
        }
    }
}

impl Row {
    /// Both sides must print the same line.
    fn new(input: Input) -> Row {
        let Input { name, call, ref sheet, .. } = input;
        let line = call.line(sheet);
        let prepared = call.kind().map(|kind| Prepared::new(sheet, kind));
        if let Some(prepared) = &prepared {
            assert_eq!(prepared.line(), line, "{name}: the two sides differ");
        }
        Row { input, line, prepared, rust: vec![], port: vec![] }
    }

    /// Times the two sides in turn. Of the port a run with no call is timed too, and taken off: that is the building of
    /// the sheet.
    fn run(&mut self) {
        let Input { call, sheet, times, .. } = &self.input;
        let (mut built, mut called, mut rust) = (Duration::MAX, Duration::MAX, Duration::MAX);
        for _ in 0..TURNS {
            built = built.min(call.time(sheet, 0));
            called = called.min(call.time(sheet, *times));
            if let Some(prepared) = &self.prepared {
                rust = rust.min(prepared.time(*times, clock::now));
                if rust > SLOW {
                    break;
                }
            }
        }
        let each = |time: Duration| time.as_secs_f64() / *times as f64;
        self.port.push(each(called.saturating_sub(built)));
        if self.prepared.is_some() {
            self.rust.push(each(rust));
        }
    }

    fn shown(&self) -> String {
        let Row { input, line, rust, port, .. } = self;
        let name = input.name;
        let port_time = time(least(port));
        if rust.is_empty() {
            return format!("| {name} | `{line}` | | {port_time} | | |");
        }
        let rust_time = time(least(rust));
        let (from, to) = ratios(port, rust);
        format!("| {name} | `{line}` | {rust_time} | {port_time} | {from} | {to} |")
    }
}

fn least(values: &[f64]) -> f64 {
    values.iter().copied().fold(f64::MAX, f64::min)
}

/// The least and the greatest ratio of a run.
fn ratios(over: &[f64], under: &[f64]) -> (String, String) {
    let each_run: Vec<f64> = over.iter().zip(under).map(|(a, b)| a / b).collect();
    let greatest = each_run.iter().copied().fold(0.0, f64::max);
    (ratio(least(&each_run)), ratio(greatest))
}

fn ratio(value: f64) -> String {
    if value < 0.1 {
        format!("{value:.3}")
    } else if value < 1.0 {
        format!("{value:.2}")
    } else {
        format!("{value:.1}")
    }
}

fn time(seconds: f64) -> String {
    if seconds < 1e-6 {
        format!("{:.0} ns", seconds * 1e9)
    } else if seconds < 1e-3 {
        format!("{:.2} µs", seconds * 1e6)
    } else if seconds < 1.0 {
        format!("{:.1} ms", seconds * 1e3)
    } else {
        format!("{seconds:.2} s")
    }
}
