//! README's story of the box without a name, through the C interface from Rust: conflicts asked for
//! too early, then after a settle, then from a parked structure. samples/unnamed-box.txt has it as
//! a sheet. story.c does the same in C and prints the same. lib/run builds and runs both.

use std::process::ExitCode;

/// The calls of lib/pechunaq.h, without `unsafe` outside of it.
mod pechunaq {
    /// What the archive takes and gives, as the header has it.
    mod raw {
        #[repr(C)]
        #[derive(Clone, Copy)]
        pub struct Session {
            words: [u16; 19883],
        }

        #[repr(C)]
        pub struct Reply {
            pub kind: u16,
            pub numbers: [u64; 4],
        }

        #[repr(C)]
        pub struct Line {
            pub bytes: [u8; 80],
            pub len: u16,
        }

        #[repr(C)]
        pub struct HandedIn {
            pub answer: Reply,
            pub session: Session,
        }

        #[repr(C)]
        pub struct Taken {
            pub line: Line,
            pub session: Session,
        }

        #[repr(C)]
        pub struct Parked {
            pub size: usize,
            pub refused: u16,
        }

        #[repr(C)]
        pub struct Resumed {
            pub refused: u16,
            pub session: Session,
        }

        const _: () = assert!(size_of::<Session>() == 39766 && size_of::<Reply>() == 40);
        const _: () = assert!(size_of::<HandedIn>() == 39808 && size_of::<Taken>() == 39848);
        const _: () = assert!(size_of::<Parked>() == 16 && size_of::<Resumed>() == 39768);

        #[link(name = "pechunaq", kind = "static")]
        extern "C" {
            pub fn pechunaq_begin() -> Session;
            pub fn pechunaq_hand_in(session: Session, record: *const u8) -> HandedIn;
            pub fn pechunaq_next_line(session: Session, sheet: *const u8, length: usize) -> Taken;
            pub fn pechunaq_park(session: Session, file: *mut u8, length: usize) -> Parked;
            pub fn pechunaq_resume(session: Session, file: *const u8, length: usize) -> Resumed;
            pub fn pechunaq_is_settled(session: Session) -> bool;
        }
    }

    pub const RECORD_BYTES: usize = 32;
    pub const MAX_FILE: usize = 16274;

    /// The number of a refusal.
    #[derive(Clone, Copy, Debug, PartialEq)]
    pub struct Refused(pub u64);

    /// What a record that was not refused was answered.
    #[derive(Clone, Copy, Debug, PartialEq)]
    pub enum Answer {
        Done,
        Number(u64),
        Says(bool),
        Closed { changed: bool, merges: u64, rounds: u64, added: u64 },
        Conflicting { conflicts: u64, finds: u64 },
        Summed { closes: u64, merges: u64 },
    }

    /// A session; nothing outside can change its bytes.
    #[derive(Clone)]
    pub struct Session(Box<raw::Session>);

    // SAFETY, of each call below: the session is one that a call gave, and each pointer is of as
    // many bytes as are said beside it, 32 for a record. The archive keeps no pointer.
    impl Session {
        pub fn begin() -> Session {
            Session(Box::new(unsafe { raw::pechunaq_begin() }))
        }

        pub fn hand_in(&mut self, record: &[u8; RECORD_BYTES]) -> Result<Answer, Refused> {
            let handed_in = unsafe { raw::pechunaq_hand_in(*self.0, record.as_ptr()) };
            *self.0 = handed_in.session;
            let [a, b, c, d] = handed_in.answer.numbers;
            Ok(match handed_in.answer.kind {
                0 => Answer::Done,
                1 => Answer::Number(a),
                2 => Answer::Says(a == 1),
                3 => Answer::Closed { changed: a == 1, merges: b, rounds: c, added: d },
                4 => Answer::Conflicting { conflicts: a, finds: b },
                5 => Answer::Summed { closes: a, merges: b },
                _ => return Err(Refused(a)),
            })
        }

        /// The next line of the record handed in last, with its newline.
        pub fn next_line(&mut self) -> Option<String> {
            let none = [];
            let taken = unsafe { raw::pechunaq_next_line(*self.0, none.as_ptr(), none.len()) };
            *self.0 = taken.session;
            let line = &taken.line.bytes[..usize::from(taken.line.len)];
            (!line.is_empty()).then(|| String::from_utf8_lossy(line).into_owned())
        }

        pub fn park(&self) -> Result<Vec<u8>, Refused> {
            let mut file = vec![0; MAX_FILE];
            let parked = unsafe { raw::pechunaq_park(*self.0, file.as_mut_ptr(), file.len()) };
            file.truncate(parked.size);
            accepted(parked.refused).map(|()| file)
        }

        pub fn resume(&mut self, file: &[u8]) -> Result<(), Refused> {
            let resumed = unsafe { raw::pechunaq_resume(*self.0, file.as_ptr(), file.len()) };
            *self.0 = resumed.session;
            accepted(resumed.refused)
        }

        pub fn is_settled(&self) -> bool {
            unsafe { raw::pechunaq_is_settled(*self.0) }
        }
    }

    fn accepted(refused: u16) -> Result<(), Refused> {
        if refused == 0 { Ok(()) } else { Err(Refused(refused.into())) }
    }

    /// A record of this kind, A and B with these parents and no arguments.
    pub fn record(kind: u16, a: u16, b: u16, parents: &[u16]) -> [u8; RECORD_BYTES] {
        let mut words = [0; RECORD_BYTES / 2];
        words[1..5].copy_from_slice(&[kind, a, b, parents.len() as u16]);
        words[6..6 + parents.len()].copy_from_slice(parents);
        let mut record = [0; RECORD_BYTES];
        for (bytes, word) in record.chunks_exact_mut(2).zip(words) {
            bytes.copy_from_slice(&word.to_le_bytes());
        }
        record
    }
}

use pechunaq::{record, Answer, Refused, Session};

// Kinds of records, and of types.
const TYPE: u16 = 1;
const FUNCTION: u16 = 3;
const ELEMENT: u16 = 6;
const IMPOSITION: u16 = 8;
const APPLICATION: u16 = 9;
const CLOSE: u16 = 13;
const CONFLICTS: u16 = 14;
const SETTLE: u16 = 15;
const PLAIN: u16 = 0;
const MODEL: u16 = 1;

// The types and the function of the signature, and the elements.
const BOX: u16 = 0;
const UNIT: u16 = 1;
const PACK: u16 = 2;
const PLATE: u16 = 3;
const UNIT_OF: u16 = 0;
const BOX_7: u16 = 0;
const UNNAMED: u16 = 1;
const UNIT_K: u16 = 2;
const UNIT_X: u16 = 3;
const SERIAL_PLATE: u16 = 4;
const PACK_1: u16 = 5;
const PACK_COUNT: u16 = 9;

/// Hands in a record and prints its lines.
fn tell(
    session: &mut Session, kind: u16, a: u16, b: u16, parents: &[u16],
) -> Result<Answer, Refused> {
    let answer = session.hand_in(&record(kind, a, b, parents));
    while let Some(line) = session.next_line() {
        print!("{line}");
    }
    answer
}

/// The signature, which is no part of a parked file.
fn declare(session: &mut Session) -> Result<(), Refused> {
    tell(session, TYPE, MODEL, 0, &[])?;
    tell(session, TYPE, MODEL, 0, &[BOX])?;
    tell(session, TYPE, PLAIN, 0, &[UNIT])?;
    tell(session, TYPE, PLAIN, 0, &[BOX])?;
    tell(session, FUNCTION, 0, UNIT, &[BOX])?;
    Ok(())
}

/// What the two sheets say: both list the same packs, each under its own name for the unit, and the
/// serial plate is on both.
fn describe(session: &mut Session) -> Result<(), Refused> {
    let sheets = [(BOX_7, UNIT_K), (UNNAMED, UNIT_X)];
    for el in BOX_7..PACK_1 + PACK_COUNT {
        tell(session, ELEMENT, (el == UNNAMED).into(), 0, &[])?;
    }
    for (gearbox, unit) in sheets {
        tell(session, APPLICATION, UNIT_OF, unit, &[gearbox])?;
    }
    for (_, unit) in sheets {
        for pack in PACK_1..PACK_1 + PACK_COUNT {
            tell(session, IMPOSITION, pack, PACK, &[unit])?;
        }
    }
    for (gearbox, _) in sheets {
        tell(session, IMPOSITION, SERIAL_PLATE, PLATE, &[gearbox])?;
    }
    Ok(())
}

/// Asks for the conflicts, and says whether they may be acted on.
fn judge(session: &mut Session) -> Result<(), Refused> {
    let answer = tell(session, CONFLICTS, 0, 0, &[])?;
    match answer {
        Answer::Conflicting { conflicts, .. } if !session.is_settled() => {
            println!(
                "-> not settled: open no pack for these {conflicts} conflicts, they may go away"
            );
        }
        Answer::Conflicting { conflicts: 0, .. } => {
            println!("-> settled: no conflict, the sheets agree");
        }
        Answer::Conflicting { conflicts, .. } => {
            println!("-> settled: these {conflicts} conflicts are real");
        }
        _ => unreachable!("a record of kind 14 is answered by conflicts"),
    }
    Ok(())
}

fn story() -> Result<(), Refused> {
    println!("== asked after one close");
    let mut early = Session::begin();
    declare(&mut early)?;
    describe(&mut early)?;
    let closed = tell(&mut early, CLOSE, 0, 0, &[])?;
    if let Answer::Closed { changed: true, merges, added, .. } = closed {
        println!(
            "-> this close changed something (merges {merges}, new facts {added}): the next one \
             may too"
        );
    }
    judge(&mut early)?;

    println!("== asked after a settle");
    let mut settled = Session::begin();
    declare(&mut settled)?;
    describe(&mut settled)?;
    if let Answer::Summed { closes, merges } = tell(&mut settled, SETTLE, 0, 0, &[])? {
        println!("-> it took {closes} closes with {merges} merges");
    }
    judge(&mut settled)?;

    println!("== parked over a shutdown, and resumed");
    let file = settled.park()?;
    println!("-> parked in {} bytes", file.len());
    let mut resumed = Session::begin();
    declare(&mut resumed)?;
    resumed.resume(&file)?;
    judge(&mut resumed)?;

    // A file that was cut off is refused, and the session goes on as it was.
    let Err(Refused(number)) = resumed.resume(&file[..file.len() - 1]) else {
        unreachable!("a file that was cut off is refused");
    };
    let still = if resumed.is_settled() { "still settled" } else { "not settled any more" };
    println!("-> a file that was cut off: refused {number}, {still}");
    Ok(())
}

fn main() -> ExitCode {
    match story() {
        Ok(()) => ExitCode::SUCCESS,
        Err(Refused(number)) => {
            println!("-> refused {number}");
            ExitCode::FAILURE
        }
    }
}
