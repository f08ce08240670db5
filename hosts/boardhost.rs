//! An example host in Rust: lends boards of any size to the library, and prints boardcheck's verdicts,
//! the ballots of receipts or the counts in sentences.
//!
//!     boardhost FILE...                  a verdict for each file
//!     boardhost --small BOARD...         the same, boards held to 5 processes and 200 ballots (23)
//!     boardhost --digests FILE BOARD...  for each board a line: found, and for each digest of FILE
//!                                        (of 32 bytes, one after another) the ballot's number or 0;
//!                                        or the refusal
//!     boardhost --names FILE BOARD...    for each board its text, the processes named by FILE (a line
//!                                        each); or the refusal
//!
//! With no board it takes the one on standard input. A board that cannot be read gets a line on
//! standard error and no answer, and the next one follows; if the digests or names cannot be read, none
//! gets an answer. Where standard output is closed, or does not take an answer, a line on standard error
//! says why, and no other answer follows. Ends with 0 if all boards are accepted, walked or told, 1 if
//! one is refused, 2 if a file cannot be read or an answer cannot be printed.
use std::ffi::{c_int, OsStr, OsString};
use std::fs::File;
use std::io::{self, BufWriter, Read, Write};
use std::os::fd::AsFd;
use std::process::ExitCode;
use std::sync::atomic::{AtomicBool, Ordering};

/// The length of a check's answer: rounds, winner, and 8 numbers for the order of going out.
const ANSWER: usize = 10;

/// The bytes of a digest.
const DIGEST: usize = 32;

/// Enough for every text: see the header.
const TEXT_MOST: usize = 1454;

const ANSWERED: u8 = 0;
const REFUSED: u8 = 1;

/// Not read, or not printed.
const FAILED: u8 = 2;

#[link(name = "gooseoften", kind = "static")]
extern "C" {
    fn gooseoften_check(board: *const u8, board_length: usize, answer: *mut [usize; ANSWER]) -> usize;
    fn gooseoften_check_small(
        board: *const u8,
        board_length: usize,
        answer: *mut [usize; ANSWER],
    ) -> usize;
    fn gooseoften_find(
        board: *const u8,
        board_length: usize,
        digests: *const u8,
        digests_length: usize,
        found: *mut u16,
        found_length: usize,
    ) -> usize;
    fn gooseoften_text(
        board: *const u8,
        board_length: usize,
        names: *const u8,
        names_length: usize,
        out: *mut u8,
        out_length: usize,
        answer: *mut [usize; 1],
    ) -> usize;
}

extern "C" {
    fn fcntl(descriptor: c_int, command: c_int, ...) -> c_int;
}

const F_GETFD: c_int = 1;

/// Whether the program was started with the stream closed.
static INPUT_CLOSED: AtomicBool = AtomicBool::new(false);
static OUTPUT_CLOSED: AtomicBool = AtomicBool::new(false);

/// The C library calls what stands in this section before the runtime starts. The runtime opens
/// /dev/null in the place of a standard stream that is closed, so `main` would ask too late.
#[used]
#[link_section = ".init_array"]
static BEFORE_RUNTIME: extern "C" fn() = ask_closed;

extern "C" fn ask_closed() {
    for (descriptor, closed) in [(0, &INPUT_CLOSED), (1, &OUTPUT_CLOSED)].iter() {
        // SAFETY: the command takes no further argument, and changes nothing.
        let flags = unsafe { fcntl(*descriptor, F_GETFD) };
        closed.store(flags < 0, Ordering::Relaxed);
    }
}

/// A standard stream as a file: where its descriptor is not open for reading or writing, that is an
/// error there, and none to `Stdin` and `Stdout`.
fn standard(stream: impl AsFd, name: &str, closed: &AtomicBool) -> io::Result<File> {
    if closed.load(Ordering::Relaxed) {
        return Err(io::Error::other(format!("{name} is closed")));
    }
    stream.as_fd().try_clone_to_owned().map(File::from)
}

fn input() -> io::Result<File> {
    standard(io::stdin(), "standard input", &INPUT_CLOSED)
}

fn output() -> io::Result<File> {
    standard(io::stdout(), "standard output", &OUTPUT_CLOSED)
}

/// An entry to the checker.
type Entry = unsafe extern "C" fn(*const u8, usize, *mut [usize; ANSWER]) -> usize;

/// What is asked of every board, with what is lent for it: the verdict of an entry, the ballots of
/// digests, the text with names.
#[derive(Clone, Copy)]
enum Question<'a> {
    Verdict(Entry),
    Receipts(&'a [u8]),
    Text(&'a [u8]),
}

/// The number of the first rule that is broken, and the record that goes with it.
struct Refusal {
    number: usize,
    record: usize,
}

/// What is said of an accepted board.
struct Accepted {
    order: Vec<usize>,
    winner: usize,
}

/// What a call gives by what it returns.
fn answered<T>(code: usize, answer: T) -> Result<T, Refusal> {
    match code {
        0 => Ok(answer),
        _ => Err(Refusal { number: code % 256, record: code / 256 }),
    }
}

/// The verdict on a board. Every slice is allowed: the library asks nothing of the bytes.
fn check(entry: Entry, board: &[u8]) -> Result<Accepted, Refusal> {
    let mut answer = [0usize; ANSWER];
    // SAFETY: the board is valid for the call, and the answer overlaps nothing else.
    let code = unsafe { entry(board.as_ptr(), board.len(), &mut answer) };
    answered(code, ()).map(|()| Accepted {
        order: answer[2..1 + answer[0]].to_vec(),
        winner: answer[1],
    })
}

/// The ballots of receipts: for each digest a number, or 0. Every slice is allowed here too.
fn find(board: &[u8], digests: &[u8]) -> Result<Vec<u16>, Refusal> {
    let mut found = vec![0u16; digests.len() / DIGEST];
    // SAFETY: board and digests are valid for the call, and found overlaps nothing else.
    let code = unsafe {
        gooseoften_find(
            board.as_ptr(),
            board.len(),
            digests.as_ptr(),
            digests.len(),
            found.as_mut_ptr(),
            found.len(),
        )
    };
    answered(code, found)
}

/// The count in sentences. Every slice is allowed here too.
fn text(board: &[u8], names: &[u8]) -> Result<Vec<u8>, Refusal> {
    let mut out = vec![0u8; TEXT_MOST];
    let mut length = [0usize; 1];
    // SAFETY: board and names are valid for the call, and out and length overlap nothing else.
    let code = unsafe {
        gooseoften_text(
            board.as_ptr(),
            board.len(),
            names.as_ptr(),
            names.len(),
            out.as_mut_ptr(),
            out.len(),
            &mut length,
        )
    };
    out.truncate(length[0]);
    answered(code, out)
}

fn print_accepted(accepted: &Accepted, out: &mut impl Write) -> io::Result<()> {
    writeln!(out, "accepted\nrounds {}", accepted.order.len() + 1)?;
    for process in &accepted.order {
        writeln!(out, "out {process}")?;
    }
    writeln!(out, "winner {}", accepted.winner)
}

fn print_found(found: &[u16], out: &mut impl Write) -> io::Result<()> {
    write!(out, "found")?;
    for number in found {
        write!(out, " {number}")?;
    }
    writeln!(out)
}

/// The bytes of a file, of standard input where it has no name; a line on standard error where it
/// cannot be read.
fn read(name: Option<&OsStr>) -> Option<Vec<u8>> {
    let mut bytes = Vec::new();
    let file = name.map_or_else(input, File::open);
    let read = file.and_then(|mut file| file.read_to_end(&mut bytes));
    if read.is_err() {
        let name = name.unwrap_or(OsStr::new("standard input"));
        say(&format!("boardhost: cannot read {}", name.to_string_lossy()));
    }
    read.ok().map(|_| bytes)
}

/// A line on standard error. `eprintln!` would panic where that does not take it.
fn say(line: &str) {
    let _ = writeln!(io::stderr(), "{line}");
}

/// Prints the answer to one board; an error where not all of it is taken.
fn answer(name: Option<&OsStr>, question: Question, out: &mut impl Write) -> io::Result<u8> {
    let Some(board) = read(name) else {
        return Ok(FAILED);
    };
    let result = match question {
        Question::Verdict(entry) => {
            check(entry, &board).map(|accepted| print_accepted(&accepted, out))
        }
        Question::Receipts(digests) => find(&board, digests).map(|found| print_found(&found, out)),
        Question::Text(names) => text(&board, names).map(|text| out.write_all(&text)),
    };
    let answered = match result {
        Ok(printed) => printed.map(|()| ANSWERED),
        Err(Refusal { number, record }) => {
            writeln!(out, "refused {number} {record}").map(|()| REFUSED)
        }
    }?;
    out.flush().map(|()| answered)
}

/// The worst of the answers to the boards of these names.
fn answer_all(names: &[OsString], question: Question, out: &mut impl Write) -> io::Result<u8> {
    if names.is_empty() {
        return answer(None, question, out);
    }
    let mut worst = ANSWERED;
    for name in names {
        worst = worst.max(answer(Some(name), question, out)?);
    }
    Ok(worst)
}

fn run(arguments: &[OsString]) -> io::Result<u8> {
    let out = &mut BufWriter::new(output()?);
    let receipts = match arguments.first().and_then(|first| first.to_str()) {
        Some("--small") => {
            return answer_all(&arguments[1..], Question::Verdict(gooseoften_check_small), out);
        }
        Some("--digests") => true,
        Some("--names") => false,
        _ => return answer_all(arguments, Question::Verdict(gooseoften_check), out),
    };
    let [_, file, boards @ ..] = arguments else {
        say("usage: boardhost [--small | --digests FILE | --names FILE] [BOARD...]");
        return Ok(FAILED);
    };
    match read(Some(file)) {
        Some(digests) if receipts => answer_all(boards, Question::Receipts(&digests), out),
        Some(names) => answer_all(boards, Question::Text(&names), out),
        None => Ok(FAILED),
    }
}

fn main() -> ExitCode {
    let arguments: Vec<OsString> = std::env::args_os().skip(1).collect();
    let ended = run(&arguments).unwrap_or_else(|error| {
        say(&format!("boardhost: cannot print: {error}"));
        FAILED
    });
    ExitCode::from(ended)
}
