//! Verifies a Sigstore bundle over an artifact from a pinned TUF root, by the C library of Ratmanganese.
//!
//! What the library promises is proved, of what it is handed; this crate, which hands it files and has signatures judged, isn't.
//! `ratmanganese.h` says what it owes the library. Nothing is kept between calls, so that threads may call at once; over one store
//! one verification ends before the next begins.
#![deny(unsafe_code)]
#![warn(missing_docs)]

mod ffi;
mod field;
mod files;
mod signatures;

pub use files::{Files, Folder, FolderStore, Store};
#[cfg(feature = "openssl")]
pub use signatures::OpenSsl;
pub use signatures::{Decider, Row};

use field::field;
use std::fmt;
use std::io;

const ACCEPTED: u32 = 0;
const REFUSED: u32 = 1;
const ASKS: u32 = 6;
const MOST_ROUNDS: usize = 1000;

/// A file and its name, below the folder of a repository or of a store.
#[derive(Clone, Debug, PartialEq, Eq)]
pub struct File {
    /// The name, its parts divided by slashes.
    pub name: Vec<u8>,
    /// The contents.
    pub bytes: Vec<u8>,
}

/// What is verified, from what, and when.
#[derive(Clone, Copy, Default)]
pub struct Request<'a> {
    /// The pinned TUF root.
    pub root: &'a [u8],
    /// The bundle, JSON.
    pub bundle: &'a [u8],
    /// The artifact.
    pub artifact: &'a [u8],
    /// The policy's text.
    pub policy: &'a [u8],
    /// Rows of signatures that are good, to begin with.
    pub good: &'a [u8],
    /// The verification time: seconds since the start of 1970,
    pub seconds: i64,
    /// and nanoseconds behind them.
    pub nanoseconds: u32,
    /// All files of the repository, where it has no others.
    pub whole: Option<&'a [File]>,
}

/// What is accepted, and by what: a line for each fact.
#[derive(Clone, Debug, PartialEq, Eq)]
pub struct Report {
    /// The report's text.
    pub text: String,
}

impl Report {
    /// What stands behind this word on each line that it begins, as `values("identity")`.
    pub fn values<'a>(&'a self, word: &'a str) -> impl Iterator<Item = &'a str> + 'a {
        self.text.lines().filter_map(move |line| line.strip_prefix(word)?.strip_prefix(' '))
    }
}

/// Why a bundle isn't accepted.
#[derive(Debug)]
pub enum Error {
    /// It is refused: the part (`tuf` or `verify`), number and name of the refusal, and the whole text, in which under several rules
    /// a line for each later one follows.
    Refused {
        /// `tuf` or `verify`.
        part: String,
        /// The number in docs/REFUSALS.md.
        number: u32,
        /// The name there.
        name: String,
        /// All that is said.
        text: String,
    },
    /// Another status than acceptance and refusal, and what is said.
    Status(u32, String),
    /// A file of the repository, or the store's, can't be read.
    Read(io::Error),
    /// The store can't be written.
    Write(io::Error),
    /// What the library says isn't understood, or it asks without an end.
    Unknown,
}

impl fmt::Display for Error {
    fn fmt(&self, f: &mut fmt::Formatter<'_>) -> fmt::Result {
        match self {
            Error::Refused { text, .. } | Error::Status(_, text) => f.write_str(text.trim_end()),
            Error::Read(fault) => write!(f, "a file can't be read: {fault}"),
            Error::Write(fault) => write!(f, "the store can't be written: {fault}"),
            Error::Unknown => f.write_str("what the library says isn't understood"),
        }
    }
}

impl std::error::Error for Error {}

/// What was answered to the questions of a verification.
struct Answers {
    good: Vec<u8>,
    bad: Vec<u8>,
    files: Vec<File>,
    absent: Vec<Vec<u8>>,
}

impl Answers {
    /// Answers a line, without its end.
    fn answer(&mut self, line: &[u8], repository: &mut dyn Files, decider: &dyn Decider) -> Result<(), Error> {
        if line.starts_with(b"accept ") {
            let is_good = Row::read(line).map_or(false, |row| decider.is_good(&row));
            let rows = if is_good { &mut self.good } else { &mut self.bad };
            rows.extend_from_slice(line);
            rows.push(b'\n');
            return Ok(());
        }
        let words: Vec<&[u8]> = line.split(|&octet| octet == b' ').collect();
        let (name, most) = match words[..] {
            [b"file", name, most] => (name, most),
            _ => return Err(Error::Unknown),
        };
        let name = field(name).ok_or(Error::Unknown)?;
        let most = std::str::from_utf8(most).ok().and_then(|most| most.parse().ok()).ok_or(Error::Unknown)?;
        match repository.file(&name, most).map_err(Error::Read)? {
            Some(bytes) => self.files.push(File { name, bytes }),
            None => self.absent.push(name),
        }
        Ok(())
    }
}

/// The files of the lines `keep NAME BYTES`.
fn kept_of(text: &[u8]) -> Option<Vec<File>> {
    let lines = text.split_inclusive(|&octet| octet == b'\n');
    let file = |line: &[u8]| {
        let words: Vec<&[u8]> = line.strip_suffix(b"\n")?.split(|&octet| octet == b' ').collect();
        match words[..] {
            [b"keep", name, bytes] => Some(File { name: field(name)?, bytes: field(bytes)? }),
            _ => None,
        }
    };
    lines.map(file).collect()
}

/// What is said of a refusal.
fn refusal_of(text: String) -> Error {
    let words: Vec<&str> = text.lines().next().unwrap_or_default().split(' ').collect();
    let read = match words[..] {
        ["refused", part, number, name] => number.parse().ok().map(|number| (part.to_owned(), number, name.to_owned())),
        _ => None,
    };
    match read {
        Some((part, number, name)) => Error::Refused { part, number, name, text },
        None => Error::Status(REFUSED, text),
    }
}

/// Verifies a bundle, and gives the report where it is accepted.
pub fn verify(request: &Request<'_>, repository: &mut dyn Files, store: &mut dyn Store, decider: &dyn Decider) -> Result<Report, Error> {
    let stored = store.load().map_err(Error::Read)?;
    let mut answers = Answers { good: request.good.to_vec(), bad: Vec::new(), files: request.whole.unwrap_or_default().to_vec(), absent: Vec::new() };
    for _ in 0..MOST_ROUNDS {
        let said = ffi::call(request, [&answers.good, &answers.bad], &answers.files, &answers.absent, &stored).ok_or(Error::Unknown)?;
        if said.status == ASKS {
            for line in said.out.split_inclusive(|&octet| octet == b'\n') {
                answers.answer(line.strip_suffix(b"\n").ok_or(Error::Unknown)?, repository, decider)?;
            }
            continue;
        }
        let text = String::from_utf8(said.out).map_err(|_| Error::Unknown)?;
        if said.status == ACCEPTED || said.status == REFUSED {
            store.keep(&kept_of(&said.kept).ok_or(Error::Unknown)?).map_err(Error::Write)?;
        }
        return match said.status {
            ACCEPTED => Ok(Report { text }),
            REFUSED => Err(refusal_of(text)),
            status => Err(Error::Status(status, text)),
        };
    }
    Err(Error::Unknown)
}
