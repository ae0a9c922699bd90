//! Verifies a bundle, as the C host does: the report or the refusal on standard output, and its status.
//!
//!     ratmanganese-verify --root=FILE --repository=DIR --store=DIR --bundle=FILE --artifact=FILE --policy=FILE
//!         [--provider=FILE] [--now=YYYY-MM-DDTHH:MM:SSZ] [--all]
//!     ratmanganese-verify --answer <QUESTIONS
//!
//! --provider has rows that hold, to begin with; with --all the whole repository is handed in at once; --answer alone writes, of
//! lines `accept ..`, those whose signatures are good. The artifact is read into memory. The status is the call's; 2 for faulty
//! words, 3 where an input or a file can't be read, 4 where the store or standard output can't be written, 70 where what the
//! library says isn't understood.
#![forbid(unsafe_code)]

use ratmanganese::{verify, Decider, Error, Folder, FolderStore, OpenSsl, Request, Row};
use std::collections::HashMap;
use std::ffi::{OsStr, OsString};
use std::io::{BufRead, Read, Write};
use std::os::unix::ffi::{OsStrExt, OsStringExt};
use std::path::PathBuf;
use std::time::{SystemTime, UNIX_EPOCH};

const USAGE: i32 = 2;
const INPUT: i32 = 3;
const OUTPUT: i32 = 4;
const UNKNOWN: i32 = 70;
const INPUTS: [(&str, u64); 4] = [("policy", 65536), ("root", 512_000), ("bundle", 16 << 20), ("provider", 16 << 20)];
const FOLDERS: [&str; 3] = ["repository", "store", "artifact"];

/// A status, and what is said.
type Answer = (i32, String);

type Words = HashMap<String, Option<OsString>>;

fn usage() -> Answer {
    (USAGE, "usage\n".to_owned())
}

/// The words, each once, by their names; none where one is unknown or lacks its value.
fn words() -> Option<Words> {
    let mut given = Words::new();
    for word in std::env::args_os().skip(1) {
        let word = word.as_bytes().strip_prefix(b"--")?.to_vec();
        let mut parts = word.splitn(2, |&octet| octet == b'=');
        let name = String::from_utf8(parts.next()?.to_vec()).ok()?;
        let value = parts.next().map(|value| OsString::from_vec(value.to_vec()));
        let is_known = INPUTS.iter().any(|input| input.0 == name) || FOLDERS.contains(&&*name) || name == "now" || name == "all";
        let is_lacking = name != "all" && value.as_ref().map_or(true, |value| value.is_empty());
        if !is_known || is_lacking || given.insert(name, value).is_some() {
            return None;
        }
    }
    let wanted = INPUTS.iter().map(|input| input.0).filter(|&name| name != "provider").chain(FOLDERS);
    let mut missing = wanted.filter(|&name| !given.contains_key(name));
    missing.next().is_none().then_some(given)
}

/// Seconds since the start of 1970, of an instant as 2025-01-01T00:00:00Z.
fn seconds_of(text: &OsStr) -> Option<i64> {
    let text = text.as_bytes();
    if text.len() != 20 || [4, 7, 10, 13, 16, 19].map(|at| text[at]) != *b"--T::Z" {
        return None;
    }
    let number = |at: usize, length: usize| {
        let digits = &text[at..at + length];
        let value = digits.iter().fold(0, |value, digit| value * 10 + i64::from(digit.wrapping_sub(b'0')));
        digits.iter().all(u8::is_ascii_digit).then_some(value)
    };
    let (year, month, day) = (number(0, 4)?, number(5, 2)?, number(8, 2)?);
    let (hour, minute, second) = (number(11, 2)?, number(14, 2)?, number(17, 2)?);
    let is_leap = year % 4 == 0 && (year % 100 != 0 || year % 400 == 0);
    let lengths = [31, if is_leap { 29 } else { 28 }, 31, 30, 31, 30, 31, 31, 30, 31, 30, 31];
    if !(1..=12).contains(&month) || day < 1 || day > lengths[month as usize - 1] || hour > 23 || minute > 59 || second > 59 {
        return None;
    }
    let leap_years = |before: i64| before / 4 - before / 100 + before / 400;
    let start = if year == 0 { -366 } else { 365 * (year - 1) + leap_years(year - 1) };
    let days = start - (365 * 1969 + leap_years(1969)) + lengths[..month as usize - 1].iter().sum::<i64>() + day - 1;
    Some(((days * 24 + hour) * 60 + minute) * 60 + second)
}

fn read(path: &OsStr, most: u64) -> std::io::Result<Vec<u8>> {
    let mut bytes = Vec::new();
    std::fs::File::open(path)?.take(most + 1).read_to_end(&mut bytes)?;
    Ok(bytes)
}

fn told(status: i32, fault: &dyn std::fmt::Display) -> Answer {
    let line: String = fault.to_string().chars().map(|c| if c.is_control() { '?' } else { c }).collect();
    eprintln!("verify: {line}");
    (status, String::new())
}

fn answer(words: &Words) -> Answer {
    let value = |name: &str| words.get(name).and_then(|value| value.as_deref());
    let path = |name: &str| PathBuf::from(value(name).unwrap_or_default());
    let mut request = Request::default();
    match (value("now").map(seconds_of), SystemTime::now().duration_since(UNIX_EPOCH)) {
        (Some(Some(seconds)), _) => request.seconds = seconds,
        (None, Ok(since)) => (request.seconds, request.nanoseconds) = (since.as_secs() as i64, since.subsec_nanos()),
        _ => return usage(),
    }
    let mut inputs: [Vec<u8>; 4] = Default::default();
    for (input, (name, most)) in inputs.iter_mut().zip(INPUTS) {
        match value(name).map(|path| read(path, most)) {
            Some(Ok(bytes)) => *input = bytes,
            Some(Err(_)) => return (INPUT, format!("input {name}\n")),
            None => {}
        }
    }
    [request.policy, request.root, request.bundle, request.good] = [&inputs[0], &inputs[1], &inputs[2], &inputs[3]];
    let artifact = match std::fs::read(path("artifact")) {
        Ok(bytes) => bytes,
        Err(fault) => return told(INPUT, &format!("{}: {fault}", path("artifact").display())),
    };
    request.artifact = &artifact;
    let mut repository = Folder(path("repository"));
    let whole = match words.contains_key("all").then(|| repository.all()).transpose() {
        Ok(whole) => whole,
        Err(fault) => return told(INPUT, &fault),
    };
    request.whole = whole.as_deref();
    match verify(&request, &mut repository, &mut FolderStore(path("store")), &OpenSsl) {
        Ok(report) => (0, report.text),
        Err(Error::Refused { text, .. }) => (1, text),
        Err(Error::Status(status, text)) => (i32::try_from(status).unwrap_or(UNKNOWN), text),
        Err(fault @ Error::Read(_)) => told(INPUT, &fault),
        Err(fault @ Error::Write(_)) => told(OUTPUT, &fault),
        Err(fault) => told(UNKNOWN, &fault),
    }
}

/// Of the lines of standard input those whose signatures are good.
fn good_rows() -> std::io::Result<Vec<u8>> {
    let (mut input, mut out) = (std::io::stdin().lock(), Vec::new());
    loop {
        let mut line = Vec::new();
        if input.read_until(b'\n', &mut line)? == 0 {
            return Ok(out);
        }
        let row = line.strip_suffix(b"\n").and_then(Row::read);
        if row.map_or(false, |row| OpenSsl.is_good(&row)) {
            out.extend_from_slice(&line);
        }
    }
}

fn main() {
    let (status, text) = if std::env::args_os().skip(1).eq(["--answer"]) {
        match good_rows() {
            Ok(rows) => (0, rows),
            Err(_) => (INPUT, Vec::new()),
        }
    } else {
        let (status, text) = words().map_or_else(usage, |words| answer(&words));
        (status, text.into_bytes())
    };
    let mut out = std::io::stdout();
    let is_written = out.write_all(&text).and_then(|()| out.flush()).is_ok();
    std::process::exit(if is_written { status } else { OUTPUT });
}

#[cfg(test)]
mod tests {
    use super::seconds_of;

    // (by the command `date -u +%s`)
    #[test]
    fn reads_instants() {
        let wanted = [
            ("1970-01-01T00:00:00Z", 0),
            ("1969-12-31T23:59:59Z", -1),
            ("2000-02-29T12:00:00Z", 951_825_600),
            ("2025-01-01T00:00:00Z", 1_735_689_600),
            ("2100-03-01T00:00:00Z", 4_107_542_400),
            ("0001-01-01T00:00:00Z", -62_135_596_800),
            ("9999-12-31T23:59:59Z", 253_402_300_799),
        ];
        for (text, seconds) in wanted {
            assert_eq!(seconds_of(text.as_ref()), Some(seconds), "{text}");
        }
        let others = ["", "2023-02-29T00:00:00Z", "2100-02-29T00:00:00Z", "2025-13-01T00:00:00Z", "2025-00-01T00:00:00Z", "2025-01-01T24:00:00Z"];
        for text in others.into_iter().chain(["2025-01-01T00:00:00z", "2025-01-01T00:00:0:Z", "2025-01-01 00:00:00Z"]) {
            assert_eq!(seconds_of(text.as_ref()), None, "{text}");
        }
    }
}
