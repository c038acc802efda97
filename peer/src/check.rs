//! Cases kept as data: a folder of books, each with what is expected of it beside it.
//!
//! A case is `NAME.txt`, a book's text, or `NAME.book`, its bytes; where both are there they
//! have to agree. What is expected stands in `NAME.answers`, `NAME.listing` and `NAME.inspect`,
//! or in some of them. Nothing here writes such a file: what is expected comes from outside.

use std::collections::BTreeMap;
use std::ffi::OsStr;
use std::fmt;
use std::fs;
use std::io;
use std::path::{Path, PathBuf};

use crate::compare::Program;
use crate::programs;
use crate::text;

/// The two programs that a folder is checked with, beside the peer's own.
pub struct Programs {
    recorder: Program,
    inspect: Program,
}

impl Programs {
    pub fn new(recorder: PathBuf, inspect: PathBuf) -> Programs {
        Programs { recorder: Program::recorder(recorder), inspect: Program::inspect(inspect) }
    }
}

/// What a folder's cases showed.
#[derive(Default)]
pub struct Report {
    cases: usize,
    comparisons: usize,
    differences: Vec<Difference>,
}

/// A file that isn't what somebody makes of the case, or a case that can't be checked.
struct Difference {
    file: String,
    reason: String,
}

impl Report {
    pub fn has_differences(&self) -> bool {
        !self.differences.is_empty()
    }

    fn compare(&mut self, file: String, who: &str, expected: &[u8], found: &[u8]) {
        self.comparisons += 1;
        if expected != found {
            let reason = format!("{who} has it otherwise{}", first_difference(expected, found));
            self.differences.push(Difference { file, reason });
        }
    }

    fn fail(&mut self, file: String, reason: &str) {
        self.differences.push(Difference { file, reason: reason.to_string() });
    }
}

impl fmt::Display for Report {
    fn fmt(&self, out: &mut fmt::Formatter) -> fmt::Result {
        for Difference { file, reason } in &self.differences {
            writeln!(out, "{file}: {reason}")?;
        }
        write!(out, "{} cases, {} comparisons: ", self.cases, self.comparisons)?;
        match self.differences.len() {
            0 => writeln!(out, "no difference"),
            1 => writeln!(out, "1 difference"),
            many => writeln!(out, "{many} differences"),
        }
    }
}

/// The first line in which two outputs differ.
fn first_difference(expected: &[u8], found: &[u8]) -> String {
    let (expected, found) = (String::from_utf8_lossy(expected), String::from_utf8_lossy(found));
    let (mut expected, mut found) = (expected.lines(), found.lines());
    for line in 1.. {
        let (wanted, got) = (expected.next(), found.next());
        if wanted.is_none() && got.is_none() {
            break;
        }
        if wanted != got {
            let (wanted, got) = (wanted.unwrap_or("the end"), got.unwrap_or("the end"));
            return format!(", first in line {line}: expected `{wanted}`, found `{got}`");
        }
    }
    ", in its line ends".to_string()
}

/// Checks every case of the folder, with the two programs where they are given.
pub fn check(folder: &Path, programs: Option<&Programs>) -> io::Result<Report> {
    let mut report = Report::default();
    for (name, files) in cases(folder)? {
        check_case(&mut report, &name, &files, programs)?;
    }
    if report.cases == 0 && !report.has_differences() {
        return Err(io::Error::other(format!("{}: no case in it", folder.display())));
    }
    Ok(report)
}

/// The files of a case by their extensions.
type Files = BTreeMap<String, Vec<u8>>;

const BOOKS: [&str; 2] = ["txt", "book"];
const EXPECTED: [&str; 3] = ["answers", "listing", "inspect"];

fn cases(folder: &Path) -> io::Result<BTreeMap<String, Files>> {
    let named =
        |error: io::Error| io::Error::new(error.kind(), format!("{}: {error}", folder.display()));
    let mut cases: BTreeMap<String, Files> = BTreeMap::new();
    for entry in fs::read_dir(folder).map_err(named)? {
        let path = entry?.path();
        let name = path.file_stem().and_then(OsStr::to_str);
        let kind = path.extension().and_then(OsStr::to_str);
        let (Some(name), Some(kind)) = (name, kind) else { continue };
        if BOOKS.contains(&kind) || EXPECTED.contains(&kind) {
            let files = cases.entry(name.to_string()).or_default();
            files.insert(kind.to_string(), fs::read(&path)?);
        }
    }
    Ok(cases)
}

fn check_case(
    report: &mut Report,
    name: &str,
    files: &Files,
    programs: Option<&Programs>,
) -> io::Result<()> {
    let Some(book) = book_of(report, name, files) else { return Ok(()) };
    report.cases += 1;
    if !EXPECTED.iter().any(|kind| files.contains_key(*kind)) {
        report.fail(name.to_string(), "nothing is expected of it");
    }
    Outcome::of_peer(&book).check(report, name, files);
    if let Some(programs) = programs {
        Outcome::of_programs(programs, &book)?.check(report, name, files);
    }
    Ok(())
}

/// The case's bytes: those of its text, and of its book where it has no text.
fn book_of(report: &mut Report, name: &str, files: &Files) -> Option<Vec<u8>> {
    let bytes = files.get("book");
    let Some(text) = files.get("txt") else {
        if bytes.is_none() {
            report.fail(name.to_string(), "there is neither a text nor a book of it");
        }
        return bytes.cloned();
    };
    match text::read(&String::from_utf8_lossy(text)) {
        Ok(book) => {
            let book = book.bytes();
            if let Some(bytes) = bytes {
                report.compare(format!("{name}.book"), "the text", bytes, &book);
            }
            Some(book)
        }
        Err(error) => {
            report.fail(format!("{name}.txt"), &error.to_string());
            None
        }
    }
}

/// What somebody makes of a book.
struct Outcome {
    who: &'static str,
    answers: String,
    listing: Vec<u8>,
    inspect: Vec<u8>,
}

impl Outcome {
    fn of_peer(book: &[u8]) -> Outcome {
        let (listing, inspect) = (programs::recorder(book), programs::inspect(book));
        Outcome {
            who: "the peer",
            answers: answers_in(&inspect),
            listing: listing.into_bytes(),
            inspect: inspect.into_bytes(),
        }
    }

    fn of_programs(programs: &Programs, book: &[u8]) -> io::Result<Outcome> {
        let (listing, inspect) =
            (programs.recorder.output(&[], book)?, programs.inspect.output(&[], book)?);
        let answers = answers_in(&String::from_utf8_lossy(&inspect));
        Ok(Outcome { who: "the program", answers, listing, inspect })
    }

    /// Compares with each of the case's files that is there.
    fn check(&self, report: &mut Report, name: &str, files: &Files) {
        let mut check = |kind: &str, found: &[u8]| {
            if let Some(expected) = files.get(kind) {
                report.compare(format!("{name}.{kind}"), self.who, expected, found);
            }
        };
        check("answers", self.answers.as_bytes());
        check("listing", &self.listing);
        check("inspect", &self.inspect);
    }
}

/// The answers that an inspection tells, as a line; a refused book has none.
fn answers_in(inspection: &str) -> String {
    let told = inspection.lines().find_map(|line| line.strip_prefix("answers"));
    format!("{}\n", told.unwrap_or_default().trim_start())
}
