//! The comparison: each seed's input through this implementation and through other programs.

use std::cell::Cell;
use std::fmt;
use std::io::{self, Write};
use std::num::NonZero;
use std::ops::Range;
use std::path::PathBuf;
use std::process::{Command, Stdio};
use std::sync::atomic::{AtomicBool, AtomicU64, Ordering};
use std::thread;

use crate::book::Book;
use crate::calls;
use crate::generate::{generate, generate_pairs};
use crate::lineage::lineage;
use crate::pair::pair;
use crate::prep;
use crate::programs;
use crate::shrink::{shrink_bytes, shrink_messages};
use crate::text;

/// Whether an input still shows what it is kept for.
pub type Test<'a> = dyn Fn(&[u8]) -> bool + 'a;

/// The seeded inputs of a comparison: how one is made, made smaller and shown.
pub struct Inputs {
    /// What one of them is called.
    pub name: &'static str,
    generate: fn(u64) -> Vec<u8>,
    shrink: fn(Vec<u8>, &Test) -> Vec<u8>,
    /// As lines of text, or nothing where the bytes aren't well formed.
    show: fn(&[u8]) -> Option<String>,
}

pub const BOOKS: Inputs = Inputs {
    name: "book",
    generate,
    shrink: shrink_bytes,
    show: |bytes| Book::read(bytes).ok().map(|book| text::write(&book)),
};

/// Books about weights, scalers and forecasts.
pub const PAIR_BOOKS: Inputs = Inputs { generate: generate_pairs, ..BOOKS };

pub const MESSAGE_FILES: Inputs = Inputs {
    name: "message file",
    generate: prep::generate::generate,
    shrink: shrink_messages,
    show: |bytes| {
        let messages = prep::messages::read(bytes)?;
        Some(messages.iter().map(|message| format!("{message}\n")).collect())
    },
};

/// The words behind a program's name.
pub type Words = Vec<String>;

/// A program that is compared: the words that it is called with for a seed's input, and what it
/// should print.
pub struct Program {
    name: &'static str,
    path: PathBuf,
    calls: fn(u64, &[u8]) -> Vec<Words>,
    expected: fn(&[String], &[u8]) -> String,
}

/// One call, without words.
fn bare(_: u64, _: &[u8]) -> Vec<Words> {
    vec![Words::new()]
}

impl Program {
    pub fn recorder(path: PathBuf) -> Program {
        let expected = |_: &[String], input: &[u8]| programs::recorder(input);
        Program { name: "recorder", path, calls: bare, expected }
    }

    pub fn inspect(path: PathBuf) -> Program {
        let expected = |_: &[String], input: &[u8]| programs::inspect(input);
        Program { name: "inspect", path, calls: bare, expected }
    }

    pub fn prep(path: PathBuf) -> Program {
        let expected = |_: &[String], input: &[u8]| prep::program::prep(input);
        Program { name: "prep", path, calls: bare, expected }
    }

    pub fn lineage(path: PathBuf) -> Program {
        Program { name: "lineage", path, calls: calls::of_lineage, expected: lineage }
    }

    pub fn pair(path: PathBuf) -> Program {
        Program { name: "pair", path, calls: calls::of_pair, expected: pair }
    }

    /// What the program prints for an input, and how it died if it did.
    pub fn output(&self, words: &[String], input: &[u8]) -> io::Result<Vec<u8>> {
        let mut command = Command::new(&self.path);
        command.args(words).stdin(Stdio::piped()).stdout(Stdio::piped());
        let mut child = command.spawn().map_err(|error| {
            io::Error::new(error.kind(), format!("{}: {error}", self.path.display()))
        })?;
        let mut stdin = child.stdin.take().expect("standard input is piped");
        let mut output = thread::scope(|scope| {
            // A program may stop reading an input that is too long: what it prints counts.
            scope.spawn(move || drop(stdin.write_all(input)));
            child.wait_with_output()
        })?;
        if output.status.code().is_none() {
            writeln!(output.stdout, "{}", output.status)?;
        }
        Ok(output.stdout)
    }
}

/// A program with the words of one call.
struct Call<'a> {
    program: &'a Program,
    words: Words,
}

impl Call<'_> {
    fn output(&self, input: &[u8]) -> io::Result<Vec<u8>> {
        self.program.output(&self.words, input)
    }

    fn expected(&self, input: &[u8]) -> String {
        (self.program.expected)(&self.words, input)
    }

    fn differs(&self, input: &[u8]) -> io::Result<bool> {
        Ok(self.output(input)? != self.expected(input).into_bytes())
    }
}

/// The smallest input found that a program answers otherwise.
pub struct Difference<'a> {
    seed: u64,
    inputs: &'a Inputs,
    program: &'static str,
    words: Words,
    input: Vec<u8>,
    expected: String,
    found: Vec<u8>,
}

/// Compares the inputs of all seeds, and hands back the lowest seed's difference, shrunk.
pub fn compare<'a>(
    seeds: Range<u64>,
    inputs: &'a Inputs,
    programs: &[Program],
) -> io::Result<Option<Difference<'a>>> {
    let next = AtomicU64::new(seeds.start);
    let stop = AtomicBool::new(false);
    let search = || search(&next, seeds.end, &stop, inputs, programs);
    let found = thread::scope(|scope| {
        let count = thread::available_parallelism().map_or(1, NonZero::get);
        let workers: Vec<_> = (0..count).map(|_| scope.spawn(search)).collect();
        let join = |worker: thread::ScopedJoinHandle<_>| worker.join().expect("no worker panics");
        workers.into_iter().map(join).collect::<io::Result<Vec<_>>>()
    })?;
    let lowest = found.into_iter().flatten().min_by_key(|(seed, _)| *seed);
    lowest.map(|(seed, call)| difference(seed, inputs, call)).transpose()
}

/// Takes seeds until one differs. Seeds go out rising and each is finished, so that the
/// lowest that any worker finds is the lowest that there is.
fn search<'a>(
    next: &AtomicU64,
    end: u64,
    stop: &AtomicBool,
    inputs: &Inputs,
    programs: &'a [Program],
) -> io::Result<Option<(u64, Call<'a>)>> {
    while !stop.load(Ordering::Relaxed) {
        let seed = next.fetch_add(1, Ordering::Relaxed);
        if seed >= end {
            break;
        }
        let input = (inputs.generate)(seed);
        let calls = programs.iter().flat_map(|program| {
            let call = move |words| Call { program, words };
            (program.calls)(seed, &input).into_iter().map(call)
        });
        for call in calls {
            let differs = call.differs(&input);
            if !matches!(differs, Ok(false)) {
                stop.store(true, Ordering::Relaxed);
                return differs.map(|_| Some((seed, call)));
            }
        }
    }
    Ok(None)
}

/// So many smaller inputs are tried at most: a difference that only a very long one shows
/// isn't worth minutes.
const MAX_TRIES: usize = 5000;

fn difference<'a>(seed: u64, inputs: &'a Inputs, call: Call) -> io::Result<Difference<'a>> {
    let tries = Cell::new(0);
    let input = (inputs.shrink)((inputs.generate)(seed), &|input| {
        tries.set(tries.get() + 1);
        tries.get() <= MAX_TRIES && call.differs(input).unwrap_or(false)
    });
    let (expected, found) = (call.expected(&input), call.output(&input)?);
    let Call { program, words } = call;
    Ok(Difference { seed, inputs, program: program.name, words, input, expected, found })
}

impl fmt::Display for Difference<'_> {
    fn fmt(&self, out: &mut fmt::Formatter) -> fmt::Result {
        let Difference { seed, inputs, program, expected, .. } = self;
        write!(out, "seed {seed}: {program}")?;
        self.words.iter().try_for_each(|word| write!(out, " {word}"))?;
        writeln!(out, " differs, and the smallest such {} found is", inputs.name)?;
        match (inputs.show)(&self.input) {
            Some(lines) => write!(out, "\n{lines}")?,
            None => {
                let (count, bytes) = (self.input.len(), hexadecimal(&self.input));
                writeln!(out, "\n{count} bytes, not well formed: {bytes}")?;
            }
        }
        writeln!(out, "\nthe peer's {program}:\n{expected}")?;
        write!(out, "the {program} given:\n{}", String::from_utf8_lossy(&self.found))
    }
}

/// The bytes, or the first of them: the seed gives them all.
fn hexadecimal(bytes: &[u8]) -> String {
    const SHOWN: usize = 256;
    let shown = bytes.iter().take(SHOWN).map(|byte| format!("{byte:02x}"));
    let rest = (bytes.len() > SHOWN).then(|| "..".to_string());
    shown.chain(rest).collect::<Vec<_>>().join(" ")
}
