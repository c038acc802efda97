//! The command line: the recorder's programs, the text form, the generator, the comparison.

use std::env;
use std::error::Error;
use std::fs::File;
use std::io::{self, Read, Write};
use std::ops::Range;
use std::path::Path;
use std::process::ExitCode;

use peer::book::Book;
use peer::check::{check, Programs};
use peer::compare::{compare, Inputs, Program, BOOKS, MESSAGE_FILES, PAIR_BOOKS};
use peer::coverage::Coverage;
use peer::explain::explain;
use peer::generate::{generate, generate_pairs};
use peer::lineage::lineage;
use peer::pair::pair;
use peer::pair_coverage::PairCoverage;
use peer::prep;
use peer::programs::{self, MAX_INPUT};
use peer::text;

const USAGE: &str = "usage:
  peer recorder                               a book on standard input, its listing out
  peer inspect                                a book on standard input, everything out
  peer book [FILE]                            a text in, its book out
  peer text [FILE]                            a book in, its text out
  peer explain [FILE]                         a book in, each step's answer and why out
  peer check FOLDER [RECORDER INSPECT]        the cases of a folder, through two programs too
  peer generate SEED                          the book of a seed out
  peer coverage FROM COUNT                    what the books of some seeds cover
  peer compare FROM COUNT RECORDER INSPECT    the books of some seeds through two programs
  peer lineage KEY [drained]                  a book on standard input, a walk as PROV-N out
  peer compare-lineage FROM COUNT LINEAGE     the books of some seeds through a program
  peer pair RULE KEY [drained]                a book on standard input, the pair rule's word out
  peer generate-pair SEED                     the book of a seed that is about pairs out
  peer coverage-pair FROM COUNT               what these books and their calls cover
  peer compare-pair FROM COUNT PAIR           these books through a program
  peer prep                                   messages on standard input, answers and tables out
  peer generate-prep SEED                     the message file of a seed out
  peer coverage-prep FROM COUNT               what the message files of some seeds cover
  peer compare-prep FROM COUNT PREP           the message files of some seeds through a program";

type Outcome = Result<ExitCode, Box<dyn Error>>;

fn main() -> ExitCode {
    let arguments: Vec<String> = env::args().skip(1).collect();
    let arguments: Vec<&str> = arguments.iter().map(String::as_str).collect();
    run(&arguments).unwrap_or_else(|error| {
        eprintln!("peer: {error}");
        ExitCode::from(2)
    })
}

fn run(arguments: &[&str]) -> Outcome {
    match *arguments {
        ["recorder"] => print(programs::recorder(&program_input()?).as_bytes()),
        ["inspect"] => print(programs::inspect(&program_input()?).as_bytes()),
        ["book", ref file @ ..] if file.len() <= 1 => text_to_book(file.first().copied()),
        ["text", ref file @ ..] if file.len() <= 1 => book_to_text(file.first().copied()),
        ["explain", ref file @ ..] if file.len() <= 1 => {
            print(explain(&read(file.first().copied())?).as_bytes())
        }
        ["check", folder] => check_folder(folder, None),
        ["check", folder, recorder, inspect] => {
            check_folder(folder, Some(Programs::new(recorder.into(), inspect.into())))
        }
        ["generate", seed] => print(&generate(number(seed)?)),
        ["coverage", from, count] => {
            print(Coverage::of_seeds(seeds(from, count)?).to_string().as_bytes())
        }
        ["compare", from, count, recorder, inspect] => {
            let programs = [Program::recorder(recorder.into()), Program::inspect(inspect.into())];
            compare_seeds(seeds(from, count)?, &BOOKS, &programs)
        }
        ["lineage", ref words @ ..] => print(lineage(&owned(words), &program_input()?).as_bytes()),
        ["compare-lineage", from, count, program] => {
            compare_seeds(seeds(from, count)?, &BOOKS, &[Program::lineage(program.into())])
        }
        ["pair", ref words @ ..] => print(pair(&owned(words), &program_input()?).as_bytes()),
        ["generate-pair", seed] => print(&generate_pairs(number(seed)?)),
        ["coverage-pair", from, count] => {
            print(PairCoverage::of_seeds(seeds(from, count)?).to_string().as_bytes())
        }
        ["compare-pair", from, count, program] => {
            compare_seeds(seeds(from, count)?, &PAIR_BOOKS, &[Program::pair(program.into())])
        }
        ["prep"] => print(prep::program::prep(&program_input()?).as_bytes()),
        ["generate-prep", seed] => print(&prep::generate::generate(number(seed)?)),
        ["coverage-prep", from, count] => {
            let coverage = prep::coverage::Coverage::of_seeds(seeds(from, count)?);
            print(coverage.to_string().as_bytes())
        }
        ["compare-prep", from, count, program] => {
            compare_seeds(seeds(from, count)?, &MESSAGE_FILES, &[Program::prep(program.into())])
        }
        _ => Err(USAGE.into()),
    }
}

fn owned(words: &[&str]) -> Vec<String> {
    words.iter().map(ToString::to_string).collect()
}

fn print(bytes: &[u8]) -> Outcome {
    io::stdout().write_all(bytes)?;
    Ok(ExitCode::SUCCESS)
}

/// Standard input, or as much of it as shows that it is too long.
fn program_input() -> io::Result<Vec<u8>> {
    let mut input = Vec::new();
    io::stdin().take(MAX_INPUT as u64 + 1).read_to_end(&mut input)?;
    Ok(input)
}

fn text_to_book(file: Option<&str>) -> Outcome {
    let text = String::from_utf8(read(file)?).map_err(|_| "the text isn't UTF-8")?;
    let book = text::read(&text).map_err(|error| error.to_string())?;
    print(&book.bytes())
}

fn book_to_text(file: Option<&str>) -> Outcome {
    let book = Book::read(&read(file)?);
    let book = book.map_err(|malformed| format!("refused 10: {malformed}"))?;
    print(text::write(&book).as_bytes())
}

/// The bytes of the file, or of standard input where none is named.
fn read(file: Option<&str>) -> Result<Vec<u8>, String> {
    let mut bytes = Vec::new();
    let result = match file {
        Some(path) => File::open(path).and_then(|mut file| file.read_to_end(&mut bytes)),
        None => io::stdin().read_to_end(&mut bytes),
    };
    result.map_err(|error| format!("{}: {error}", file.unwrap_or("standard input")))?;
    Ok(bytes)
}

fn check_folder(folder: &str, programs: Option<Programs>) -> Outcome {
    let report = check(Path::new(folder), programs.as_ref())?;
    print(report.to_string().as_bytes())?;
    Ok(if report.has_differences() { ExitCode::FAILURE } else { ExitCode::SUCCESS })
}

fn compare_seeds(seeds: Range<u64>, inputs: &Inputs, programs: &[Program]) -> Outcome {
    if let Some(difference) = compare(seeds.clone(), inputs, programs)? {
        print(difference.to_string().as_bytes())?;
        return Ok(ExitCode::FAILURE);
    }
    let Range { start, end } = seeds;
    let (count, name) = (end - start, inputs.name);
    print(format!("{count} {name}s from seed {start}: no difference\n").as_bytes())
}

fn seeds(from: &str, count: &str) -> Result<Range<u64>, String> {
    let from = number(from)?;
    let end = from.checked_add(number(count)?).ok_or("the last seed is too large")?;
    Ok(from..end)
}

fn number(word: &str) -> Result<u64, String> {
    word.parse().map_err(|_| format!("`{word}` isn't a number"))
}
