//! The programs from start to end: their time, their peak resident size, their stack.

use std::fs::File;
use std::path::{Path, PathBuf};
use std::process::{Command, Stdio};

use crate::rows::{Row, Side};

/// A program that reads a book from standard input, with its arguments.
#[derive(Clone)]
pub struct Program(pub Vec<String>);

impl Program {
    pub fn words(&self) -> Vec<&str> {
        self.0.iter().map(String::as_str).collect()
    }

    /// What it prints for a book.
    fn output(&self, book: &Path) -> Vec<u8> {
        let output = command(&self.words(), book).output();
        output.expect("the program is there").stdout
    }

    fn run(&self, book: &Path) -> bool {
        let done = command(&self.words(), book).stdout(Stdio::null()).status();
        done.is_ok_and(|status| status.success())
    }

    /// Kilobytes, at the highest, where `/usr/bin/time` is there to tell.
    pub fn resident(&self, book: &Path) -> Option<u32> {
        let words = [vec!["/usr/bin/time", "-f", "%M"], self.words()].concat();
        let output = command(&words, book).output().ok()?;
        String::from_utf8(output.stderr).ok()?.trim().parse().ok()
    }

    /// The least stack, in kilobytes, with which it prints for a book what it prints with plenty.
    pub fn stack(&self, book: &Path) -> u32 {
        let expected = self.output(book);
        let suffices = |limit: u32| {
            let limited = format!("ulimit -S -s {limit} && exec \"$@\"");
            let words = [vec!["sh", "-c", &limited, "sh"], self.words()].concat();
            let output = command(&words, book).stderr(Stdio::null()).output();
            output.is_ok_and(|output| output.status.success() && output.stdout == expected)
        };
        let (mut less, mut enough) = (0, 8192);
        while enough - less > 1 {
            let middle = (less + enough) / 2;
            *if suffices(middle) { &mut enough } else { &mut less } = middle;
        }
        enough
    }
}

/// # Panics
/// If the programs don't print alike.
pub fn row(ours: &Program, peer: &Program, book: &Path) -> Row {
    assert!(ours.output(book) == peer.output(book), "the programs print alike");
    Row {
        name: "the program, from start to end, on the first of these books".into(),
        aim: None,
        ours: side(ours, book),
        peer: side(peer, book),
    }
}

fn side(program: &Program, book: &Path) -> Side {
    let (program, book): (Program, PathBuf) = (program.clone(), book.into());
    Side::plain(move || program.run(&book))
}

fn command(words: &[&str], book: &Path) -> Command {
    let mut command = Command::new(words[0]);
    command.args(&words[1..]).stdin(File::open(book).expect("the book is written"));
    command
}
