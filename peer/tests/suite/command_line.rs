//! The program `peer` as a user runs it.

use std::fs::{self, Permissions};
use std::io::Write;
use std::os::unix::fs::PermissionsExt;
use std::path::{Path, PathBuf};
use std::process::{Command, Output, Stdio};
use std::sync::atomic::{AtomicUsize, Ordering};

use peer::generate::generate;
use peer::prep;

const PEER: &str = env!("CARGO_BIN_EXE_peer");

fn peer(arguments: &[&str], input: &[u8]) -> Output {
    let mut command = Command::new(PEER);
    command.args(arguments).stdin(Stdio::piped()).stdout(Stdio::piped()).stderr(Stdio::piped());
    let mut child = command.spawn().expect("the program starts");
    // It may refuse its input unread.
    let _ = child.stdin.take().expect("standard input is piped").write_all(input);
    child.wait_with_output().expect("the program ends")
}

fn text(bytes: &[u8]) -> &str {
    std::str::from_utf8(bytes).expect("what is printed is text")
}

/// A program that does what one subcommand does, at a path of its own: tests run side by side.
fn stand_in(subcommand: &str) -> PathBuf {
    static MADE: AtomicUsize = AtomicUsize::new(0);
    let name = format!("{subcommand}-{}", MADE.fetch_add(1, Ordering::Relaxed));
    let path = Path::new(env!("CARGO_TARGET_TMPDIR")).join(name);
    fs::write(&path, format!("#!/bin/sh\nexec '{PEER}' {subcommand} \"$@\"\n"))
        .expect("it is written");
    fs::set_permissions(&path, Permissions::from_mode(0o755)).expect("it is made to run");
    path
}

#[test]
fn texts_and_books_convert_both_ways() {
    let lines = "stores 3\nactor home 0 list 0 2\nactor home 1 list 1 2\ncrash 2\n";
    let book = peer(&["book"], lines.as_bytes());
    assert_eq!(book.stdout, [3, 2, 0, 5, 1, 6, 1, 0, 15, 2]);
    assert_eq!(text(&peer(&["text"], &book.stdout).stdout), lines);
    assert_eq!(text(&peer(&["recorder"], &book.stdout).stdout), "3 2 0 1 1\n");
    assert!(text(&peer(&["inspect"], &book.stdout).stdout).starts_with("run 0 1 1\n"));
}

#[test]
fn mistakes_are_told_with_exit_code_2() {
    for (arguments, input, message) in [
        (&["book"][..], "stores x", "peer: line 1: STORES is a number"),
        (&["text"], "", "peer: refused 10"),
        (&["text", "no such file"], "", "peer: no such file: "),
        (&["generate", "x"], "", "peer: `x` isn't a number"),
        (&["compare", "0", "1", "./none", "./none"], "", "peer: ./none: "),
        (&["check", "no such folder"], "", "peer: no such folder: "),
        (&["coverage", "1"], "", "peer: usage:"),
        (&[], "", "peer: usage:"),
    ] {
        let output = peer(arguments, input.as_bytes());
        assert_eq!(output.status.code(), Some(2), "{arguments:?}");
        assert!(text(&output.stderr).starts_with(message), "{arguments:?}");
        assert!(output.stdout.is_empty(), "{arguments:?}");
    }
}

#[test]
fn an_input_too_long_is_refused() {
    let output = peer(&["recorder"], &[0; 1 << 20]);
    assert_eq!(text(&output.stdout), "refused 10\n");
}

#[test]
fn a_seeds_book_is_written_out() {
    assert_eq!(peer(&["generate", "7"], &[]).stdout, generate(7));
}

#[test]
fn a_comparison_without_a_difference_says_so() {
    let (recorder, inspect) = (stand_in("recorder"), stand_in("inspect"));
    let programs = [recorder, inspect].map(|path| path.display().to_string());
    let output = peer(&["compare", "20", "40", &programs[0], &programs[1]], &[]);
    assert_eq!(text(&output.stdout), "40 books from seed 20: no difference\n");
    assert_eq!(output.status.code(), Some(0));
}

#[test]
fn lineages_are_compared_with_their_words() {
    let program = stand_in("lineage").display().to_string();
    let output = peer(&["compare-lineage", "0", "40", &program], &[]);
    assert_eq!(text(&output.stdout), "40 books from seed 0: no difference\n");
    // One that never drains is wrong where a drain is asked for.
    let undrained = stand_in("lineage \"$1\" #").display().to_string();
    let output = peer(&["compare-lineage", "0", "40", &undrained], &[]);
    let told = text(&output.stdout);
    assert!(told.contains(": lineage ") && told.contains(" drained differs"), "{told}");
    assert_eq!(output.status.code(), Some(1));
}

#[test]
fn pair_checks_are_compared_with_their_words() {
    let program = stand_in("pair").display().to_string();
    let output = peer(&["compare-pair", "0", "40", &program], &[]);
    assert_eq!(text(&output.stdout), "40 books from seed 0: no difference\n");
    // One that knows rule one alone.
    let lax = stand_in("pair 1 \"$2\" \"$3\" #").display().to_string();
    let output = peer(&["compare-pair", "0", "100", &lax], &[]);
    assert!(text(&output.stdout).contains(" differs, and the smallest such book found is"));
    assert_eq!(output.status.code(), Some(1));
}

#[test]
fn message_files_are_compared_too() {
    let program = stand_in("prep").display().to_string();
    let output = peer(&["compare-prep", "0", "60", &program], &[]);
    assert_eq!(text(&output.stdout), "60 message files from seed 0: no difference\n");
    assert_eq!(peer(&["generate-prep", "7"], &[]).stdout, prep::generate::generate(7));
    let output = peer(&["compare-prep", "0", "1", "cat"], &[]);
    let expected = "seed 0: prep differs, and the smallest such message file found is\n\n\n\
                    the peer's prep:\n\nthe prep given:\n\0\0";
    assert_eq!(text(&output.stdout), expected);
    assert_eq!(output.status.code(), Some(1));
}

#[test]
fn a_folder_is_checked_with_the_programs_given() {
    let examples = concat!(env!("CARGO_MANIFEST_DIR"), "/../examples");
    let (recorder, inspect) = (stand_in("recorder"), stand_in("inspect"));
    let programs = [recorder, inspect].map(|path| path.display().to_string());
    let output = peer(&["check", examples, &programs[0], &programs[1]], &[]);
    assert!(text(&output.stdout).ends_with(": no difference\n"));
    assert_eq!(output.status.code(), Some(0));
    let output = peer(&["check", examples, "cat", "cat"], &[]);
    assert!(text(&output.stdout).contains(".inspect: the program has it otherwise"));
    assert_eq!(output.status.code(), Some(1));
}

#[test]
fn a_book_is_explained() {
    let output = peer(&["explain"], &[3, 2, 0, 5, 1, 6, 1, 0, 16, 2]);
    assert!(text(&output.stdout).contains("\n0: restart 2: refused 6: store 2 is up\n"));
    assert_eq!(output.status.code(), Some(0));
}

#[test]
fn a_comparison_shrinks_the_book_that_differs() {
    // A recorder that prints its book instead of the listing is wrong for every book.
    let output = peer(&["compare", "0", "40", "cat", "cat"], &[]);
    let expected = "seed 0: recorder differs, and the smallest such book found is\n\nstores 0\n\n\
                    the peer's recorder:\nrefused 11\n\nthe recorder given:\n\0\0\0\0";
    assert_eq!(text(&output.stdout), expected);
    assert_eq!(output.status.code(), Some(1));
}
