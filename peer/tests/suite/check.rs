//! Folders of cases.

use std::fs;
use std::path::{Path, PathBuf};

use crate::common::{M, S};
use peer::check::check;

/// A folder with these files in it and nothing else.
fn folder(name: &str, files: &[(&str, &[u8])]) -> PathBuf {
    let path = Path::new(env!("CARGO_TARGET_TMPDIR")).join(name);
    // Where an earlier run left it.
    let _ = fs::remove_dir_all(&path);
    fs::create_dir(&path).expect("the folder is made");
    for (file, contents) in files {
        fs::write(path.join(file), contents).expect("the file is written");
    }
    path
}

fn told(name: &str, files: &[(&str, &[u8])]) -> String {
    check(&folder(name, files), None).expect("the folder is read").to_string()
}

fn text() -> String {
    format!("{M}{S} receive 0 \n timeout 0 store 2")
}

#[test]
fn the_examples_are_cases() {
    let examples = Path::new(env!("CARGO_MANIFEST_DIR")).join("../examples");
    let report = check(&examples, None).expect("the folder is read");
    assert!(!report.has_differences(), "{report}");
}

#[test]
fn a_case_as_expected() {
    let listing = b"3 2 1 3 2\n0 0 1 0 -\n0 1 1 1 -\n";
    let files = [
        ("one.txt", text().into_bytes()),
        ("one.answers", b"0 0 7\n".to_vec()),
        ("one.listing", listing.to_vec()),
        ("two.book", vec![3]),
        ("two.answers", b"\n".to_vec()),
        ("two.inspect", b"run 10 0 0\n".to_vec()),
        ("notes.md", b"not a case".to_vec()),
    ];
    let files = files.each_ref().map(|(name, bytes)| (*name, bytes.as_slice()));
    assert_eq!(told("as-expected", &files), "2 cases, 4 comparisons: no difference\n");
}

#[test]
fn what_differs_is_named_with_its_first_line() {
    let text = text();
    let files: [(&str, &[u8]); 5] = [
        ("one.txt", text.as_bytes()),
        ("one.book", &[3]),
        ("one.answers", b"0 0 8\n"),
        ("one.listing", b"3 2 1 3 2\n0 0 1 0 -\n"),
        ("two.book", &[3]),
    ];
    let expected = "\
one.book: the text has it otherwise, first in line 1: expected `\u{3}`, found `";
    let told = told("differs", &files);
    assert!(told.starts_with(expected), "{told}");
    for line in [
        "one.answers: the peer has it otherwise, first in line 1: expected `0 0 8`, found `0 0 7`",
        "one.listing: the peer has it otherwise, first in line 3: expected `the end`, \
         found `0 1 1 1 -`",
        "two: nothing is expected of it",
        "2 cases, 3 comparisons: 4 differences",
    ] {
        assert!(told.lines().any(|found| found == line), "{line}\n\n{told}");
    }
}

#[test]
fn a_case_that_cant_be_read_is_told() {
    let files: [(&str, &[u8]); 3] =
        [("one.txt", b"stores x\n"), ("one.answers", b"\n"), ("two.listing", b"refused 10\n")];
    let told = told("unread", &files);
    assert!(told.starts_with("one.txt: line 1: STORES is a number"), "{told}");
    assert!(told.contains("\ntwo: there is neither a text nor a book of it\n"), "{told}");
    assert!(told.ends_with("\n0 cases, 0 comparisons: 2 differences\n"), "{told}");
}

#[test]
fn a_folder_without_cases_is_a_mistake() {
    assert!(check(&folder("empty", &[]), None).is_err());
    assert!(check(Path::new("no such folder"), None).is_err());
}
