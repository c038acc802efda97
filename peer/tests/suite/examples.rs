//! The examples: each text's book, listing and inspection are kept beside it.

use std::fs;
use std::path::{Path, PathBuf};

use peer::book::Book;
use peer::lineage::lineage;
use peer::machine::What;
use peer::pair::pair;
use peer::programs::{inspect, recorder};
use peer::step::Step;
use peer::text;

const EXAMPLES: [&str; 9] = [
    "crash-and-restart",
    "lost-acknowledgement",
    "lost-before-checkpoint",
    "lost-record",
    "repeating-broker",
    "right-pair",
    "rollback",
    "slow-answer",
    "wrong-pair",
];

fn folder() -> PathBuf {
    Path::new(env!("CARGO_MANIFEST_DIR")).join("../examples")
}

fn kept(name: &str, extension: &str) -> Vec<u8> {
    let path = folder().join(name).with_extension(extension);
    fs::read(&path).unwrap_or_else(|error| panic!("{}: {error}", path.display()))
}

#[test]
fn what_is_kept_is_what_the_peer_makes_of_the_text() {
    for name in EXAMPLES {
        let text = String::from_utf8(kept(name, "txt")).expect("the text is UTF-8");
        let book = text::read(&text).unwrap_or_else(|error| panic!("{name}: {error}")).bytes();
        assert_eq!(kept(name, "book"), book, "{name}");
        assert_eq!(kept(name, "listing"), recorder(&book).into_bytes(), "{name}");
        assert_eq!(kept(name, "inspect"), inspect(&book).into_bytes(), "{name}");
    }
}

#[test]
fn every_text_tells_its_story_first_and_is_checked() {
    let entries = fs::read_dir(folder()).expect("there are examples");
    let paths = entries.map(|entry| entry.expect("the folder can be read").path());
    for path in paths.filter(|path| path.extension().is_some_and(|extension| extension == "txt")) {
        let name = path.file_stem().and_then(|name| name.to_str()).expect("a name in UTF-8");
        assert!(EXAMPLES.contains(&name), "{name}");
        assert!(kept(name, "txt").starts_with(b"# "), "{name}");
    }
}

#[test]
fn the_rollback_finds_the_pair_after_the_drain() {
    let inspection = String::from_utf8(kept("rollback", "inspect")).expect("lines of text");
    let (before, after) = inspection.split_once("drain 0 ").expect("a drain that is taken");
    assert!(before.contains("\nW 2 13\n"));
    assert!(after.contains("\nW 2 0 3 5 2 0 1\n"));
}

#[test]
fn the_slow_answer_keeps_the_job_at_its_store_without_a_repair() {
    let inspection = String::from_utf8(kept("slow-answer", "inspect")).expect("lines of text");
    let (store, changed, tries) = (0, 0, 2);
    assert!(inspection.contains(&format!("\nV 0 0 0 5 7 {store} 1 {changed} {tries} 0\n")));
    assert!(!inspection.lines().any(|line| line.starts_with("R ") || line.starts_with("E ")));
    assert!(inspection.contains("\ndrain 0 0\n"));
}

#[test]
fn what_is_lost_before_the_checkpoint_was_never_acknowledged() {
    let inspection =
        String::from_utf8(kept("lost-before-checkpoint", "inspect")).expect("lines of text");
    assert!(!inspection.contains("S 0 0 0 "), "store 0 has nothing of the sender's view");
    assert!(inspection.contains("\nCS 2 0 0 0 7 0\nCL 2 0 0 1\n"));
    assert!(inspection.contains("\nCS 1 0 1 1 7 0\nCL 1 0 1 2\n"));
    assert!(inspection.contains("\ndrain 0 0\n"));
}

/// A listing without its line of counts.
fn view_lines(listing: &str) -> Vec<&str> {
    listing.lines().skip(1).collect()
}

/// What `inspect` prints of the views, before and after the drain.
fn inspected_views(inspection: &str) -> Vec<&str> {
    let shows_view = |line: &&str| line.starts_with("V ") || line.starts_with('C');
    inspection.lines().filter(shows_view).collect()
}

#[test]
fn a_broker_that_repeats_everything_makes_no_difference_to_the_listing() {
    let repeating = Book::read(&kept("repeating-broker", "book")).expect("a book");
    let mut plain = repeating.clone();
    let mut repeated = [0; What::ALL.len()];
    plain.steps.retain(|step| match *step {
        Step::Duplicate { what, .. } => {
            repeated[usize::from(what)] += 1;
            false
        }
        _ => true,
    });
    assert_eq!(repeated, [3, 5, 1, 2]);
    let (repeating, plain) = (repeating.bytes(), plain.bytes());
    assert_eq!(view_lines(&recorder(&repeating)), view_lines(&recorder(&plain)));
    let (repeating, plain) = (inspect(&repeating), inspect(&plain));
    assert_eq!(inspected_views(&repeating), inspected_views(&plain));
    assert!(repeating.contains("\ndrain 0 0\n"));
    assert!(!repeating.contains("\nF "), "every copy was delivered");
}

#[test]
fn the_rollbacks_forecast_is_kept_as_prov_n() {
    let book = kept("rollback", "book");
    let words = ["2", "drained"].map(String::from);
    assert_eq!(kept("rollback", "provn"), lineage(&words, &book).into_bytes());
}

#[test]
fn the_wrong_pair_is_told_from_the_right_one() {
    for name in ["wrong-pair", "right-pair"] {
        let calls = String::from_utf8(kept(name, "pair")).expect("lines of text");
        for line in calls.lines() {
            let (words, says) = line.split_once(": ").expect("words and what is printed");
            let words: Vec<String> = words.split(' ').map(String::from).collect();
            assert_eq!(pair(&words, &kept(name, "book")), format!("{says}\n"), "{name}: {words:?}");
        }
    }
}
