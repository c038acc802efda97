//! Walks as PROV-N.

use std::collections::BTreeSet;

use crate::common::{run, M, S};
use peer::compare::Words;
use peer::lineage::{chain, document, lineage, Link};
use peer::refusal::Refusal;
use peer::text;

/// S, received; then 1 sends to 0 with cause 0.
fn two() -> String {
    format!("{M}{S} receive 0 \n send 1 0 own 1 data 7 causes 0 \n")
}

fn bytes(text: &str) -> Vec<u8> {
    text::read(text).expect("the text is well formed").bytes()
}

/// What the program prints for its words, given as one line.
fn told(words: &str, book: &[u8]) -> String {
    let words: Words = words.split_whitespace().map(ToString::to_string).collect();
    lineage(&words, book)
}

#[test]
fn a_walk_is_written_line_by_line() {
    let expected = "\
document
prefix r <urn:runs:>
entity(r:i1)
entity(r:i0)
activity(r:a1,-,-)
activity(r:a0,-,-)
wasGeneratedBy(r:i1,r:a1,-)
used(r:a1,r:i0,-)
wasDerivedFrom(r:i1,r:i0)
wasGeneratedBy(r:i0,r:a0,-)
endDocument
";
    assert_eq!(told("1 drained", &bytes(&two())), expected);
}

#[test]
fn a_sender_is_declared_once_and_causes_alternate_rising() {
    let link = |key, sender, causes| Link { key, sender, causes };
    let chain = [link(3, 1, 0b101), link(0, 2, 0), link(2, 1, 0b1)];
    let expected = "\
document
prefix r <urn:runs:>
entity(r:i3)
entity(r:i0)
entity(r:i2)
activity(r:a1,-,-)
activity(r:a2,-,-)
wasGeneratedBy(r:i3,r:a1,-)
used(r:a1,r:i0,-)
wasDerivedFrom(r:i3,r:i0)
used(r:a1,r:i2,-)
wasDerivedFrom(r:i3,r:i2)
wasGeneratedBy(r:i0,r:a2,-)
wasGeneratedBy(r:i2,r:a1,-)
used(r:a1,r:i0,-)
wasDerivedFrom(r:i2,r:i0)
endDocument
";
    assert_eq!(document(&chain), expected);
}

#[test]
fn the_longest_text_has_6247_bytes() {
    // Every earlier interaction is a cause, and every actor sends.
    let link = |key: u8| Link { key, sender: key % 8, causes: (1 << key) - 1 };
    let keys = [15].into_iter().chain(0..15);
    assert_eq!(document(&keys.map(link).collect::<Vec<_>>()).len(), 6247);
}

#[test]
fn refusals_come_in_the_issues_order() {
    let book = bytes(&two());
    let down = bytes(&format!("{} crash 2", two()));
    let illegal = bytes(&M.replace("list 0 2", "list 0"));
    for (words, book, refusal) in [
        ("x drained", &[][..], 10),
        ("x drained", &illegal, 11),
        ("x drained", &down, 5),
        ("2", &down, 2),
        ("1", &down, 13),
        ("", &book, 2),
        ("2 drained", &book, 2),
        ("256 drained", &book, 2),
        ("01 drained", &book, 2),
        ("+1 drained", &book, 2),
        ("drained", &book, 2),
        ("1", &book, 13),
        ("1 drain", &book, 13),
        ("0 Drained", &book, 13),
    ] {
        assert_eq!(told(words, book), format!("refused {refusal}\n"), "{words}");
    }
    assert!(told("1 drained more", &book).starts_with("document\n"));
}

#[test]
fn no_store_is_restarted() {
    let book = bytes(&format!("{} crash 2", two()));
    assert_eq!(told("0 drained", &book), "refused 5\n");
    let (machine, _) = run(&two());
    assert_eq!(chain(&machine, 0), Err(Refusal::Open));
}

#[test]
fn chains_that_differ_have_different_texts() {
    let mut texts = BTreeSet::new();
    let mut count = 0;
    for (first, second) in [(1, 0), (2, 0), (2, 1), (11, 1), (1, 11)] {
        for causes in [0, 1 << second] {
            for senders in [(0, 0), (0, 1), (1, 0), (1, 1), (7, 1)] {
                let chain = [
                    Link { key: first, sender: senders.0, causes },
                    Link { key: second, sender: senders.1, causes: 0 },
                ];
                texts.insert(document(&chain));
                count += 1;
            }
        }
    }
    assert_eq!(texts.len(), count);
}
