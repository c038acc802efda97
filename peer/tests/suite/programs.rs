//! What the two programs print.

use crate::common::{M, S, SENDER_MOVES};
use peer::programs::{inspect, recorder, MAX_INPUT};
use peer::text;

/// The example book of docs/BOOK.md.
const EXAMPLE: [u8; 23] = [
    0x03, 0x02, 0x00, 0x05, 0x01, 0x06, 0x03, 0x00, 0x01, 0x00, 0x01, 0x00, 0x07, 0x00, 0x00, 0x00,
    0x00, 0x00, 0x02, 0x00, 0x05, 0x00, 0x02,
];

fn bytes(text: &str) -> Vec<u8> {
    text::read(text).expect("the text is well formed").bytes()
}

#[test]
fn the_example_book_is_listed_as_document_01_shows() {
    assert_eq!(recorder(&EXAMPLE), "3 2 1 3 2\n0 0 1 0 -\n0 1 1 1 -\n");
}

#[test]
fn the_example_book_is_inspected() {
    let expected = "run 0 3 2
answers 0 0 7
M 3 2 1 7
A 0 0 5 0.0
A 1 1 6 0.1
V 0 0 0 1 7 0 1 0 0 0
V 0 1 1 1 7 1 0 0 0 0
W 0 13
W 1 2
drain 0 12
M 3 2 1 7
A 0 0 5
A 1 1 6
V 0 0 0 5 7 0 1 0 0 0
S 0 0 0 0 7 0
L 0 0 0 1
CS 0 0 0 0 7 0
CL 0 0 0 1
V 0 1 1 5 7 1 0 0 0 0
S 1 0 1 1 7 0
L 1 0 1 0
CS 1 0 1 1 7 0
CL 1 0 1 0
W 0 0 1 1 0
W 1 2
";
    assert_eq!(inspect(&EXAMPLE), expected);
}

#[test]
fn everything_in_flight_is_inspected() {
    let book = bytes(&format!(
        "{M}{S}{SENDER_MOVES}
        crash 1"
    ));
    let expected = "run 0 10 10
answers 0 0 0 0 0 0 0 0 0 0
M 3 2 1 5
A 0 0 5
A 1 1 6
V 0 0 0 5 7 2 1 1 0 0
R 0 0 1 2
F 0 0 0 1 0 0 0
S 2 0 0 0 7 0
L 2 0 0 1
CS 2 0 0 0 7 0
CL 2 0 0 1
V 0 1 1 0
P 0 0 7
W 0 13
W 1 2
drain 5 0
restarted drain 0 12
";
    assert_eq!(inspect(&book)[..expected.len()], *expected);
    assert_eq!(recorder(&book), "3 2 1 10 10\n0 0 5 2 1\n0 1 0 - -\n");
}

#[test]
fn a_book_without_steps_has_bare_answers() {
    let book = bytes(M);
    assert_eq!(recorder(&book), "3 2 0 0 0\n");
    let machine = "M 3 2 0 7\nA 0 0 5\nA 1 1 6\nW 0 2\n";
    assert_eq!(inspect(&book), format!("run 0 0 0\nanswers\n{machine}drain 0 0\n{machine}"));
}

#[test]
fn refused_books_give_their_number_alone() {
    let illegal = bytes(&M.replace("list 0 2", "list 0"));
    assert_eq!(recorder(&illegal), "refused 11\n");
    assert_eq!(inspect(&illegal), "run 11 0 0\n");
    let mut long = EXAMPLE.to_vec();
    long.resize(MAX_INPUT + 1, 0);
    for malformed in [&[], &EXAMPLE[..22], &long[..MAX_INPUT], &long] {
        assert_eq!(recorder(malformed), "refused 10\n");
        assert_eq!(inspect(malformed), "run 10 0 0\n");
    }
}

#[test]
fn what_isnt_checkpointed_is_inspected_and_not_listed() {
    let taken = format!(
        "{M}{S}
        receive 0
        pre-check 0
        send-record 0
        timeout 0 store 0
        send-record 0
        take-record store 0 key 0 role 0
        "
    );
    let (held, kept) = ("S 0 0 0 0 7 0\nL 0 0 0 1\n", "CS 0 0 0 0 7 0\nCL 0 0 0 1\n");
    let after = |steps: &str| bytes(&format!("{taken}{steps}"));
    let shows = |steps: &str, lines: &str, listed: &str| {
        let (inspection, listing) = (inspect(&after(steps)), recorder(&after(steps)));
        assert!(inspection.contains(&format!("\nV 0 0 0 3 7 0 1 0 1 0\n{lines}V 0 1")), "{steps}");
        assert!(listing.ends_with(&format!("\n0 0 3 0 {listed}\n0 1 1 1 -\n")), "{steps}");
    };
    shows("", &format!("{held}N 0 0 0 1 0\nF 0 0 0 1 0 0 0\n"), "-");
    shows("checkpoint 0", &format!("{held}{kept}F 0 0 0 1 1 0 0\n"), "1");
    shows("crash 0", "F 0 0 0 1 0 0 0\n", "-");
    shows("checkpoint 0 \n crash 0", &format!("{held}{kept}F 0 0 0 1 1 0 0\n"), "1");
    let second = "take-record store 0 key 0 role 0 \n";
    shows(second, &format!("{held}N 0 0 0 1 0\n"), "-");
    shows(&format!("{second} checkpoint 0"), &format!("{held}{kept}F 0 0 0 0 1 0 0\n"), "1");
}

#[test]
fn an_unreceived_view_shows_no_link_even_where_a_store_has_one() {
    let book = bytes(&format!(
        "{M}{S}{SENDER_MOVES}
        take-repair key 0 role 0
        send-update key 0 role 0
        take-update store 1 key 0 role 0
        checkpoint 1"
    ));
    assert!(inspect(&book).contains("V 0 1 1 0\nP 0 0 7\nL 1 0 1 2\nCL 1 0 1 2\n"));
    assert!(recorder(&book).ends_with("\n0 1 0 - -\n"));
}
