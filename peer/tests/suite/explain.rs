//! A run told in words.

use crate::common::{M, S, SENDER_MOVES};
use peer::book::{Book, MAX_STEPS};
use peer::explain::{explain, illegal};
use peer::generate::generate;
use peer::machine::{setup_is_legal, ActorSetup};
use peer::programs::MAX_INPUT;
use peer::text;

fn bytes(text: &str) -> Vec<u8> {
    text::read(text).unwrap_or_else(|error| panic!("{error}")).bytes()
}

/// What is told of a book's last step, behind the step itself.
fn told_last(text: &str) -> String {
    let told = explain(&bytes(text));
    let last = told.lines().rev().nth(1).expect("the book has a step");
    let (_, told) = last.rsplit_once(": taken").or(last.split_once(": refused ")).expect("answer");
    told.to_string()
}

#[test]
fn a_run_is_told_line_by_line() {
    let expected = "\
stores 3
actor home 0 list 0 2
actor home 1 list 1 2
0: send 0 1 own 0 data 7 causes -: taken
1: timeout 0 store 2: refused 7: the head of actor 0's queue, key 0 role 0, is in phase 1 (queued) \
and not in phase 3 (sent)
2: crash 1: taken
3: crash 1: refused 5: store 1 is down
2 of 4 steps taken
";
    let book = bytes(&format!("{M}{S} timeout 0 store 2 \n crash 1 \n crash 1"));
    assert_eq!(explain(&book), expected);
}

#[test]
fn a_field_outside_the_machine_is_named() {
    for (step, told) in [
        ("send 2 0 own 0 data 7 causes -", "2: there is no actor 2, only actors 0 to 1"),
        ("send 0 1 own 3 data 7 causes -", "2: there is no store 3, only stores 0 to 2"),
        ("receive 1", "2: there is no interaction 1, only interaction 0"),
        ("take-repair key 0 role 2", "2: there is no role 2, only roles 0 to 1"),
        ("lose 4 store 0 key 0 role 0", "2: there is no message 4, only messages 0 to 3"),
    ] {
        assert_eq!(told_last(&format!("{M}{S}{step}")), told);
    }
    assert_eq!(
        told_last(&format!("{M}receive 0")),
        "2: there is no interaction 0, no interaction is made"
    );
}

#[test]
fn what_a_send_lacks_is_named() {
    for (step, told) in [
        ("send 0 0 own 0 data 7 causes -", "3: an actor doesn't send to itself"),
        ("send 0 1 own 1 data 7 causes -", "8: store 1 isn't in actor 0's list, which is 0 2"),
        ("send 1 0 own 1 data 7 causes 5", "9: cause 5 isn't made"),
        ("send 1 0 own 1 data 7 causes 0", "9: actor 1 hasn't received cause 0 yet"),
        ("send 0 1 own 0 data 7 causes 0", "9: cause 0 went to actor 1 and not to actor 0"),
    ] {
        assert_eq!(told_last(&format!("{M}{S}{step}")), told);
    }
    let full = format!("{M}{}", S.repeat(17));
    assert_eq!(told_last(&full), "4: sixteen interactions are made already");
}

#[test]
fn the_phase_that_is_there_is_named() {
    let not_sent = "7: the head of actor 0's queue, key 0 role 0, is in phase 2 (ready) and not \
                    in phase 3 (sent)";
    assert_eq!(told_last(&format!("{M}{S} pre-check 0 \n timeout 0 store 2")), not_sent);
    assert_eq!(told_last(&format!("{M} post-check 1")), "7: no view waits in actor 1's queue");
    let sent = format!("{M}{S} pre-check 0 \n send-record 0 \n");
    let tried_out = format!("{sent}{}", "timeout 0 store 0 \n send-record 0 \n".repeat(3));
    assert_eq!(
        told_last(&format!("{tried_out} timeout 0 store 0")),
        "8: key 0 role 0 has tried its current store 0 again 3 times, and has to leave it"
    );
    assert_eq!(
        told_last(&format!("{sent} timeout 0 store 1")),
        "8: store 1 isn't in actor 0's list, which is 0 2"
    );
    assert_eq!(
        told_last(&format!("{M}{S} receive 0 \n receive 0")),
        "7: actor 1 has received interaction 0 already"
    );
}

#[test]
fn the_copy_or_entry_that_isnt_there_is_named() {
    for (step, told) in [
        (
            "take-record store 0 key 0 role 1",
            "7: no record of key 0 role 1 is in flight to store 0",
        ),
        ("take-ack store 2 key 0 role 0", "7: no ack of key 0 role 0 is in flight from store 2"),
        (
            "take-update store 1 key 0 role 0",
            "7: no update of key 0 role 0 is in flight to store 1",
        ),
        ("take-uack store 1 key 0 role 0", "7: no uack of key 0 role 0 is in flight from store 1"),
        ("lose ack store 1 key 0 role 0", "7: no ack of key 0 role 0 is in flight from store 1"),
        (
            "duplicate record store 2 key 0 role 0",
            "7: no record of key 0 role 0 is in flight to store 2",
        ),
        ("take-repair key 0 role 1", "7: no repair of key 0 role 1 is in flight"),
        ("send-update key 0 role 1", "7: the coordinator has no entry for key 0 role 1"),
        (
            "coordinator-timeout key 0 role 0",
            "7: the coordinator's entry for key 0 role 0 is to-send and not waiting",
        ),
        ("restart 0", "6: store 0 is up"),
        ("checkpoint 3", "2: there is no store 3, only stores 0 to 2"),
    ] {
        let book = format!("{M}{S}{SENDER_MOVES}take-repair key 0 role 0\n{step}");
        assert_eq!(told_last(&book), told);
    }
    for step in ["take-record store 1 key 0 role 0", "checkpoint 1"] {
        let down = format!("{M}{S} crash 1 \n {step}");
        assert_eq!(told_last(&down), "5: store 1 is down");
    }
}

#[test]
fn a_malformed_book_says_where_reading_stops() {
    for (book, told) in [
        (&[][..], "byte 0: the book ends within the count of stores"),
        (&[3], "byte 1: the book ends within the count of actors"),
        (&[3, 2, 0, 5, 1], "byte 5: the book ends within actor 1"),
        (&[3, 0, 1], "byte 3: the book ends within the count of steps"),
        (&[3, 0, 1, 16], "byte 2: 4097 steps are more than 4096"),
        (&[3, 0, 1, 0], "byte 4: the book ends within step 0"),
        (&[3, 0, 1, 0, 200], "byte 4: step 0 has kind 200, and there is none"),
        (&[3, 0, 2, 0, 15, 1, 5, 0], "byte 8: the book ends within step 1, a timeout"),
        (&[3, 0, 0, 0, 7, 7], "byte 4: the last step ends before it, and 2 more follow"),
    ] {
        assert_eq!(explain(book), format!("refused 10: reading stops at {told}\n"));
    }
    let long = vec![0; MAX_INPUT + 1];
    assert_eq!(explain(&long), "refused 10: 65537 bytes are more than 65536\n");
    assert_eq!(MAX_STEPS, 4096);
}

#[test]
fn an_illegal_setup_names_its_row() {
    let good = ActorSetup { home: 0, list: 3 };
    let told = |stores, home, list| {
        let book = Book { stores, actors: vec![good, ActorSetup { home, list }], steps: vec![] };
        explain(&book.bytes())
    };
    assert_eq!(told(1, 0, 3), "refused 11: a setup has 2 to 8 stores, not 1\n");
    assert_eq!(told(3, 3, 6), "refused 11: actor 1: its home 3 is none of the 3 stores\n");
    assert_eq!(
        told(3, 1, 10),
        "refused 11: actor 1: its list names 3, which is none of the 3 stores\n"
    );
    assert_eq!(told(3, 0, 6), "refused 11: actor 1: its home 0 isn't in its list, which is 1 2\n");
    assert_eq!(told(3, 1, 2), "refused 11: actor 1: its list has no store but 1, and needs two\n");
    let book = Book { stores: 3, actors: vec![good], steps: vec![] };
    assert_eq!(explain(&book.bytes()), "refused 11: a setup has 2 to 8 actors, not 1\n");
}

#[test]
fn every_generated_book_is_told() {
    for seed in 0..400 {
        let bytes = generate(seed);
        let told = explain(&bytes);
        match Book::read(&bytes) {
            Err(_) => assert!(told.starts_with("refused 10: "), "seed {seed}"),
            Ok(Book { stores, actors, steps }) => {
                let legal = setup_is_legal(stores, &actors);
                assert_eq!(illegal(stores, &actors).is_none(), legal, "seed {seed}");
                assert_eq!(told.starts_with("refused 11: "), !legal, "seed {seed}");
                let lines = if legal { 1 + actors.len() + steps.len() + 1 } else { 1 };
                assert_eq!(told.lines().count(), lines, "seed {seed}");
            }
        }
    }
}
