//! The six calls: the example book and the marked run W12, and what each refusal leaves.

use tautlichen::{drain, lineage, list, run, walk, Drained, Refusal, Walked, KEYS, PROVN, TEXT};

/// Three stores; actor 0 at home in 0, with 0 and 2; actor 1 at home in 1, with 1 and 2.
const SETUP: [u8; 6] = [3, 2, 0, 5, 1, 6];

const SEND: &[u8] = &[1, 0, 1, 0, 7, 0, 0, 0, 0, 0];
const RECEIVE: &[u8] = &[2, 0];
/// From 1 to 0, with cause 0.
const SEND_ON: &[u8] = &[1, 1, 0, 1, 7, 0, 0, 0, 1, 0];
const TIMEOUT: &[u8] = &[5, 0, 2];
const CRASH: &[u8] = &[15, 0];

/// What stands in a lent buffer before a call.
const LENT: u8 = 0xEE;

fn book_of(setup: &[u8], steps: &[&[u8]]) -> Vec<u8> {
    let count = u16::try_from(steps.len()).expect("few steps");
    [setup, &count.to_le_bytes(), &steps.concat()].concat()
}

fn book(steps: &[&[u8]]) -> Vec<u8> {
    book_of(&SETUP, steps)
}

/// The head of an actor's queue is filed: pre-check, send record, the store takes it and checkpoints, the actor takes
/// the ack, post-check.
fn filed(actor: u8, store: u8, key: u8, role: u8) -> Vec<Vec<u8>> {
    vec![
        vec![3, actor],
        vec![4, actor],
        vec![6, store, key, role],
        vec![17, store],
        vec![7, store, key, role],
        vec![8, actor],
    ]
}

/// W12, and then the very steps that its drain takes.
fn closed() -> Vec<u8> {
    let mut steps: Vec<Vec<u8>> = [SEND, RECEIVE, SEND_ON, &[2, 1]].map(<[u8]>::to_vec).into();
    for view in [filed(0, 0, 0, 0), filed(0, 0, 1, 1), filed(1, 1, 0, 1), filed(1, 1, 1, 0)] {
        steps.extend(view);
    }
    book(&steps.iter().map(Vec::as_slice).collect::<Vec<_>>())
}

#[test]
fn the_example() {
    let example = book(&[SEND, RECEIVE, TIMEOUT]);
    let mut answers = [LENT; 4];
    assert_eq!(run(&example, &mut answers), Ok(()));
    assert_eq!(answers, [0, 0, 7, LENT]);

    let (mut answers, mut text) = ([LENT; 4], [LENT; TEXT]);
    let listing = b"3 2 1 3 2\n0 0 1 0 -\n0 1 1 1 -\n";
    assert_eq!(list(&example, &mut answers, &mut text), Ok(&listing[..]));
    assert_eq!(answers, [0, 0, 7, LENT]);
    assert!(text[listing.len()..].iter().all(|byte| *byte == LENT), "bytes behind stay");
}

#[test]
fn drain_and_walk() {
    let sent = book(&[SEND, RECEIVE, SEND_ON]);
    let rested = b"3 2 2 3 3\n0 0 5 0 1\n0 1 5 1 0\n1 0 5 1 0\n1 1 5 0 1\n";
    let mut text = [LENT; TEXT];
    assert_eq!(drain(&sent, &mut text), Ok(Drained { count: 25, listing: rested }));
    let mut keys = [LENT; KEYS];
    assert_eq!(walk(&sent, 1, &mut keys), Err(Refusal(13)));
    assert_eq!(walk(&sent, 2, &mut keys), Err(Refusal(2)));
    assert_eq!(keys, [LENT; KEYS], "a refusal writes nothing");

    assert_eq!(drain(&closed(), &mut text).map(|drained| drained.count), Ok(0));
    assert_eq!(walk(&closed(), 1, &mut keys), Ok(Walked { keys: &[1, 0], lookups: 3 }));
    assert_eq!(walk(&closed(), 0, &mut keys[..1]), Ok(Walked { keys: &[0], lookups: 1 }));
    assert_eq!(keys[2..], [LENT; KEYS - 2], "bytes behind stay");
}

#[test]
fn lineage_of_w12() {
    let document = b"document
prefix r <urn:runs:>
entity(r:i1)
entity(r:i0)
activity(r:a1,-,-)
activity(r:a0,-,-)
wasGeneratedBy(r:i1,r:a1,-)
used(r:a1,r:i0,-)
wasDerivedFrom(r:i1,r:i0)
wasGeneratedBy(r:i0,r:a0,-)
endDocument
";
    let mut text = [LENT; PROVN];
    assert_eq!(lineage(&closed(), 1, &mut text[..document.len() - 1]), Err(Refusal(14)));
    assert_eq!(text, [LENT; PROVN], "a refusal writes nothing");
    assert_eq!(lineage(&closed(), 1, &mut text[..document.len()]), Ok(&document[..]));
    assert!(text[document.len()..].iter().all(|byte| *byte == LENT), "bytes behind stay");
    assert_eq!(lineage(&closed(), 2, &mut []), Err(Refusal(2)), "2 before 14");
    assert_eq!(lineage(&book(&[SEND, RECEIVE]), 0, &mut []), Err(Refusal(13)), "13 before 14");
}

#[test]
fn refused_books_write_nothing() {
    let example = book(&[SEND, RECEIVE, TIMEOUT]);
    let malformed = &example[1..];
    // Actor 0 with one store, as in W11.
    let illegal = &book_of(&[3, 2, 0, 1, 1, 6], &[SEND])[..];
    for (book, number) in [(malformed, 10), (illegal, 11), (&[][..], 10)] {
        let (mut answers, mut text, mut keys) = ([LENT; 4], [LENT; TEXT], [LENT; KEYS]);
        assert_eq!(run(book, &mut answers), Err(Refusal(number)));
        assert_eq!(list(book, &mut answers, &mut text), Err(Refusal(number)));
        assert_eq!(drain(book, &mut text), Err(Refusal(number)));
        assert_eq!(walk(book, 0, &mut keys), Err(Refusal(number)));
        assert_eq!(lineage(book, 0, &mut text), Err(Refusal(number)));
        assert_eq!((answers, text, keys), ([LENT; 4], [LENT; TEXT], [LENT; KEYS]));
    }
}

#[test]
fn short_buffers_stay() {
    let example = book(&[SEND, RECEIVE, TIMEOUT]);
    let (mut answers, mut text) = ([LENT; 3], [LENT; 30]);
    assert_eq!(run(&example, &mut answers[..2]), Err(Refusal(12)));
    assert_eq!(list(&example, &mut answers[..2], &mut text), Err(Refusal(12)), "12 before 14");
    assert_eq!(list(&example, &mut answers, &mut text[..29]), Err(Refusal(14)));
    assert_eq!(drain(&example, &mut text[..29]), Err(Refusal(14)));
    assert_eq!(drain(&book(&[CRASH]), &mut []), Err(Refusal(5)), "5 before 14");
    let mut keys = [LENT; 1];
    assert_eq!(walk(&closed(), 1, &mut keys), Err(Refusal(14)));
    assert_eq!((answers, text, keys), ([LENT; 3], [LENT; 30], [LENT; 1]));
    assert_eq!(
        list(&example, &mut answers, &mut text).map(<[u8]>::len),
        Ok(30),
        "a buffer of just the length"
    );
}

/// Weights of bundle 7, a scaler and a forecast of bundle 7 made of both, all at rest.
fn forecast(scaler: u8) -> Vec<u8> {
    let mut steps: Vec<Vec<u8>> = vec![
        vec![1, 0, 1, 0, 7, 0, 0, 1, 0, 0],
        vec![1, 0, 1, 0, scaler, 0, 0, 2, 0, 0],
        vec![2, 0],
        vec![2, 1],
        vec![1, 1, 0, 1, 7, 0, 0, 3, 3, 0],
        vec![2, 2],
    ];
    for (key, role) in [(0, 0), (1, 0), (2, 1)] {
        steps.extend(filed(0, 0, key, role));
    }
    for (key, role) in [(0, 1), (1, 1), (2, 0)] {
        steps.extend(filed(1, 1, key, role));
    }
    book(&steps.iter().map(Vec::as_slice).collect::<Vec<_>>())
}

#[test]
fn the_pair_rule() {
    use tautlichen::pair;
    for rule in [1, 2] {
        assert_eq!(pair(&forecast(7), rule, 2), Ok(true));
        assert_eq!(pair(&forecast(8), rule, 2), Ok(false), "the scaler of another bundle");
    }
    let cut = &forecast(7)[1..];
    assert_eq!(pair(cut, 3, 2), Err(Refusal(19)), "19 before 10");
    assert_eq!(pair(cut, 1, 2), Err(Refusal(10)));
    assert_eq!(pair(&forecast(7), 1, 3), Err(Refusal(2)));
    assert_eq!(pair(&book(&[SEND]), 1, 0), Err(Refusal(13)), "13 before 20");
    assert_eq!(pair(&forecast(7), 1, 0), Err(Refusal(20)));
}
