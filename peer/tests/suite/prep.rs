//! The store of the first PReP.

use peer::prep::coverage::Coverage;
use peer::prep::generate::generate;
use peer::prep::messages::{read, write, Activity, Message, Said};
use peer::prep::program::prep;
use peer::prep::{Answer, Refusal, Store};
use peer::programs::MAX_INPUT;
use peer::random::Random;

const CLIENT: u32 = 40;
const SERVICE: u32 = 50;
const ACTIVITY: Activity =
    Activity { session: 10, nonce: 20, thread: 30, client: CLIENT, service: SERVICE };

const NEGOTIATION: Said = Said::Negotiation { list: 1, accepted: 2, extra: 3 };
const INVOCATION: Said = Said::Invocation { extra: 4, data: 5 };
const RESULT: Said = Said::Result { extra: 6, data: 7 };

const ACKNOWLEDGED: Answer = Answer { acknowledged: true, finished: false };
const NOTHING: Answer = Answer { acknowledged: false, finished: false };

fn message(sender: u32, said: Said) -> Message {
    Message { sender, activity: ACTIVITY, said }
}

/// The four kinds that come once and these additional ones, from one side.
fn side(sender: u32, extras: &[u32]) -> Vec<Message> {
    let count = 4 + extras.len() as u32;
    let once = [NEGOTIATION, INVOCATION, RESULT, Said::Finished { count }];
    let additional = extras.iter().map(|&extra| Said::Additional { extra });
    once.into_iter().chain(additional).map(|said| message(sender, said)).collect()
}

fn complete_set() -> Vec<Message> {
    [side(CLIENT, &[8, 8]), side(SERVICE, &[])].concat()
}

/// The store after these messages, all of them taken.
fn store_after(messages: &[Message]) -> Store {
    let mut store = Store::default();
    for message in messages {
        store.take(message).expect("the message is taken");
    }
    store
}

fn shuffled(mut messages: Vec<Message>, seed: u64) -> Vec<Message> {
    let mut random = Random::new(seed);
    for last in (1..messages.len()).rev() {
        messages.swap(last, random.below(last + 1));
    }
    messages
}

#[test]
fn the_program_prints_answers_and_tables() {
    let other = Activity { service: CLIENT, client: SERVICE, ..ACTIVITY };
    let result = Message { activity: other, ..message(SERVICE, RESULT) };
    let messages = [complete_set(), vec![result, message(60, RESULT)]].concat();
    let expected = "\
0 0 0
0 1 0
0 2 0
0 - 0
0 4 0
0 4 0
0 0 0
0 1 0
0 2 0
0 - 1
0 2 0
17 - 0
10 20 30 40 50
0 1 0 1 2 3 1 4 5 2 6 7 3 6 4 8 4 8
1 1 0 1 2 3 1 4 5 2 6 7 3 4
10 20 30 50 40
0 0 2 6 7
1 0
";
    assert_eq!(prep(&write(&messages)), expected);
    assert_eq!(prep(&[0, 0]), "");
}

#[test]
fn any_order_completes_at_the_last_message_and_not_before() {
    let sorted = |store: &Store| {
        let entry = &store.entries[0];
        [&entry.client, &entry.service].map(|table| {
            let mut held: Vec<String> = table.messages().map(|said| format!("{said:?}")).collect();
            held.sort();
            held
        })
    };
    let extras = [8, 9, 8];
    let messages = [side(CLIENT, &extras), side(SERVICE, &extras[..1])].concat();
    let tables = sorted(&store_after(&messages));
    for seed in 0..200 {
        let messages = shuffled(messages.clone(), seed);
        let mut store = Store::default();
        let finished: Vec<bool> = messages
            .iter()
            .map(|message| store.take(message).expect("the message is taken").finished)
            .collect();
        let last = finished.len() - 1;
        assert_eq!(finished.iter().position(|&finished| finished), Some(last), "seed {seed}");
        assert!(store.entries[0].is_complete(), "seed {seed}");
        assert_eq!(sorted(&store), tables, "seed {seed}");
    }
}

#[test]
fn a_second_message_of_a_kind_changes_nothing() {
    let mut store = store_after(&side(CLIENT, &[]));
    let before = store.clone();
    for said in [
        Said::Negotiation { list: 9, accepted: 9, extra: 9 },
        Said::Invocation { extra: 9, data: 9 },
        Said::Result { extra: 9, data: 9 },
    ] {
        assert_eq!(store.take(&message(CLIENT, said)), Ok(ACKNOWLEDGED));
        assert_eq!(store, before);
    }
    assert_eq!(store.take(&message(CLIENT, Said::Finished { count: 9 })), Ok(NOTHING));
    assert_eq!(store, before);
}

#[test]
fn additional_messages_are_a_collection_with_repeats() {
    let store = store_after(&complete_set());
    assert!(store.entries[0].is_complete());
    assert_eq!(store.entries[0].client.messages().count(), 6);
}

#[test]
fn completion_is_told_once() {
    let mut store = store_after(&complete_set());
    for message in complete_set() {
        let answer = store.take(&message).expect("the message is taken");
        assert!(!answer.finished, "{message}");
    }
    // Two additional ones more than announced: the record isn't complete any more.
    assert!(!store.entries[0].is_complete());
}

#[test]
fn the_announced_count_decides() {
    for (count, complete) in [(3, false), (4, true), (5, false), (260, false), (u32::MAX, false)] {
        let mut messages = [side(CLIENT, &[]), side(SERVICE, &[])].concat();
        messages[3].said = Said::Finished { count };
        assert_eq!(store_after(&messages).entries[0].is_complete(), complete, "{count}");
    }
}

#[test]
fn three_of_four_dont_complete() {
    for missing in 0..8 {
        let mut messages = [side(CLIENT, &[]), side(SERVICE, &[])].concat();
        messages.remove(missing);
        assert!(!store_after(&messages).entries[0].is_complete(), "{missing}");
    }
}

#[test]
fn a_stranger_is_refused_before_anything_else() {
    let mut store = Store::default();
    for nonce in 0..16 {
        let activity = Activity { nonce, ..ACTIVITY };
        assert!(store.take(&Message { activity, ..message(CLIENT, RESULT) }).is_ok());
    }
    let before = store.clone();
    let activity = Activity { nonce: 16, ..ACTIVITY };
    let late = Message { activity, ..message(CLIENT, RESULT) };
    assert_eq!(store.take(&Message { sender: 60, ..late }), Err(Refusal::NeitherSide));
    assert_eq!(store.take(&late), Err(Refusal::Full));
    assert_eq!(store, before);
    let known = Message { activity: before.entries[15].activity, ..message(SERVICE, RESULT) };
    assert_eq!(store.take(&known), Ok(ACKNOWLEDGED));
}

#[test]
fn a_sides_ninth_additional_message_is_refused() {
    let mut store = store_after(&vec![message(CLIENT, Said::Additional { extra: 1 }); 8]);
    let before = store.clone();
    let ninth = message(CLIENT, Said::Additional { extra: 2 });
    assert_eq!(store.take(&ninth), Err(Refusal::Full));
    assert_eq!(store, before);
    assert_eq!(store.take(&Message { sender: SERVICE, ..ninth }), Ok(ACKNOWLEDGED));
}

#[test]
fn a_refused_message_makes_no_activity() {
    let mut store = Store::default();
    assert_eq!(store.take(&message(60, RESULT)), Err(Refusal::NeitherSide));
    assert_eq!(store, Store::default());
}

#[test]
fn one_actor_on_both_sides_never_completes() {
    let activity = Activity { service: CLIENT, ..ACTIVITY };
    let messages = side(CLIENT, &[]).into_iter().map(|message| Message { activity, ..message });
    let store = store_after(&messages.collect::<Vec<_>>());
    assert_eq!(store.entries[0].client.messages().count(), 4);
    assert_eq!(store.entries[0].service.messages().count(), 0);
    assert!(!store.entries[0].is_complete());
}

#[test]
fn activities_differ_in_any_number() {
    let near = (0..5).map(|place| {
        let mut numbers = ACTIVITY.numbers();
        numbers[place] ^= 1 << 31;
        Activity::from_numbers(numbers)
    });
    let mut store = store_after(&complete_set());
    let before = store.entries[0].clone();
    for activity in near {
        let message = Message { sender: activity.client, activity, said: RESULT };
        assert_eq!(store.take(&message), Ok(ACKNOWLEDGED));
    }
    assert_eq!(store.entries.len(), 6);
    assert_eq!(store.entries[0], before);
}

#[test]
fn bytes_that_dont_fit_are_refused() {
    let good = write(&complete_set());
    assert_eq!(read(&good), Some(complete_set()));
    let mut unknown = good.clone();
    unknown[26] = 5;
    for bytes in [&[][..], &[0], &good[..good.len() - 1], &[&good[..], &[0]].concat(), &unknown] {
        assert_eq!(prep(bytes), "refused 10\n");
    }
}

/// So many bytes that are well formed.
fn bytes_of_length(length: usize, count: usize) -> Vec<u8> {
    let mut messages = vec![message(CLIENT, Said::Finished { count: 1 }); count];
    let with_two_fields = (length - 2 - 29 * count) / 4;
    messages[..with_two_fields].fill(message(CLIENT, INVOCATION));
    let bytes = write(&messages);
    assert_eq!(bytes.len(), length);
    bytes
}

#[test]
fn more_than_65536_bytes_are_refused() {
    assert!(prep(&bytes_of_length(MAX_INPUT, 2258)).starts_with("0 1 0\n"));
    assert_eq!(prep(&bytes_of_length(MAX_INPUT + 1, 2259)), "refused 10\n");
}

#[test]
fn some_hundred_files_cover_everything() {
    let coverage = Coverage::of_seeds(0..400).to_string();
    assert!(coverage.ends_with("\nnothing is missing\n"), "{coverage}");
}

#[test]
fn a_seed_gives_the_same_file_every_time() {
    for seed in 0..40 {
        assert_eq!(generate(seed), generate(seed));
        assert_ne!(generate(seed), generate(seed + 1));
    }
}
