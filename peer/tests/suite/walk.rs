//! The order of a walk, and what it needs.

use crate::common::run;
use peer::machine::{Holding, Machine, Store, View};
use peer::refusal::Refusal;
use peer::walk::Walk;

const SETUP: &str = "
    stores 3
    actor home 0 list 0 2
    actor home 1 list 1 2
    actor home 2 list 0 2
";

/// The machine after a book and its drain.
fn drained(text: &str) -> Machine {
    let (mut machine, answers) = run(&format!("{SETUP}{text}"));
    assert!(answers.iter().all(|&answer| answer == 0), "{answers:?}");
    machine.drain().expect("every store is up");
    machine
}

/// Causes 1 and 2 of 3, and 0 of 1.
fn fork() -> Machine {
    drained(
        "send 0 1 own 0 data 1 causes -
        receive 0
        send 1 2 own 1 data 2 causes 0
        send 0 2 own 0 data 3 causes -
        receive 1
        receive 2
        send 2 0 own 2 data 4 causes 1 2",
    )
}

/// Causes 1 and 2 of 3, and 0 of both.
fn diamond() -> Machine {
    drained(
        "send 0 1 own 0 data 1 causes -
        receive 0
        send 1 2 own 1 data 2 causes 0
        send 1 2 own 1 data 3 causes 0
        receive 1
        receive 2
        send 2 0 own 2 data 4 causes 1 2",
    )
}

/// The walk that answers these keys with so many lookups.
fn answer(keys: &[u8], lookups: usize) -> Result<Walk, Refusal> {
    Ok(Walk { keys: keys.to_vec(), lookups })
}

#[test]
fn a_cause_is_walked_before_the_next_is_met() {
    assert_eq!(fork().walk(3), answer(&[3, 1, 0, 2], 7));
    assert_eq!(diamond().walk(3), answer(&[3, 1, 0, 2], 7));
}

#[test]
fn the_start_costs_one_lookup_and_each_key_after_it_two() {
    assert_eq!(fork().walk(0), answer(&[0], 1));
    assert_eq!(fork().walk(1), answer(&[1, 0], 3));
    assert_eq!(diamond().walk(2), answer(&[2, 0], 3));
}

#[test]
fn a_walk_follows_links_to_where_the_records_moved() {
    let machine = drained(
        "send 0 1 own 0 data 1 causes -
        receive 0
        send 1 2 own 1 data 2 causes 0
        pre-check 0
        send-record 0
        lose record store 0 key 0 role 0
        pre-check 1
        send-record 1
        lose record store 1 key 0 role 1",
    );
    assert_eq!(machine.record(View::sender(0)).store, 2);
    assert_eq!(machine.record(View::receiver(0)).store, 2);
    assert_eq!(machine.record(View::sender(1)).cause_links[0], 2);
    assert_eq!(machine.walk(1), answer(&[1, 0], 3));
}

#[test]
fn everything_on_the_way_must_be_there() {
    let missing: [fn(&mut Machine); 4] = [
        |machine| machine.place_mut(2, View::sender(3)).checkpointed.contents = None,
        |machine| machine.place_mut(2, View::receiver(1)).checkpointed.contents = None,
        |machine| machine.place_mut(2, View::receiver(1)).checkpointed.viewlink = None,
        |machine| machine.place_mut(1, View::sender(1)).checkpointed.contents = None,
    ];
    for remove in missing {
        let mut machine = fork();
        remove(&mut machine);
        assert!(!machine.is_broken());
        assert_eq!(machine.walk(3), Err(Refusal::Open));
        assert_eq!(machine.walk(2), answer(&[2], 1));
    }
}

#[test]
fn the_working_state_doesnt_count() {
    let mut machine = fork();
    machine.stores.iter_mut().flat_map(Store::places_mut).for_each(|place| {
        place.working = Holding::default();
    });
    assert!(!machine.is_broken());
    assert_eq!(machine.walk(3), answer(&[3, 1, 0, 2], 7));
}

#[test]
fn a_key_met_again_is_not_looked_up_again() {
    let mut machine = diamond();
    // Key 2's way to key 0 leads to a store that has no receipt of it.
    machine.side_mut(View::sender(2)).record.cause_links[0] = 0;
    let contents = machine.record(View::sender(2)).contents();
    let place = machine.place_mut(1, View::sender(2));
    place.checkpointed.contents = Some(contents.clone());
    place.working.contents = Some(contents);
    assert!(!machine.is_broken());
    assert_eq!(machine.walk(2), Err(Refusal::Open));
    assert_eq!(machine.walk(3), answer(&[3, 1, 0, 2], 7));
}
