//! Which refusal is given where several could be.

use crate::common::{run, M, S};
use peer::book::{self, Book, MAX_STEPS};
use peer::machine::{ActorSetup, Machine, View, What};
use peer::refusal::{number, Refusal};
use peer::step::{fields, Step, KINDS};

/// The answer to a book's last step.
fn last_answer(text: &str) -> u8 {
    let (_, answers) = run(text);
    *answers.last().expect("the book has a step")
}

#[test]
fn a_missing_phase_comes_before_a_store_outside_the_list() {
    assert_eq!(last_answer(&format!("{M}{S} timeout 0 store 1")), 7);
    let sent = format!("{M}{S} pre-check 0 \n send-record 0 \n");
    assert_eq!(last_answer(&format!("{sent} timeout 0 store 1")), 8);
    assert_eq!(last_answer(&format!("{sent} timeout 0 store 0")), 0);
    assert_eq!(last_answer(&format!("{sent} timeout 0 store 3")), 2);
    assert_eq!(last_answer(&format!("{sent} timeout 0 store 2")), 0);
}

#[test]
fn a_move_sets_the_tries_back() {
    let try_at = |store: u8| format!("send-record 0 \n timeout 0 store {store} \n");
    let tried_out = format!("{M}{S} pre-check 0 \n {}", try_at(0).repeat(3));
    assert_eq!(last_answer(&format!("{tried_out}{}", try_at(0))), 8);
    let back = format!("{tried_out}{}{}", try_at(2), try_at(0));
    assert_eq!(last_answer(&format!("{back}{}", try_at(0).repeat(3))), 0);
    assert_eq!(last_answer(&format!("{back}{}", try_at(0).repeat(4))), 8);
    assert_eq!(last_answer(&format!("{tried_out} timeout 0 store 0")), 7);
}

#[test]
fn a_current_store_outside_the_list_is_refused_before_any_try() {
    let (mut machine, _) = run(&format!("{M}{S} pre-check 0 \n send-record 0"));
    machine.side_mut(View::sender(0)).record.store = 1;
    let step = Step::Timeout { actor: 0, store: 1 };
    assert_eq!(machine.take(step), Err(Refusal::NotListed));
}

#[test]
fn a_sends_refusals_come_in_the_order_of_their_numbers() {
    assert_eq!(last_answer(&format!("{M} send 0 0 own 3 data 7 causes 5")), 2);
    assert_eq!(last_answer(&format!("{M} send 2 2 own 0 data 7 causes -")), 2);
    assert_eq!(last_answer(&format!("{M} send 0 0 own 1 data 7 causes 5")), 3);
    assert_eq!(last_answer(&format!("{M} send 0 1 own 1 data 7 causes 5")), 8);
    assert_eq!(last_answer(&format!("{M} send 0 1 own 0 data 7 causes 5")), 9);
    let full = format!("{M}{}", S.repeat(16));
    assert_eq!(last_answer(&format!("{full} send 0 1 own 3 data 7 causes -")), 2);
    assert_eq!(last_answer(&format!("{full} send 0 0 own 1 data 7 causes 5")), 3);
    assert_eq!(last_answer(&format!("{full} send 0 1 own 1 data 7 causes -")), 4);
    assert_eq!(last_answer(&format!("{full} send 0 1 own 0 data 7 causes 5")), 4);
}

#[test]
fn a_cause_is_never_outside_the_machine() {
    assert_eq!(last_answer(&format!("{M}{S} send 1 0 own 1 data 7 causes 15")), 9);
    let received = format!("{M}{S} receive 0 \n");
    // Its sender hasn't received it.
    assert_eq!(last_answer(&format!("{received} send 0 1 own 0 data 7 causes 0")), 9);
    assert_eq!(last_answer(&format!("{received} send 1 0 own 1 data 7 causes 0 1")), 9);
    assert_eq!(last_answer(&format!("{received} send 1 0 own 1 data 7 causes 0")), 0);
}

#[test]
fn a_store_that_is_down_comes_before_a_missing_copy() {
    let down = format!("{M}{S} pre-check 0 \n send-record 0 \n crash 0 \n");
    assert_eq!(last_answer(&format!("{down} take-record store 0 key 0 role 0")), 5);
    assert_eq!(last_answer(&format!("{down} take-record store 0 key 0 role 1")), 5);
    assert_eq!(last_answer(&format!("{down} take-update store 0 key 0 role 0")), 5);
    assert_eq!(last_answer(&format!("{down} take-update store 0 key 1 role 0")), 2);
    assert_eq!(last_answer(&format!("{down} take-record store 1 key 0 role 0")), 7);
}

#[test]
fn a_role_and_a_what_can_be_outside_the_machine() {
    assert_eq!(last_answer(&format!("{M}{S} take-repair key 0 role 2")), 2);
    assert_eq!(last_answer(&format!("{M}{S} take-ack store 0 key 0 role 2")), 2);
    assert_eq!(last_answer(&format!("{M}{S} lose 4 store 0 key 0 role 0")), 2);
    assert_eq!(last_answer(&format!("{M}{S} lose 3 store 0 key 0 role 0")), 7);
}

#[test]
fn acks_losses_and_duplicates_dont_need_a_store_that_is_up() {
    let acknowledged = format!(
        "{M}{S}
        pre-check 0
        send-record 0
        take-record store 0 key 0 role 0
        checkpoint 0
        crash 0
        "
    );
    assert_eq!(last_answer(&format!("{acknowledged} take-ack store 0 key 0 role 0")), 0);
    assert_eq!(last_answer(&format!("{acknowledged} lose ack store 0 key 0 role 0")), 0);
    assert_eq!(last_answer(&format!("{acknowledged} duplicate ack store 0 key 0 role 0")), 0);
}

#[test]
fn a_checkpoint_needs_a_store_that_is_up() {
    assert_eq!(last_answer(&format!("{M} checkpoint 3")), 2);
    assert_eq!(last_answer(&format!("{M} crash 1 \n checkpoint 1")), 5);
    assert_eq!(last_answer(&format!("{M} crash 1 \n checkpoint 2")), 0);
    assert_eq!(last_answer(&format!("{M} crash 1 \n restart 1 \n checkpoint 1")), 0);
}

#[test]
fn a_duplicate_is_refused_as_a_loss_is() {
    let sent = format!("{M}{S} pre-check 0 \n send-record 0 \n");
    for (copy, answer) in [
        ("record store 0 key 0 role 0", 0),
        ("record store 0 key 0 role 1", 7),
        ("record store 1 key 0 role 0", 7),
        ("ack store 0 key 0 role 0", 7),
        ("uack store 0 key 0 role 0", 7),
        ("4 store 0 key 0 role 0", 2),
        ("record store 3 key 0 role 0", 2),
        ("record store 0 key 1 role 0", 2),
        ("record store 0 key 0 role 2", 2),
    ] {
        for step in ["lose", "duplicate"] {
            assert_eq!(last_answer(&format!("{sent} {step} {copy}")), answer, "{step} {copy}");
        }
    }
}

#[test]
fn a_duplicate_at_fifteen_changes_nothing() {
    let duplicate = "duplicate record store 0 key 0 role 0 \n";
    let copies = |duplicates: usize| {
        let (machine, answers) = run(&format!(
            "{M}{S} pre-check 0 \n send-record 0 \n {}",
            duplicate.repeat(duplicates)
        ));
        assert!(answers.iter().all(|&answer| answer == 0), "{answers:?}");
        machine.place(0, View::sender(0)).count(What::Record)
    };
    assert_eq!([1, 13, 14, 15, 30].map(copies), [2, 14, 15, 15, 15]);
}

#[test]
fn an_answer_isnt_there_before_its_checkpoint() {
    let taken =
        format!("{M}{S} pre-check 0 \n send-record 0 \n take-record store 0 key 0 role 0 \n");
    assert_eq!(last_answer(&format!("{taken} take-ack store 0 key 0 role 0")), 7);
    assert_eq!(last_answer(&format!("{taken} lose ack store 0 key 0 role 0")), 7);
    assert_eq!(last_answer(&format!("{taken} checkpoint 2 \n take-ack store 0 key 0 role 0")), 7);
    assert_eq!(last_answer(&format!("{taken} checkpoint 0 \n take-ack store 0 key 0 role 0")), 0);
}

#[test]
fn the_drain_needs_every_store_up_even_for_nothing() {
    let (mut machine, _) = run(&format!("{M} crash 2"));
    let before = machine.clone();
    assert_eq!(machine.drain(), Err(Refusal::StoreDown));
    assert_eq!(machine, before);
}

#[test]
fn the_empty_machine_has_nothing_to_name() {
    let mut machine = Machine::default();
    for kind in 1..=KINDS {
        let values = vec![0; fields(kind).map_or(0, |fields| fields.len())];
        assert_eq!(machine.take(Step::from_values(kind, &values)), Err(Refusal::NotInMachine));
    }
    assert_eq!(machine.walk(0), Err(Refusal::NotInMachine));
    assert_eq!(machine.drain(), Ok(0));
    assert_eq!(machine, Machine::default());
}

fn refusal(bytes: &[u8]) -> u8 {
    number(&book::run(bytes, &mut [9; MAX_STEPS + 1]))
}

#[test]
fn the_whole_book_is_read_for_its_form_first() {
    let actors = vec![ActorSetup { home: 0, list: 3 }; 200];
    let book = Book { stores: 2, actors, steps: Vec::new() };
    assert_eq!(refusal(&book.bytes()), 11);
    assert_eq!(refusal(&book.bytes()[..400]), 10);
    assert_eq!(refusal(&[]), 10);
    assert_eq!(refusal(&[0, 0, 0, 0]), 11);
    assert_eq!(refusal(&[0, 0, 0, 0, 0]), 10);
    assert_eq!(refusal(&[0, 0, 1, 0, KINDS + 1]), 10);
    assert_eq!(refusal(&[0, 0, 1, 0, 0]), 10);
}

#[test]
fn more_than_4096_steps_are_malformed() {
    let actors = vec![ActorSetup { home: 0, list: 3 }; 2];
    let mut book = Book { stores: 2, actors, steps: vec![Step::Crash { store: 0 }; MAX_STEPS] };
    assert_eq!(refusal(&book.bytes()), 0);
    book.steps.push(Step::Crash { store: 0 });
    assert_eq!(refusal(&book.bytes()), 10);
}

#[test]
fn the_longest_book_is_well_formed() {
    let send = Step::Send { from: 0, to: 1, own: 0, data: 7, causes: 0 };
    let actors = vec![ActorSetup { home: 0, list: 3 }; 255];
    let book = Book { stores: 2, actors, steps: vec![send; MAX_STEPS] };
    assert_eq!(book.bytes().len(), 41_474);
    assert_eq!(refusal(&book.bytes()), 11);
}

#[test]
fn a_short_buffer_comes_last_and_a_refused_book_writes_nothing() {
    let actors = vec![ActorSetup { home: 0, list: 3 }; 2];
    let mut book = Book { stores: 2, actors, steps: vec![Step::Crash { store: 0 }; 3] };
    let mut answers = [9; 5];
    assert_eq!(book::run(&book.bytes(), &mut answers[..2]), Err(Refusal::ShortBuffer));
    book.stores = 1;
    assert_eq!(book::run(&book.bytes(), &mut answers[..2]), Err(Refusal::IllegalSetup));
    assert_eq!(answers, [9; 5]);
    book.stores = 2;
    assert!(book::run(&book.bytes(), &mut answers).is_ok());
    assert_eq!(answers, [0, 5, 5, 9, 9]);
}

#[test]
fn every_kind_of_illegal_setup_is_refused() {
    let actors = |home, list| [ActorSetup { home: 0, list: 3 }, ActorSetup { home, list }];
    assert!(Machine::setup(3, &actors(1, 6)).is_ok());
    for (stores, home, list) in [(1, 0, 3), (9, 1, 6), (3, 3, 14), (3, 0, 6), (3, 1, 10), (3, 1, 2)]
    {
        let setup = Machine::setup(stores, &actors(home, list));
        assert_eq!(setup, Err(Refusal::IllegalSetup), "{stores} {home} {list}");
    }
    assert_eq!(Machine::setup(3, &actors(1, 6)[..1]), Err(Refusal::IllegalSetup));
    assert_eq!(Machine::setup(3, &[actors(1, 6)[0]; 9]), Err(Refusal::IllegalSetup));
}
