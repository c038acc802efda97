//! The marked runs W1 to W12 of docs/RUNS.md.

use crate::common::{run, M, S};
use peer::book;
use peer::machine::{Machine, Phase, Record, View};
use peer::refusal::Refusal;
use peer::text;
use peer::walk::Walk;

const SENDER: View = View { key: 0, role: 0 };
const RECEIVER: View = View { key: 0, role: 1 };

/// Runs a book of which every step is taken.
fn run_taken(text: &str) -> Machine {
    let (machine, answers) = run(text);
    assert!(answers.iter().all(|&answer| answer == 0), "{answers:?}");
    machine
}

/// Checks that the view is settled in that store, whose checkpoint holds it with that viewlink.
fn assert_settled(machine: &Machine, view: View, store: u8, link: u8) {
    assert_eq!(machine.record(view).phase, Phase::Settled);
    assert_eq!(machine.record(view).store, store);
    assert_eq!(machine.lasting(store, view).contents, Some(machine.record(view).contents()));
    assert_eq!(machine.lasting(store, view).viewlink, Some(link));
}

#[test]
fn w1_a_fresh_machine_drains_in_no_steps() {
    assert_eq!(run_taken(M).drain(), Ok(0));
}

#[test]
fn w2_one_interaction_drains_in_thirteen_steps() {
    let mut machine = run_taken(&format!("{M}{S}"));
    assert_eq!(machine.drain(), Ok(13));
    assert_settled(&machine, SENDER, 0, 1);
    assert_settled(&machine, RECEIVER, 1, 0);
}

#[test]
fn w3_both_records_lost() {
    let mut machine = run_taken(&format!(
        "{M}{S}
        receive 0
        pre-check 0
        pre-check 1
        send-record 0
        send-record 1
        lose record store 0 key 0 role 0
        lose record store 1 key 0 role 1"
    ));
    assert_eq!(machine.drain(), Ok(22));
    assert_settled(&machine, SENDER, 2, 2);
    assert_settled(&machine, RECEIVER, 2, 2);
}

#[test]
fn w4_only_the_senders_record_lost() {
    let mut machine = run_taken(&format!(
        "{M}{S}
        receive 0
        pre-check 0
        send-record 0
        lose record store 0 key 0 role 0"
    ));
    assert_eq!(machine.drain(), Ok(17));
    assert_settled(&machine, SENDER, 2, 1);
    assert_settled(&machine, RECEIVER, 1, 2);
}

#[test]
fn w5_an_ack_from_a_store_that_was_left() {
    let machine = run_taken(&format!(
        "{M}{S}
        pre-check 0
        send-record 0
        take-record store 0 key 0 role 0
        checkpoint 0
        timeout 0 store 2
        take-ack store 0 key 0 role 0"
    ));
    assert_eq!(machine.record(SENDER).phase, Phase::Ready);
}

#[test]
fn w6_sends_that_are_refused() {
    let (_, answers) = run(&format!(
        "{M}
        send 0 0 own 0 data 7 causes -
        send 0 1 own 1 data 7 causes -"
    ));
    assert_eq!(answers, [3, 8]);
}

#[test]
fn w7_three_tries_at_the_current_store() {
    let try_again = "send-record 0 \n timeout 0 store 0 \n";
    let (machine, answers) = run(&format!(
        "{M}{S}
        pre-check 0
        timeout 0 store 2
        {}",
        try_again.repeat(4)
    ));
    assert_eq!(answers, [0, 0, 7, 0, 0, 0, 0, 0, 0, 0, 8]);
    let Record { store, changed, tries, phase, .. } = *machine.record(SENDER);
    assert_eq!((store, changed, tries, phase), (0, false, 3, Phase::Sent));
}

#[test]
fn w8_a_cause_counts_once_received() {
    let with_cause = "send 1 0 own 1 data 7 causes 0\n";
    let (_, answers) = run(&format!("{M}{S}{with_cause} receive 0\n{with_cause}"));
    assert_eq!(answers, [0, 9, 0, 0]);
}

#[test]
fn w9_sixteen_interactions_at_most() {
    let to_itself = "send 0 0 own 0 data 7 causes -";
    let (_, answers) = run(&format!("{M}{}{to_itself}", S.repeat(17)));
    assert_eq!(answers, [[0; 16].as_slice(), &[4, 3]].concat());
}

#[test]
fn w10_crash_and_restart_twice() {
    let (_, answers) = run(&format!("{M} crash 0 \n crash 0 \n restart 0 \n restart 0"));
    assert_eq!(answers, [0, 5, 0, 6]);
}

#[test]
fn w11_a_list_of_one_store() {
    let book = text::read(&M.replace("list 0 2", "list 0")).expect("the text is well formed");
    assert_eq!(book::run(&book.bytes(), &mut []), Err(Refusal::IllegalSetup));
}

#[test]
fn w12_a_walk_before_and_after_the_drain() {
    let mut machine = run_taken(&format!("{M}{S} receive 0 \n send 1 0 own 1 data 7 causes 0"));
    assert_eq!(machine.walk(1), Err(Refusal::Open));
    assert_eq!(machine.drain(), Ok(25));
    assert_eq!(machine.walk(1), Ok(Walk { keys: vec![1, 0], lookups: 3 }));
    assert_eq!(machine.walk(2), Err(Refusal::NotInMachine));
}
