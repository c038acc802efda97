//! What makes a machine value broken, over both states of a store, and what doesn't.

use crate::common::{run, M, S, SENDER_MOVES};
use peer::machine::{
    Actor, Application, Contents, Entry, Holding, Machine, Phase, Place, Record, Repair, Status,
    View, What,
};
use peer::random::Random;
use peer::refusal::Refusal;
use peer::step::Step;

type Change = fn(&mut Machine);

const ENTRY: Entry = Entry { destination: 1, own: 2, status: Status::Done };
const REPAIR: Repair = Repair { destination: 1, own: 2 };

/// Interaction 0 with a settled sender, its repair taken, and a receipt that is sent; 1 with
/// cause 0, queued behind that receipt; 2 just sent.
fn sound() -> Machine {
    let (machine, answers) = run(&format!(
        "{M}{S}
        receive 0
        {SENDER_MOVES}
        take-repair key 0 role 0
        send-update key 0 role 0
        send 1 0 own 1 data 8 causes 0
        pre-check 1
        send-record 1
        take-record store 1 key 0 role 1
        send 0 1 own 0 data 9 causes -"
    ));
    assert!(answers.iter().all(|&answer| answer == 0), "{answers:?}");
    assert!(!machine.is_broken());
    machine
}

/// Checks that each change makes every call refuse with 1 and change nothing.
fn assert_broken(changes: &[Change]) {
    for (index, change) in changes.iter().enumerate() {
        let mut machine = sound();
        change(&mut machine);
        let before = machine.clone();
        assert!(machine.is_broken(), "change {index}");
        assert_eq!(machine.take(Step::Crash { store: 99 }), Err(Refusal::Broken));
        assert_eq!(machine.drain(), Err(Refusal::Broken));
        assert_eq!(machine.walk(99), Err(Refusal::Broken));
        assert_eq!(machine, before, "change {index}");
    }
}

fn assert_sound(changes: &[Change]) {
    for (index, change) in changes.iter().enumerate() {
        let mut machine = sound();
        change(&mut machine);
        assert!(!machine.is_broken(), "change {index}");
    }
}

fn record(machine: &mut Machine, key: u8, role: u8) -> &mut Record {
    &mut machine.side_mut(View { key, role }).record
}

fn place(machine: &mut Machine, store: u8, key: u8, role: u8) -> &mut Place {
    machine.place_mut(store, View { key, role })
}

#[test]
fn numbers_outside_what_is_said() {
    assert_broken(&[
        |m| m.interaction_count = 17,
        |m| place(m, 0, 0, 0).copies[What::Record as usize] = 16,
        |m| place(m, 1, 0, 0).copies[What::Uack as usize] = 255,
        |m| record(m, 2, 1).actor = 2,
        |m| record(m, 0, 0).actor = 200,
        |m| record(m, 0, 0).tries = 4,
        |m| record(m, 2, 0).tries = 255,
    ]);
}

#[test]
fn an_illegal_setup() {
    assert_broken(&[
        |m| m.store_count = 0,
        |m| m.store_count = 9,
        |m| m.actor_count = 0,
        |m| m.actor_count = 1,
        |m| m.actor_count = 200,
        |m| m.actors[0].home = 1,
        |m| m.actors[0].list = 1,
        |m| m.actors[0].list = 0b1101,
    ]);
    let mut almost_empty = Machine::default();
    assert!(!almost_empty.is_broken());
    almost_empty.stores[7].up = true;
    assert!(almost_empty.is_broken());
}

#[test]
fn unused_slots_that_arent_blank() {
    assert_broken(&[
        |m| m.stores[3].up = true,
        |m| m.actors[2].home = 1,
        |m| m.actors[2].list = 3,
        |m| m.actors[2].queue.push(View::sender(2)),
        |m| m.interactions[3].application = Some(Application { own: 0, data: 0 }),
        |m| record(m, 3, 0).data = 1,
        |m| record(m, 15, 1).changed = true,
        |m| record(m, 3, 0).tries = 1,
        |m| m.side_mut(View::sender(3)).repair = Some(REPAIR),
        |m| m.side_mut(View::receiver(3)).entry = Some(ENTRY),
        |m| place(m, 0, 3, 0).working.viewlink = Some(0),
        |m| place(m, 3, 0, 0).working.viewlink = Some(0),
        |m| place(m, 0, 3, 0).checkpointed.viewlink = Some(0),
        |m| place(m, 3, 0, 0).checkpointed.viewlink = Some(0),
        |m| place(m, 0, 3, 0).ack_owed = true,
        |m| place(m, 3, 0, 0).ack_owed = true,
        |m| place(m, 0, 15, 1).uack_owed = true,
        |m| place(m, 7, 0, 0).uack_owed = true,
        |m| place(m, 3, 0, 0).copies[What::Update as usize] = 1,
        |m| place(m, 7, 15, 1).copies[What::Ack as usize] = 1,
        |m| place(m, 2, 15, 1).working = place(m, 2, 0, 0).working.clone(),
        |m| place(m, 2, 15, 1).checkpointed = place(m, 2, 0, 0).working.clone(),
        |m| record(m, 1, 0).cause_links[1] = 1,
        |m| record(m, 2, 1).data = 9,
        |m| record(m, 2, 1).store = 1,
        |m| record(m, 2, 1).viewlink = 1,
        |m| record(m, 2, 1).changed = true,
        |m| record(m, 2, 1).tries = 1,
        |m| record(m, 2, 1).causes = 1,
        |m| record(m, 0, 1).causes = 1,
    ]);
}

#[test]
fn links_that_name_no_store() {
    assert_broken(&[
        |m| record(m, 0, 0).store = 3,
        |m| record(m, 0, 1).viewlink = 3,
        |m| record(m, 1, 0).cause_links[0] = 3,
        |m| m.interactions[1].application = Some(Application { own: 3, data: 8 }),
        |m| m.side_mut(View::sender(0)).repair = Some(Repair { destination: 3, ..REPAIR }),
        |m| m.side_mut(View::sender(0)).repair = Some(Repair { own: 3, ..REPAIR }),
        |m| m.side_mut(View::sender(0)).entry = Some(Entry { destination: 3, ..ENTRY }),
        |m| m.side_mut(View::sender(0)).entry = Some(Entry { own: 3, ..ENTRY }),
        |m| place(m, 2, 0, 0).working.viewlink = Some(3),
        |m| place(m, 2, 0, 0).checkpointed.viewlink = Some(3),
    ]);
}

#[test]
fn contents_that_differ_from_the_record() {
    fn held(machine: &mut Machine) -> &mut Contents {
        contents(&mut place(machine, 2, 0, 0).working)
    }
    fn kept(machine: &mut Machine) -> &mut Contents {
        contents(&mut place(machine, 2, 0, 0).checkpointed)
    }
    fn contents(holding: &mut Holding) -> &mut Contents {
        holding.contents.as_mut().expect("store 2 holds the sender's view")
    }
    assert_broken(&[
        |m| held(m).asserter = 1,
        |m| held(m).data = 8,
        |m| held(m).causes = 1,
        |m| held(m).cause_links[3] = 1,
        |m| kept(m).asserter = 1,
        |m| kept(m).data = 8,
        |m| kept(m).causes = 1,
        |m| kept(m).cause_links[3] = 1,
    ]);
}

#[test]
fn senders_receivers_and_causes() {
    assert_broken(&[
        |m| record(m, 2, 1).actor = 0,
        |m| record(m, 1, 0).causes = 0b11,
        |m| record(m, 1, 0).causes = 0b101,
        |m| record(m, 2, 0).causes = 1 << 15,
    ]);
}

#[test]
fn application_messages_that_dont_fit_the_receiver() {
    assert_broken(&[
        |m| m.interactions[1].application = None,
        |m| m.interactions[0].application = Some(Application { own: 0, data: 7 }),
    ]);
}

#[test]
fn phases_that_dont_fit_what_is_there() {
    assert_broken(&[
        |m| place(m, 1, 1, 0).copies[What::Record as usize] = 1,
        |m| place(m, 1, 2, 1).copies[What::Ack as usize] = 1,
        |m| place(m, 1, 1, 0).working.contents = Some(record(m, 1, 0).contents()),
        |m| place(m, 1, 2, 1).working.contents = Some(record(m, 2, 1).contents()),
        |m| place(m, 1, 1, 0).checkpointed.contents = Some(record(m, 1, 0).contents()),
        |m| place(m, 1, 2, 1).checkpointed.contents = Some(record(m, 2, 1).contents()),
        |m| place(m, 1, 1, 0).ack_owed = true,
        |m| place(m, 1, 2, 1).ack_owed = true,
        |m| place(m, 1, 0, 1).uack_owed = true,
        |m| place(m, 0, 1, 0).uack_owed = true,
        |m| m.side_mut(View::receiver(0)).repair = Some(REPAIR),
        |m| m.side_mut(View::receiver(0)).entry = Some(ENTRY),
        |m| place(m, 1, 0, 1).copies[What::Update as usize] = 1,
        |m| place(m, 1, 0, 1).copies[What::Uack as usize] = 1,
        |m| m.side_mut(View::sender(0)).entry = None,
        |m| record(m, 2, 0).phase = Phase::NotMade,
        |m| record(m, 0, 1).phase = Phase::NotMade,
    ]);
}

#[test]
fn queues_that_dont_fit_the_phases() {
    assert_broken(&[
        |m| m.actors[0].queue.clear(),
        |m| m.actors[0].queue.push(View::sender(2)),
        |m| m.actors[0].queue.push(View::sender(0)),
        |m| m.actors[0].queue.push(View::receiver(1)),
        |m| m.actors[0].queue.push(View::sender(3)),
        |m| m.actors[0].queue.push(View { key: 0, role: 2 }),
        |m| m.actors[1].queue.push(View::sender(2)),
        |m| m.actors[0].queue = vec![View::sender(2), View::sender(1)],
        |m| m.actors[1].queue.reverse(),
        |m| record(m, 1, 0).phase = Phase::Ready,
        |m| record(m, 2, 0).phase = Phase::Settled,
    ]);
}

/// What has to hold of the queues, with a search for each view.
fn queues_fit(machine: &Machine) -> bool {
    let stands = |actor: &Actor, view| actor.queue.iter().filter(|&&queued| queued == view).count();
    let fits = |view: View| {
        let record = machine.record(view);
        let own = stands(&machine.actors[usize::from(record.actor)], view);
        let anywhere: usize = machine.actors.iter().map(|actor| stands(actor, view)).sum();
        own == usize::from(record.waits()) && anywhere == own
    };
    let mut behind_heads = machine.actors.iter().flat_map(|actor| actor.queue.iter().skip(1));
    machine.views().all(fits)
        && behind_heads.all(|&view| machine.record(view).phase == Phase::Queued)
}

#[test]
fn one_pass_over_the_queues_finds_what_a_search_for_each_view_finds() {
    let mut random = Random::new(3);
    let mut found = [0; 2];
    for _ in 0..4000 {
        let mut machine = sound();
        for _ in 0..random.between(0, 3) {
            scramble(&mut machine, &mut random);
        }
        let fit = queues_fit(&machine);
        assert_eq!(machine.is_broken(), !fit, "{:?}", machine.actors);
        found[usize::from(fit)] += 1;
    }
    assert!(found.into_iter().all(|count| count > 100), "{found:?}");
}

/// Takes a view out of a queue or puts one in, anywhere.
fn scramble(machine: &mut Machine, random: &mut Random) {
    let view = View { key: random.below(3) as u8, role: random.below(2) as u8 };
    let queue = &mut machine.actors[random.below(2)].queue;
    let place = random.below(queue.len() + 1);
    if place < queue.len() && random.one_in(2) {
        queue.remove(place);
    } else {
        queue.insert(place, view);
    }
}

#[test]
fn what_is_odd_and_not_broken() {
    assert_sound(&[
        |m| m.interactions[1].application = Some(Application { own: 2, data: 99 }),
        |m| record(m, 0, 0).store = 1,
        |m| record(m, 2, 0).changed = true,
        |m| record(m, 2, 0).tries = 3,
        |m| record(m, 0, 0).tries = 3,
        |m| place(m, 2, 0, 0).working.contents = None,
        |m| m.side_mut(View::sender(0)).repair = Some(REPAIR),
        |m| place(m, 0, 2, 1).working.viewlink = Some(2),
        |m| m.side_mut(View::sender(0)).entry = Some(Entry { destination: 0, ..ENTRY }),
    ]);
}

#[test]
fn what_no_run_reaches_of_a_stores_two_states_is_sound() {
    assert_sound(&[
        // Down with notes, or with a working state unlike the checkpoint.
        |m| m.stores[1].up = false,
        |m| {
            m.stores[2].up = false;
            place(m, 2, 0, 0).checkpointed = Holding::default();
        },
        // Contents in the checkpoint that the working state lacks.
        |m| place(m, 2, 0, 0).working = Holding::default(),
        |m| place(m, 0, 0, 0).checkpointed.contents = Some(record(m, 0, 0).contents()),
        |m| place(m, 0, 2, 1).checkpointed.viewlink = Some(2),
        // A note without contents, or beside fifteen copies.
        |m| place(m, 0, 0, 0).ack_owed = true,
        |m| place(m, 2, 0, 0).uack_owed = true,
        |m| {
            place(m, 1, 0, 1).copies[What::Ack as usize] = 15;
            assert!(place(m, 1, 0, 1).ack_owed);
        },
    ]);
}

#[test]
fn a_checkpoint_can_erase_what_only_an_unreached_value_holds() {
    let mut machine = sound();
    place(&mut machine, 2, 0, 0).working = Holding::default();
    assert_eq!(machine.take(Step::Checkpoint { store: 2 }), Ok(()));
    assert_eq!(*machine.lasting(2, View::sender(0)), Holding::default());
}

#[test]
fn a_queue_in_another_order_than_its_views_age_is_sound() {
    let (mut machine, _) = run(&format!("{M}{S}{S}"));
    machine.actors[0].queue.reverse();
    assert!(!machine.is_broken());
}

#[test]
fn a_second_repair_of_one_view_replaces_its_entry() {
    let mut machine = sound();
    machine.side_mut(View::sender(0)).repair = Some(Repair { destination: 0, own: 1 });
    assert_eq!(machine.take(Step::TakeRepair { view: View::sender(0) }), Ok(()));
    let entry = Entry { destination: 0, own: 1, status: Status::ToSend };
    assert_eq!(machine.side(View::sender(0)).entry, Some(entry));
}
