//! Which steps of a kind a machine takes.

use crate::machine::{members, Machine, Phase, Record, Status, View, What, MAX_TRIES};
use crate::step::Step;

/// Every step of that kind that the machine takes; sends aside, which are too many to list, and
/// checkpoints, which a draft chooses by what is owed.
pub fn enabled(machine: &Machine, kind: u8) -> Vec<Step> {
    let is_up = |&(store, _): &(u8, View)| machine.is_up(store);
    match kind {
        2 => unreceived(machine).map(|key| Step::Receive { key }).collect(),
        3 => heads(machine, Phase::Queued).map(|actor| Step::PreCheck { actor }).collect(),
        4 => heads(machine, Phase::Ready).map(|actor| Step::SendRecord { actor }).collect(),
        5 => timeouts(machine),
        6 => copies(machine, What::Record)
            .filter(is_up)
            .map(|(store, view)| Step::TakeRecord { store, view })
            .collect(),
        7 => {
            copies(machine, What::Ack).map(|(store, view)| Step::TakeAck { store, view }).collect()
        }
        8 => heads(machine, Phase::Acknowledged).map(|actor| Step::PostCheck { actor }).collect(),
        9 => repairs(machine).map(|view| Step::TakeRepair { view }).collect(),
        10 => entries(machine, Status::ToSend).map(|view| Step::SendUpdate { view }).collect(),
        11 => copies(machine, What::Update)
            .filter(is_up)
            .map(|(store, view)| Step::TakeUpdate { store, view })
            .collect(),
        12 => copies(machine, What::Uack)
            .map(|(store, view)| Step::TakeUack { store, view })
            .collect(),
        13 => entries(machine, Status::Waiting)
            .map(|view| Step::CoordinatorTimeout { view })
            .collect(),
        14 => losses(machine),
        15 => stores(machine, true).map(|store| Step::Crash { store }).collect(),
        16 => stores(machine, false).map(|store| Step::Restart { store }).collect(),
        18 => duplicates(machine),
        _ => Vec::new(),
    }
}

fn unreceived(machine: &Machine) -> impl Iterator<Item = u8> + '_ {
    (0..machine.interaction_count)
        .filter(|&key| machine.record(View::receiver(key)).phase == Phase::NotMade)
}

/// The actors whose head is in that phase.
fn heads(machine: &Machine, phase: Phase) -> impl Iterator<Item = u8> + '_ {
    (0..machine.actor_count).filter(move |&actor| machine.head_in(actor, phase).is_some())
}

fn timeouts(machine: &Machine) -> Vec<Step> {
    let mut steps = Vec::new();
    for actor in heads(machine, Phase::Sent) {
        let head = machine.head(actor).map(|view| machine.record(view));
        let at = |record: &Record, store| record.store == store && record.tries == MAX_TRIES;
        let tried_out = |store| head.is_some_and(|record| at(record, store));
        let list = machine.actors[usize::from(actor)].list;
        let possible = members(list.into()).filter(|&store| !tried_out(store));
        steps.extend(possible.map(|store| Step::Timeout { actor, store }));
    }
    steps
}

/// Where a copy of that message is in flight.
pub fn copies(machine: &Machine, what: What) -> impl Iterator<Item = (u8, View)> + '_ {
    machine
        .views()
        .flat_map(|view| (0..machine.store_count).map(move |store| (store, view)))
        .filter(move |&(store, view)| machine.place(store, view).count(what) > 0)
}

fn losses(machine: &Machine) -> Vec<Step> {
    let lose = |what: What| {
        copies(machine, what).map(move |(store, view)| Step::Lose { what: what as u8, store, view })
    };
    What::ALL.into_iter().flat_map(lose).collect()
}

fn duplicates(machine: &Machine) -> Vec<Step> {
    let duplicate = |what: What| {
        let step = move |(store, view)| Step::Duplicate { what: what as u8, store, view };
        copies(machine, what).map(step)
    };
    What::ALL.into_iter().flat_map(duplicate).collect()
}

fn repairs(machine: &Machine) -> impl Iterator<Item = View> + '_ {
    machine.views().filter(|&view| machine.side(view).repair.is_some())
}

fn entries(machine: &Machine, status: Status) -> impl Iterator<Item = View> + '_ {
    machine
        .views()
        .filter(move |&view| machine.side(view).entry.is_some_and(|entry| entry.status == status))
}

fn stores(machine: &Machine, up: bool) -> impl Iterator<Item = u8> + '_ {
    (0..machine.store_count).filter(move |&store| machine.is_up(store) == up)
}
