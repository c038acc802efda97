//! The drain: the steps that close every interaction, taken one after another.

use crate::machine::{members, Machine, Phase, Status, View, What};
use crate::refusal::Refusal;
use crate::step::Step;

/// The drain stops after so many steps for each interaction.
const STEPS_PER_INTERACTION: usize = 22;

impl Machine {
    /// Takes steps until none applies, and hands back how many.
    pub fn drain(&mut self) -> Result<usize, Refusal> {
        Refusal::Broken.when(self.is_broken())?;
        let any_down = (0..self.store_count).any(|store| !self.is_up(store));
        Refusal::StoreDown.when(any_down)?;

        let limit = STEPS_PER_INTERACTION * usize::from(self.interaction_count);
        for count in 0..limit {
            let Some(step) = self.next_of_drain() else { return Ok(count) };
            self.take_unbroken(step).expect("the drain picks a step that its rule allows");
        }
        Ok(limit)
    }

    /// The first step that applies, in the order (a) to (d).
    pub fn next_of_drain(&self) -> Option<Step> {
        self.next_receipt()
            .or_else(|| self.next_of_queues())
            .or_else(|| self.next_repair())
            .or_else(|| self.next_of_entries())
    }

    /// (a) The lowest unreceived key.
    fn next_receipt(&self) -> Option<Step> {
        (0..self.interaction_count)
            .find(|&key| self.record(View::receiver(key)).phase == Phase::NotMade)
            .map(|key| Step::Receive { key })
    }

    /// (b) The lowest actor with a queue, as its head's phase asks.
    fn next_of_queues(&self) -> Option<Step> {
        let actor = (0..self.actor_count).find(|&actor| self.head(actor).is_some())?;
        let view = self.head(actor)?;
        match self.record(view).phase {
            Phase::Queued => Some(Step::PreCheck { actor }),
            Phase::Ready => Some(Step::SendRecord { actor }),
            Phase::Sent => Some(self.next_of_sent(actor, view)),
            Phase::Acknowledged => Some(Step::PostCheck { actor }),
            Phase::NotMade | Phase::Settled => unreachable!("such a view stands in no queue"),
        }
    }

    /// An ack from the current store, else its checkpoint if an ack is owed, else a record there,
    /// else the lowest other store.
    fn next_of_sent(&self, actor: u8, view: View) -> Step {
        let store = self.record(view).store;
        let place = self.place(store, view);
        if place.count(What::Ack) > 0 {
            return Step::TakeAck { store, view };
        }
        if place.ack_owed {
            return Step::Checkpoint { store };
        }
        if place.count(What::Record) > 0 {
            return Step::TakeRecord { store, view };
        }
        let list = self.actors[usize::from(actor)].list;
        let other = members(list.into()).find(|&listed| listed != store);
        Step::Timeout { actor, store: other.expect("a list has two stores or more") }
    }

    /// (c) The lowest repair in flight.
    fn next_repair(&self) -> Option<Step> {
        self.views()
            .find(|&view| self.side(view).repair.is_some())
            .map(|view| Step::TakeRepair { view })
    }

    /// (d) The lowest view whose update isn't done.
    fn next_of_entries(&self) -> Option<Step> {
        self.views().find_map(|view| {
            let entry = self.side(view).entry?;
            match entry.status {
                Status::ToSend => Some(Step::SendUpdate { view }),
                Status::Waiting => Some(self.next_of_waiting(entry.destination, view)),
                Status::Done => None,
            }
        })
    }

    /// A uack from the destination, else its checkpoint if a uack is owed, else an update there,
    /// else a coordinator timeout.
    fn next_of_waiting(&self, destination: u8, view: View) -> Step {
        let place = self.place(destination, view);
        if place.count(What::Uack) > 0 {
            Step::TakeUack { store: destination, view }
        } else if place.uack_owed {
            Step::Checkpoint { store: destination }
        } else if place.count(What::Update) > 0 {
            Step::TakeUpdate { store: destination, view }
        } else {
            Step::CoordinatorTimeout { view }
        }
    }
}
