//! Books that aim at something that random legal steps seldom reach.
//!
//! A story adds only steps that are taken, but for sends and tries that are one too many. An interlude may take one of them away, so that a
//! story misses its aim in some books; the coverage shows that others reach it.

use super::draft::Draft;
use super::enabled::copies;
use crate::machine::{members, Phase, View, What, MAX_COPIES, MAX_TRIES};
use crate::step::Step;

impl Draft {
    /// More copies of one message than there can be in flight, then some legal steps.
    pub fn flood(&mut self, turn: u64) {
        let what = What::ALL[(turn % 4) as usize];
        let view = self.fresh_view();
        match what {
            What::Record | What::Ack => self.flood_from_actor(view, what),
            What::Update | What::Uack => self.flood_from_coordinator(view, what),
        }
        self.duplicate_where(what, |_, count| count == MAX_COPIES);
        let steps = self.random.between(0, 60);
        self.run(steps);
    }

    /// To and fro between two stores, so often that one gets a sixteenth copy.
    fn flood_from_actor(&mut self, view: View, what: What) {
        let actor = self.machine.record(view).actor;
        self.add_if_taken(Step::PreCheck { actor });
        let left = self.machine.record(view).store;
        let spare = self.other_store(actor, left);
        for _ in 0..=MAX_COPIES {
            for store in [spare, left] {
                self.add_if_taken(Step::SendRecord { actor });
                if what == What::Ack {
                    let current = self.machine.record(view).store;
                    self.add_if_taken(Step::TakeRecord { store: current, view });
                    self.add_if_taken(Step::Checkpoint { store: current });
                }
                self.add_if_taken(Step::Timeout { actor, store });
            }
        }
    }

    fn flood_from_coordinator(&mut self, view: View, what: What) {
        self.settle(view, Moved::Yes);
        self.add_if_taken(Step::TakeRepair { view });
        for _ in 0..=MAX_COPIES {
            self.add_if_taken(Step::SendUpdate { view });
            if what == What::Uack {
                self.take_update(view);
                self.checkpoint_destination(view);
            }
            self.add_if_taken(Step::CoordinatorTimeout { view });
        }
    }

    /// Both views move, so that both repairs go off, in either order; and the uack of the
    /// first update comes when its destination has been replaced, or is owed until then.
    pub fn both_repairs(&mut self) {
        self.interlude();
        let first = self.fresh_view();
        let second = first.opposite();
        self.add_if_taken(Step::Receive { key: first.key });
        self.settle(first, Moved::Yes);
        let both_in_flight = self.random.one_in(3);
        if both_in_flight {
            self.settle(second, Moved::Yes);
        }
        self.add_if_taken(Step::TakeRepair { view: first });
        self.add_if_taken(Step::SendUpdate { view: first });
        let replaced = self.machine.side(first).entry.map(|entry| entry.destination);
        self.take_update(first);
        let checkpoint_now = self.random.one_in(2);
        if checkpoint_now {
            self.checkpoint_destination(first);
        }
        self.interlude();
        self.settle(second, Moved::Yes);
        self.add_if_taken(Step::TakeRepair { view: second });
        self.interlude();
        self.add_if_taken(Step::SendUpdate { view: first });
        if let Some(store) = replaced {
            self.add_if_taken(Step::Checkpoint { store });
            self.add_if_taken(Step::TakeUack { store, view: first });
        }
        let steps = self.random.between(0, 40);
        self.run(steps);
    }

    /// An update writes a viewlink, and the record of that view comes to the store after it.
    pub fn late_record(&mut self) {
        self.interlude();
        let mover = self.fresh_view();
        self.settle(mover, Moved::Yes);
        self.add_if_taken(Step::TakeRepair { view: mover });
        self.add_if_taken(Step::SendUpdate { view: mover });
        self.take_update(mover);
        self.add_if_taken(Step::Receive { key: mover.key });
        self.settle(mover.opposite(), Moved::No);
        let steps = self.random.between(0, 40);
        self.run(steps);
    }

    /// A store takes a record, or an update, and crashes before its checkpoint, so that it comes
    /// back without it. The job moves on; the coordinator sends again.
    pub fn lost_before_checkpoint(&mut self) {
        self.interlude();
        let view = self.fresh_view();
        let actor = self.machine.record(view).actor;
        self.add_if_taken(Step::PreCheck { actor });
        self.add_if_taken(Step::SendRecord { actor });
        let store = self.machine.record(view).store;
        self.crash_after(Step::TakeRecord { store, view }, store);
        self.settle(view, Moved::Yes);
        self.add_if_taken(Step::TakeRepair { view });
        self.add_if_taken(Step::SendUpdate { view });
        if let Some(entry) = self.machine.side(view).entry {
            let store = entry.destination;
            self.crash_after(Step::TakeUpdate { store, view }, store);
            self.add_if_taken(Step::CoordinatorTimeout { view });
        }
        let steps = self.random.between(0, 40);
        self.run(steps);
    }

    /// The store is up, takes that step, and goes down.
    fn crash_after(&mut self, taking: Step, store: u8) {
        self.add_if_taken(Step::Restart { store });
        self.interlude();
        self.add_if_taken(taking);
        self.add_if_taken(Step::Crash { store });
        if self.random.one_in(2) {
            self.add_if_taken(Step::Restart { store });
        }
    }

    /// A broker that repeats everything once: whatever a step sends, it sends again.
    pub fn repeating_broker(&mut self) {
        let steps = self.random.between(10, 120);
        for _ in 0..steps {
            let before = self.machine.clone();
            self.run(1);
            for what in What::ALL {
                self.duplicate_where(what, |(store, view), count| {
                    count > before.place(store, view).count(what)
                });
            }
        }
    }

    /// Duplicates a message at each place, with that many copies of it, of which this holds.
    fn duplicate_where(&mut self, what: What, holds: impl Fn((u8, View), u8) -> bool) {
        let count = |(store, view)| self.machine.place(store, view).count(what);
        let places = copies(&self.machine, what).filter(|&at| holds(at, count(at)));
        for (store, view) in places.collect::<Vec<_>>() {
            self.add_if_taken(Step::Duplicate { what: what as u8, store, view });
        }
    }

    /// A chain of interactions, each with causes whose receipts move after it was sent.
    pub fn moved_receipts(&mut self) {
        self.lift_limit();
        let (mut from, mut to) = self.two_actors();
        let links = self.random.between(2, 6);
        for _ in 0..links {
            let key = self.send_with_all_causes(from, to);
            self.add_if_taken(Step::Receive { key });
            (from, to) = (to, self.actor_beside(to));
            let effect = self.send_with_all_causes(from, to);
            let moved = if self.random.one_in(4) { Moved::No } else { Moved::Yes };
            self.settle(View::receiver(key), moved);
            self.interlude();
            self.settle(View::sender(effect), Moved::No);
            self.add_if_taken(Step::Receive { key: effect });
            (from, to) = (to, self.actor_beside(to));
        }
        let steps = self.random.between(0, 40);
        self.run(steps);
    }

    /// A job that stays with its store until a try is refused, moves, and stays again.
    pub fn tries(&mut self) {
        self.interlude();
        let view = self.fresh_view();
        let actor = self.machine.record(view).actor;
        let stays = self.random.between(1, 3);
        for _ in 0..stays {
            self.stay(actor);
            if let Some(head) = self.machine.head_in(actor, Phase::Sent) {
                let store = self.other_store(actor, self.machine.record(head).store);
                self.add_if_taken(Step::Timeout { actor, store });
            }
        }
        let steps = self.random.between(0, 40);
        self.run(steps);
    }

    /// Names the current store of the actor's head once more than it may be named.
    fn stay(&mut self, actor: u8) {
        for _ in 0..=MAX_TRIES {
            self.add_if_taken(Step::PreCheck { actor });
            self.add_if_taken(Step::SendRecord { actor });
            let Some(view) = self.machine.head_in(actor, Phase::Sent) else { return };
            let store = self.machine.record(view).store;
            if self.random.one_in(4) {
                self.add_if_taken(Step::TakeRecord { store, view });
            }
            self.add(Step::Timeout { actor, store });
        }
    }

    /// Sixteen interactions and sends that come too late.
    pub fn sixteen(&mut self) {
        self.lift_limit();
        while self.machine.interaction_count < 16 {
            let (from, to) = self.two_actors();
            self.send_with_all_causes(from, to);
            let steps = self.random.between(0, 8);
            self.run(steps);
        }
        let (from, to) = self.two_actors();
        let late = self.send_between(from, to, 0);
        self.add(late);
        let to_itself = self.send_between(from, from, 0);
        self.add(to_itself);
        let steps = self.random.between(0, 60);
        self.run(steps);
    }

    /// Either view of a new interaction, the receiver's if it is received.
    fn fresh_view(&mut self) -> View {
        let (from, to) = self.two_actors();
        let key = self.send_with_all_causes(from, to);
        if self.random.one_in(2) {
            return View::sender(key);
        }
        self.add_if_taken(Step::Receive { key });
        View::receiver(key)
    }

    /// Sends with every cause that from has received. With sixteen made, the last key stands in.
    fn send_with_all_causes(&mut self, from: u8, to: u8) -> u8 {
        let received = |key: &u8| self.machine.has_received(from, *key);
        let keys = (0..self.machine.interaction_count).filter(received);
        let causes = keys.fold(0, |causes, key| causes | 1 << key);
        let step = self.send_between(from, to, causes);
        self.add_if_taken(step);
        self.machine.interaction_count - 1
    }

    pub fn actor_beside(&mut self, actor: u8) -> u8 {
        let actors = usize::from(self.machine.actor_count);
        ((usize::from(actor) + self.random.between(1, actors - 1)) % actors) as u8
    }

    fn other_store(&mut self, actor: u8, current: u8) -> u8 {
        let list = self.machine.actors[usize::from(actor)].list;
        let others: Vec<u8> = members(list.into()).filter(|&store| store != current).collect();
        self.random.pick(&others).expect("a list has two stores or more")
    }

    /// The update's destination takes it, restarted if need be.
    fn take_update(&mut self, view: View) {
        if let Some(entry) = self.machine.side(view).entry {
            let store = entry.destination;
            self.add_if_taken(Step::Restart { store });
            self.add_if_taken(Step::TakeUpdate { store, view });
        }
    }

    /// The update's destination sends what it owes.
    fn checkpoint_destination(&mut self, view: View) {
        if let Some(entry) = self.machine.side(view).entry {
            self.add_if_taken(Step::Checkpoint { store: entry.destination });
        }
    }

    /// Works off the queue of the view's actor until the view is settled, moved or not.
    fn settle(&mut self, view: View, moved: Moved) {
        let actor = self.machine.record(view).actor;
        while self.machine.record(view).waits() {
            let head = self.machine.head(actor).expect("a view that waits stands in the queue");
            let record = self.machine.record(head);
            let store = record.store;
            let must_move = head == view && moved == Moved::Yes && !record.changed;
            let step = match record.phase {
                Phase::Queued => Step::PreCheck { actor },
                Phase::Ready => Step::SendRecord { actor },
                Phase::Sent if must_move => {
                    Step::Timeout { actor, store: self.other_store(actor, store) }
                }
                Phase::Sent => self.towards_ack(actor, store, head),
                _ => Step::PostCheck { actor },
            };
            self.add_if_taken(step);
        }
    }

    fn towards_ack(&mut self, actor: u8, store: u8, view: View) -> Step {
        let place = self.machine.place(store, view);
        if place.count(What::Ack) > 0 {
            Step::TakeAck { store, view }
        } else if place.ack_owed {
            Step::Checkpoint { store }
        } else if place.count(What::Record) == 0 {
            Step::Timeout { actor, store: self.other_store(actor, store) }
        } else if self.machine.is_up(store) {
            Step::TakeRecord { store, view }
        } else {
            Step::Restart { store }
        }
    }
}

/// Whether a view is to be settled at another store than its first.
#[derive(Clone, Copy, PartialEq, Eq)]
enum Moved {
    Yes,
    No,
}
