//! The test for a broken machine value. The list of what is broken is complete: nothing else is.

use crate::machine::{
    contains, members, setup_is_legal, Actor, ActorSetup, Holding, Interaction, Machine, Phase,
    Place, Record, Store, View, What, MAX_ACTORS, MAX_COPIES, MAX_INTERACTIONS, MAX_TRIES,
};

impl Machine {
    /// Whether this value is none that the rules allow. The empty machine is allowed.
    pub fn is_broken(&self) -> bool {
        *self != Machine::default() && !self.is_sound()
    }

    fn is_sound(&self) -> bool {
        self.counts_are_sound()
            && self.unused_slots_are_blank()
            && (0..self.interaction_count).all(|key| self.interaction_is_sound(key))
            && self.views().all(|view| self.view_is_sound(view))
            && self.queues_are_sound()
    }

    fn counts_are_sound(&self) -> bool {
        let used = MAX_ACTORS.min(self.actor_count.into());
        let setup = |actor: &Actor| ActorSetup { home: actor.home, list: actor.list };
        let actors: Vec<ActorSetup> = self.actors[..used].iter().map(setup).collect();
        used == usize::from(self.actor_count)
            && setup_is_legal(self.store_count, &actors)
            && usize::from(self.interaction_count) <= MAX_INTERACTIONS
    }

    fn unused_slots_are_blank(&self) -> bool {
        let (stores, unused_stores) = self.stores.split_at(self.store_count.into());
        let unused_actors = &self.actors[self.actor_count.into()..];
        let unused_interactions = &self.interactions[self.interaction_count.into()..];
        unused_stores.iter().all(|store| *store == Store::default())
            && unused_actors.iter().all(|actor| *actor == Actor::default())
            && unused_interactions.iter().all(|unused| *unused == Interaction::default())
            && stores.iter().all(|store| self.unused_places_are_blank(store))
    }

    fn unused_places_are_blank(&self, store: &Store) -> bool {
        (self.interaction_count..MAX_INTERACTIONS as u8)
            .flat_map(|key| [View::sender(key), View::receiver(key)])
            .all(|view| *store.place(view) == Place::default())
    }

    /// Sender and receiver differ, and a message is in flight exactly until it is received.
    fn interaction_is_sound(&self, key: u8) -> bool {
        let receipt = self.record(View::receiver(key));
        let application = self.interactions[usize::from(key)].application;
        self.record(View::sender(key)).actor != receipt.actor
            && application.is_some() == (receipt.phase == Phase::NotMade)
            && application.is_none_or(|message| self.names_store(message.own))
    }

    fn view_is_sound(&self, view: View) -> bool {
        self.record_is_sound(view)
            && self.repair_is_sound(view)
            && (0..self.store_count).all(|store| self.place_is_sound(store, view))
    }

    fn record_is_sound(&self, view: View) -> bool {
        let record = self.record(view);
        let fits = match record.phase {
            // Only a receiver can be not made, and then just its actor is set.
            Phase::NotMade => {
                view.role == 1 && *record == Record { actor: record.actor, ..Record::default() }
            }
            _ => {
                record.tries <= MAX_TRIES
                    && self.names_store(record.store)
                    && self.names_store(record.viewlink)
                    && self.causes_are_sound(view)
            }
        };
        record.actor < self.actor_count && fits
    }

    /// Each cause is below its key and its link names a store; a receiver has no causes.
    fn causes_are_sound(&self, view: View) -> bool {
        let record = self.record(view);
        let links = (0..).zip(record.cause_links);
        let sound = |(cause, link): (u8, u8)| match contains(record.causes, cause) {
            true => self.names_store(link),
            false => link == 0,
        };
        let limit = if view.role == 0 { view.key } else { 0 };
        members(record.causes).all(|cause| cause < limit) && links.into_iter().all(sound)
    }

    /// Only a settled view has a repair or an entry.
    fn repair_is_sound(&self, view: View) -> bool {
        let side = self.side(view);
        let settled = side.record.phase == Phase::Settled;
        let names = |destination, own| self.names_store(destination) && self.names_store(own);
        side.repair.is_none_or(|repair| settled && names(repair.destination, repair.own))
            && side.entry.is_none_or(|entry| settled && names(entry.destination, entry.own))
    }

    fn place_is_sound(&self, store: u8, view: View) -> bool {
        let place = self.place(store, view);
        let record = self.record(view);
        let has_any = |one, other| place.count(one) > 0 || place.count(other) > 0;
        // An owed note counts as the copy that it stands for.
        let holds_none = states(place).all(|state| state.contents.is_none());
        let untouched = holds_none && !has_any(What::Record, What::Ack) && !place.ack_owed;
        let without_update = !has_any(What::Update, What::Uack) && !place.uack_owed;
        place.copies.iter().all(|&count| count <= MAX_COPIES)
            && (record.phase >= Phase::Ready || untouched)
            && (self.side(view).entry.is_some() || without_update)
            && states(place).all(|state| self.holding_is_sound(state, record))
    }

    fn holding_is_sound(&self, holding: &Holding, record: &Record) -> bool {
        holding.contents.as_ref().is_none_or(|contents| *contents == record.contents())
            && holding.viewlink.is_none_or(|link| self.names_store(link))
    }

    /// In the queues stand exactly the views in phases 1 to 4, each once. One pass marks the views
    /// met: a view has one actor, so one word of 32 bits serves all queues.
    fn queues_are_sound(&self) -> bool {
        let mut met = 0;
        for actor in 0..self.actor_count {
            let queue = &self.actors[usize::from(actor)].queue;
            for (place, &view) in queue.iter().enumerate() {
                if !self.stands_well(actor, view, place > 0) || met & mark(view) != 0 {
                    return false;
                }
                met |= mark(view);
            }
        }
        let waits = |view: &View| self.record(*view).waits();
        met == self.views().filter(waits).fold(0, |waiting, view| waiting | mark(view))
    }

    /// A view of this machine and of this actor, and in phase 1 if it is behind the head.
    fn stands_well(&self, actor: u8, view: View, behind_head: bool) -> bool {
        let is_made = view.key < self.interaction_count && view.role <= 1;
        is_made
            && self.record(view).actor == actor
            && (!behind_head || self.record(view).phase == Phase::Queued)
    }

    fn names_store(&self, store: u8) -> bool {
        store < self.store_count
    }
}

/// Both states are tested. Nothing is asked of how they differ, or of a store that is down.
fn states(place: &Place) -> impl Iterator<Item = &Holding> {
    [&place.working, &place.checkpointed].into_iter()
}

/// The bit of a view in a word that marks views.
fn mark(view: View) -> u32 {
    1 << (2 * view.key + view.role)
}
