//! The rules of the eighteen steps: the refusals in the order of their numbers, then the effect.
//!
//! A line marked `easy way N` is where the Nth of five easy ways to get a rule wrong
//! would go wrong, one marked `checkpoint N` where a store would promise what a crash takes away,
//! one marked `duplicate` where a sixteenth copy would be counted; `mutants.sh` breaks each of them
//! in turn.

use crate::machine::{
    members, Application, Entry, Machine, Phase, Place, Record, Repair, Side, Status, View, What,
    MAX_INTERACTIONS, MAX_TRIES,
};
use crate::refusal::Refusal;
use crate::step::Step;

type Taken = Result<(), Refusal>;

impl Machine {
    /// Takes one step, or says why not and changes nothing.
    pub fn take(&mut self, step: Step) -> Taken {
        Refusal::Broken.when(self.is_broken())?;
        self.take_unbroken(step)
    }

    /// The same where the machine is known not to be broken: no step breaks one.
    pub fn take_unbroken(&mut self, step: Step) -> Taken {
        match step {
            Step::Send { from, to, own, data, causes } => self.send(from, to, own, data, causes),
            Step::Receive { key } => self.receive(key),
            Step::PreCheck { actor } => self.pre_check(actor),
            Step::SendRecord { actor } => self.send_record(actor),
            Step::Timeout { actor, store } => self.timeout(actor, store),
            Step::TakeRecord { store, view } => self.take_record(store, view),
            Step::TakeAck { store, view } => self.take_ack(store, view),
            Step::PostCheck { actor } => self.post_check(actor),
            Step::TakeRepair { view } => self.take_repair(view),
            Step::SendUpdate { view } => self.send_update(view),
            Step::TakeUpdate { store, view } => self.take_update(store, view),
            Step::TakeUack { store, view } => self.take_uack(store, view),
            Step::CoordinatorTimeout { view } => self.coordinator_timeout(view),
            Step::Lose { what, store, view } => self.lose(what, store, view),
            Step::Crash { store } => self.crash(store),
            Step::Restart { store } => self.restart(store),
            Step::Checkpoint { store } => self.checkpoint(store),
            Step::Duplicate { what, store, view } => self.duplicate(what, store, view),
        }
    }

    /// Step 1. The application message is in flight, the sender's record joins the queue.
    fn send(&mut self, from: u8, to: u8, own: u8, data: u32, causes: u16) -> Taken {
        self.has_actor(from)?;
        self.has_actor(to)?;
        self.has_store(own)?;
        Refusal::ToItself.when(from == to)?;
        let key = self.interaction_count;
        Refusal::SixteenMade.when(usize::from(key) == MAX_INTERACTIONS)?;
        Refusal::NotListed.when(!self.lists(from, own))?;
        let received = members(causes).all(|cause| self.has_received(from, cause));
        Refusal::NotReceived.when(!received)?;

        let mut cause_links = [0; MAX_INTERACTIONS];
        for cause in members(causes) {
            cause_links[usize::from(cause)] = self.actors[usize::from(from)].home;
        }
        let viewlink = self.actors[usize::from(to)].home;
        self.interaction_count += 1;
        self.interactions[usize::from(key)].application = Some(Application { own, data });
        self.side_mut(View::receiver(key)).record.actor = to;
        let record = Record {
            actor: from,
            data,
            store: own,
            viewlink,
            causes,
            cause_links,
            ..Record::default()
        };
        self.join_queue(View::sender(key), record);
        Ok(())
    }

    /// Step 2. The receiver's record joins the queue, with own store and data as sent.
    fn receive(&mut self, key: u8) -> Taken {
        self.has_view(View::receiver(key))?;
        let message = self.interactions[usize::from(key)].application.take();
        let Application { own, data } = message.ok_or(Refusal::NotThere)?;

        let view = View::receiver(key);
        let actor = self.record(view).actor;
        let store = self.actors[usize::from(actor)].home;
        self.join_queue(view, Record { actor, data, store, viewlink: own, ..Record::default() });
        Ok(())
    }

    /// Step 3. Each cause link follows its receipt if that has moved.
    fn pre_check(&mut self, actor: u8) -> Taken {
        self.has_actor(actor)?;
        let view = self.head_in(actor, Phase::Queued).ok_or(Refusal::NotThere)?;

        let mut cause_links = self.record(view).cause_links;
        for cause in members(self.record(view).causes) {
            let receipt = self.record(View::receiver(cause));
            if receipt.changed {
                cause_links[usize::from(cause)] = receipt.store; // easy way 4
            }
        }
        let record = &mut self.side_mut(view).record;
        record.cause_links = cause_links;
        record.phase = Phase::Ready;
        Ok(())
    }

    /// Step 4. One record copy goes to the head's store.
    fn send_record(&mut self, actor: u8) -> Taken {
        self.has_actor(actor)?;
        let view = self.head_in(actor, Phase::Ready).ok_or(Refusal::NotThere)?;

        let record = &mut self.side_mut(view).record;
        record.phase = Phase::Sent;
        let store = record.store;
        self.place_mut(store, view).send(What::Record);
        Ok(())
    }

    /// Step 5. The head is sent again: to its store, three times at most, or to another of the list.
    fn timeout(&mut self, actor: u8, store: u8) -> Taken {
        self.has_actor(actor)?;
        self.has_store(store)?;
        let view = self.head_in(actor, Phase::Sent).ok_or(Refusal::NotThere)?;
        let current = self.record(view).store == store;
        let tried_out = current && self.record(view).tries == MAX_TRIES;
        Refusal::NotListed.when(tried_out || !self.lists(actor, store))?;

        let record = &mut self.side_mut(view).record;
        if current {
            record.tries += 1;
        } else {
            record.store = store;
            record.changed = true;
            record.tries = 0;
        }
        record.phase = Phase::Ready;
        Ok(())
    }

    /// Step 6. Contents and viewlink are each written only where there was none. The ack is owed
    /// until the checkpoint.
    fn take_record(&mut self, store: u8, view: View) -> Taken {
        self.has_store(store)?;
        self.has_view(view)?;
        Refusal::StoreDown.when(!self.is_up(store))?;
        self.place_mut(store, view).take(What::Record)?;

        let contents = self.record(view).contents();
        let viewlink = self.record(view).viewlink;
        let place = self.place_mut(store, view);
        place.working.contents.get_or_insert(contents);
        place.working.viewlink.get_or_insert(viewlink); // easy way 1
        place.ack_owed = true; // checkpoint 2
        Ok(())
    }

    /// Step 7. Only the ack of the current store, for a head that waits for one, counts.
    fn take_ack(&mut self, store: u8, view: View) -> Taken {
        self.has_store(store)?;
        self.has_view(view)?;
        self.place_mut(store, view).take(What::Ack)?;

        let record = self.record(view);
        let current = record.store == store; // easy way 5
        if current && self.head_in(record.actor, Phase::Sent) == Some(view) {
            self.side_mut(view).record.phase = Phase::Acknowledged;
        }
        Ok(())
    }

    /// Step 8. The head leaves the queue; if it moved, a repair goes off.
    fn post_check(&mut self, actor: u8) -> Taken {
        self.has_actor(actor)?;
        let view = self.head_in(actor, Phase::Acknowledged).ok_or(Refusal::NotThere)?;

        self.actors[usize::from(actor)].queue.remove(0);
        let Side { record, repair, .. } = self.side_mut(view);
        record.phase = Phase::Settled;
        if record.changed {
            *repair = Some(Repair { destination: record.viewlink, own: record.store });
        }
        Ok(())
    }

    /// Step 9. The second repair of an interaction sends both updates to where the other is now.
    fn take_repair(&mut self, view: View) -> Taken {
        self.has_view(view)?;
        let repair = self.side_mut(view).repair.take();
        let Repair { mut destination, own } = repair.ok_or(Refusal::NotThere)?;

        if let Some(other) = &mut self.side_mut(view.opposite()).entry {
            destination = other.own;
            other.destination = own; // easy way 3
            other.status = Status::ToSend;
        }
        self.side_mut(view).entry = Some(Entry { destination, own, status: Status::ToSend });
        Ok(())
    }

    /// Step 10. One update copy goes to the destination.
    fn send_update(&mut self, view: View) -> Taken {
        self.has_view(view)?;
        let entry = self.entry_in(view, Status::ToSend)?;

        entry.status = Status::Waiting;
        let destination = entry.destination;
        self.place_mut(destination, view).send(What::Update);
        Ok(())
    }

    /// Step 11. The opposite view's link there becomes the entry's own store, always. The uack is
    /// owed until the checkpoint.
    fn take_update(&mut self, store: u8, view: View) -> Taken {
        self.has_store(store)?;
        self.has_view(view)?;
        Refusal::StoreDown.when(!self.is_up(store))?;
        // Only a broken machine has an update in flight and no entry.
        let entry = self.side(view).entry.ok_or(Refusal::NotThere)?;
        self.place_mut(store, view).take(What::Update)?;

        self.place_mut(store, view.opposite()).working.viewlink = Some(entry.own);
        self.place_mut(store, view).uack_owed = true;
        Ok(())
    }

    /// Step 12. Only the uack of the present destination finishes an update.
    fn take_uack(&mut self, store: u8, view: View) -> Taken {
        self.has_store(store)?;
        self.has_view(view)?;
        self.place_mut(store, view).take(What::Uack)?;

        if let Ok(entry) = self.entry_in(view, Status::Waiting) {
            let present = entry.destination == store; // easy way 2
            if present {
                entry.status = Status::Done;
            }
        }
        Ok(())
    }

    /// Step 13. The update is to be sent again.
    fn coordinator_timeout(&mut self, view: View) -> Taken {
        self.has_view(view)?;
        self.entry_in(view, Status::Waiting)?.status = Status::ToSend;
        Ok(())
    }

    /// Step 14. One copy goes.
    fn lose(&mut self, what: u8, store: u8, view: View) -> Taken {
        let (place, what) = self.place_of_copy(what, store, view)?;
        place.take(what)
    }

    /// Step 15. The store goes down, and what it took since its last checkpoint is lost.
    fn crash(&mut self, store: u8) -> Taken {
        self.has_store(store)?;
        Refusal::StoreDown.when(!self.is_up(store))?;
        let store = &mut self.stores[usize::from(store)];
        store.up = false;
        store.places_mut().for_each(Place::throw_back); // checkpoint 1
        Ok(())
    }

    /// Step 16. It comes up as the crash left it.
    fn restart(&mut self, store: u8) -> Taken {
        self.has_store(store)?;
        Refusal::StoreUp.when(self.is_up(store))?;
        self.stores[usize::from(store)].up = true;
        Ok(())
    }

    /// Step 17. What the store took lasts from now on, and what it owes goes off.
    fn checkpoint(&mut self, store: u8) -> Taken {
        self.has_store(store)?;
        Refusal::StoreDown.when(!self.is_up(store))?;
        self.stores[usize::from(store)].places_mut().for_each(Place::checkpoint);
        Ok(())
    }

    /// Step 18. One more copy, up to fifteen.
    fn duplicate(&mut self, what: u8, store: u8, view: View) -> Taken {
        let (place, what) = self.place_of_copy(what, store, view)?;
        place.send(what); // duplicate
        Ok(())
    }

    fn join_queue(&mut self, view: View, record: Record) {
        self.actors[usize::from(record.actor)].queue.push(view);
        self.side_mut(view).record = Record { phase: Phase::Queued, ..record };
    }

    fn entry_in(&mut self, view: View, status: Status) -> Result<&mut Entry, Refusal> {
        let entry = self.side_mut(view).entry.as_mut();
        entry.filter(|entry| entry.status == status).ok_or(Refusal::NotThere)
    }

    /// The place that a step names, and the message of which a copy is in flight there.
    fn place_of_copy(
        &mut self,
        what: u8,
        store: u8,
        view: View,
    ) -> Result<(&mut Place, What), Refusal> {
        let what = *What::ALL.get(usize::from(what)).ok_or(Refusal::NotInMachine)?;
        self.has_store(store)?;
        self.has_view(view)?;
        let place = self.place_mut(store, view);
        Refusal::NotThere.when(place.count(what) == 0)?;
        Ok((place, what))
    }

    fn has_actor(&self, actor: u8) -> Taken {
        Refusal::NotInMachine.when(actor >= self.actor_count)
    }

    fn has_store(&self, store: u8) -> Taken {
        Refusal::NotInMachine.when(store >= self.store_count)
    }

    fn has_view(&self, view: View) -> Taken {
        Refusal::NotInMachine.when(view.key >= self.interaction_count || view.role > 1)
    }
}
