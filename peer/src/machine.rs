//! The machine: what views, stores, actors and the coordinator hold, and what is in flight.
//!
//! Every slot is there from the start and blank until it is used, so that a broken machine
//! value can be written down as it is. Nothings are `None`.

use std::mem;

use crate::refusal::Refusal;

pub const MAX_STORES: usize = 8;
pub const MAX_ACTORS: usize = 8;
pub const MAX_INTERACTIONS: usize = 16;

/// So many copies of one message are in flight at one place at most.
pub const MAX_COPIES: u8 = 15;

/// So often a job tries its current store again before it has to leave it.
pub const MAX_TRIES: u8 = 3;

/// One view of an interaction: role 0 is the sender's, role 1 the receiver's.
#[derive(Clone, Copy, PartialEq, Eq, Debug)]
pub struct View {
    pub key: u8,
    pub role: u8,
}

impl View {
    pub fn sender(key: u8) -> View {
        View { key, role: 0 }
    }

    pub fn receiver(key: u8) -> View {
        View { key, role: 1 }
    }

    pub fn opposite(self) -> View {
        View { key: self.key, role: 1 - self.role }
    }
}

#[derive(Clone, Copy, PartialEq, Eq, PartialOrd, Ord, Debug, Default)]
#[repr(u8)]
pub enum Phase {
    #[default]
    NotMade = 0,
    Queued = 1,
    Ready = 2,
    Sent = 3,
    Acknowledged = 4,
    Settled = 5,
}

/// What an actor records of its view.
#[derive(Clone, PartialEq, Eq, Debug, Default)]
pub struct Record {
    pub actor: u8,
    pub data: u32,
    pub store: u8,
    pub viewlink: u8,
    pub changed: bool,
    /// How often a timeout named the current store since the view came there.
    pub tries: u8,
    pub phase: Phase,
    pub causes: u16,
    pub cause_links: [u8; MAX_INTERACTIONS],
}

impl Record {
    /// Whether the view stands in its actor's queue.
    pub fn waits(&self) -> bool {
        (Phase::Queued..=Phase::Acknowledged).contains(&self.phase)
    }

    /// What a store writes down of this record, its viewlink aside.
    pub fn contents(&self) -> Contents {
        Contents {
            asserter: self.actor,
            data: self.data,
            causes: self.causes,
            cause_links: self.cause_links,
        }
    }
}

/// What a store holds of a view, its viewlink aside.
#[derive(Clone, PartialEq, Eq, Debug)]
pub struct Contents {
    pub asserter: u8,
    pub data: u32,
    pub causes: u16,
    pub cause_links: [u8; MAX_INTERACTIONS],
}

/// The four messages that can be lost and repeated.
#[derive(Clone, Copy, PartialEq, Eq, Debug)]
#[repr(u8)]
pub enum What {
    Record = 0,
    Ack = 1,
    Update = 2,
    Uack = 3,
}

impl What {
    pub const ALL: [What; 4] = [What::Record, What::Ack, What::Update, What::Uack];
}

/// What a store holds for a view: nothing or contents, and beside it a viewlink or none.
#[derive(Clone, PartialEq, Eq, Debug, Default)]
pub struct Holding {
    pub contents: Option<Contents>,
    pub viewlink: Option<u8>,
}

/// One store's side of one view: what it holds and owes, and the copies on their way to or from it.
#[derive(Clone, PartialEq, Eq, Debug, Default)]
pub struct Place {
    pub working: Holding,
    pub checkpointed: Holding,
    /// Notes of an ack and of a uack that go off at the next checkpoint.
    pub ack_owed: bool,
    pub uack_owed: bool,
    pub copies: [u8; What::ALL.len()],
}

impl Place {
    pub fn count(&self, what: What) -> u8 {
        self.copies[what as usize]
    }

    /// Sends one copy. Copies at one place are alike, so a sixteenth is lost.
    pub fn send(&mut self, what: What) {
        let count = &mut self.copies[what as usize];
        *count = MAX_COPIES.min(*count + 1);
    }

    /// Takes one copy out of flight, or refuses if there is none.
    pub fn take(&mut self, what: What) -> Result<(), Refusal> {
        let count = &mut self.copies[what as usize];
        *count = count.checked_sub(1).ok_or(Refusal::NotThere)?;
        Ok(())
    }

    pub fn owes(&self) -> bool {
        self.ack_owed || self.uack_owed
    }

    /// The working state becomes the checkpointed one, and one copy goes off for each owed note.
    pub fn checkpoint(&mut self) {
        self.checkpointed = self.working.clone();
        if mem::take(&mut self.ack_owed) {
            self.send(What::Ack);
        }
        if mem::take(&mut self.uack_owed) {
            self.send(What::Uack);
        }
    }

    /// A crash throws back to the checkpoint and drops the notes. Copies in flight stay.
    pub fn throw_back(&mut self) {
        self.working = self.checkpointed.clone();
        self.ack_owed = false;
        self.uack_owed = false;
    }
}

#[derive(Clone, PartialEq, Eq, Debug, Default)]
pub struct Store {
    pub up: bool,
    places: [[Place; 2]; MAX_INTERACTIONS],
}

/// An actor's stores, and its views in phases 1 to 4, oldest first.
#[derive(Clone, PartialEq, Eq, Debug, Default)]
pub struct Actor {
    pub home: u8,
    pub list: u8,
    pub queue: Vec<View>,
}

/// An application message in flight.
#[derive(Clone, Copy, PartialEq, Eq, Debug)]
pub struct Application {
    pub own: u8,
    pub data: u32,
}

/// A repair in flight.
#[derive(Clone, Copy, PartialEq, Eq, Debug)]
pub struct Repair {
    pub destination: u8,
    pub own: u8,
}

#[derive(Clone, Copy, PartialEq, Eq, Debug)]
#[repr(u8)]
pub enum Status {
    ToSend = 0,
    Waiting = 1,
    Done = 2,
}

/// The coordinator's state for a view.
#[derive(Clone, Copy, PartialEq, Eq, Debug)]
pub struct Entry {
    pub destination: u8,
    pub own: u8,
    pub status: Status,
}

/// A view's record with its repair in flight and its entry at the coordinator.
#[derive(Clone, PartialEq, Eq, Debug, Default)]
pub struct Side {
    pub record: Record,
    pub repair: Option<Repair>,
    pub entry: Option<Entry>,
}

#[derive(Clone, PartialEq, Eq, Debug, Default)]
pub struct Interaction {
    pub application: Option<Application>,
    sides: [Side; 2],
}

/// The home and the list that a setup gives to an actor.
#[derive(Clone, Copy, PartialEq, Eq, Debug)]
pub struct ActorSetup {
    pub home: u8,
    pub list: u8,
}

impl ActorSetup {
    fn is_legal(&self, stores: u8) -> bool {
        self.home < stores
            && members(self.list.into()).all(|store| store < stores)
            && contains(self.list.into(), self.home)
            && self.list.count_ones() >= 2
    }
}

/// Which setups are legal.
pub fn setup_is_legal(stores: u8, actors: &[ActorSetup]) -> bool {
    (2..=MAX_STORES).contains(&stores.into())
        && (2..=MAX_ACTORS).contains(&actors.len())
        && actors.iter().all(|actor| actor.is_legal(stores))
}

/// A whole machine. The default is the empty one.
#[derive(Clone, PartialEq, Eq, Debug, Default)]
pub struct Machine {
    pub store_count: u8,
    pub actor_count: u8,
    pub interaction_count: u8,
    pub stores: [Store; MAX_STORES],
    pub actors: [Actor; MAX_ACTORS],
    pub interactions: [Interaction; MAX_INTERACTIONS],
}

impl Machine {
    /// A fresh machine: every store up, nothing sent yet.
    pub fn setup(stores: u8, actors: &[ActorSetup]) -> Result<Machine, Refusal> {
        Refusal::IllegalSetup.when(!setup_is_legal(stores, actors))?;
        let mut machine =
            Machine { store_count: stores, actor_count: actors.len() as u8, ..Machine::default() };
        for store in &mut machine.stores[..stores.into()] {
            store.up = true;
        }
        for (actor, given) in machine.actors.iter_mut().zip(actors) {
            actor.home = given.home;
            actor.list = given.list;
        }
        Ok(machine)
    }

    pub fn side(&self, view: View) -> &Side {
        &self.interactions[usize::from(view.key)].sides[usize::from(view.role)]
    }

    pub fn side_mut(&mut self, view: View) -> &mut Side {
        &mut self.interactions[usize::from(view.key)].sides[usize::from(view.role)]
    }

    pub fn record(&self, view: View) -> &Record {
        &self.side(view).record
    }

    pub fn place(&self, store: u8, view: View) -> &Place {
        self.stores[usize::from(store)].place(view)
    }

    pub fn place_mut(&mut self, store: u8, view: View) -> &mut Place {
        let places = &mut self.stores[usize::from(store)].places;
        &mut places[usize::from(view.key)][usize::from(view.role)]
    }

    /// What lasts in a store: its checkpointed state, of which walk and listing speak.
    pub fn lasting(&self, store: u8, view: View) -> &Holding {
        &self.place(store, view).checkpointed
    }

    pub fn is_up(&self, store: u8) -> bool {
        self.stores[usize::from(store)].up
    }

    /// The actor's oldest view that isn't settled.
    pub fn head(&self, actor: u8) -> Option<View> {
        self.actors[usize::from(actor)].queue.first().copied()
    }

    /// The actor's head if it is in that phase.
    pub fn head_in(&self, actor: u8, phase: Phase) -> Option<View> {
        self.head(actor).filter(|&view| self.record(view).phase == phase)
    }

    pub fn lists(&self, actor: u8, store: u8) -> bool {
        contains(self.actors[usize::from(actor)].list.into(), store)
    }

    /// Whether this actor is that interaction's receiver and has received it.
    pub fn has_received(&self, actor: u8, key: u8) -> bool {
        let receipt = || self.record(View::receiver(key));
        key < self.interaction_count && receipt().actor == actor && receipt().phase >= Phase::Queued
    }

    /// Every view that is made or will be, key rising, sender first.
    pub fn views(&self) -> impl Iterator<Item = View> {
        (0..self.interaction_count).flat_map(|key| [View::sender(key), View::receiver(key)])
    }

    /// Both views settled, no repair in flight, and no entry to-send or waiting.
    pub fn is_closed(&self, key: u8) -> bool {
        [View::sender(key), View::receiver(key)].into_iter().map(|view| self.side(view)).all(
            |side| {
                side.record.phase == Phase::Settled
                    && side.repair.is_none()
                    && side.entry.is_none_or(|entry| entry.status == Status::Done)
            },
        )
    }
}

impl Store {
    pub fn place(&self, view: View) -> &Place {
        &self.places[usize::from(view.key)][usize::from(view.role)]
    }

    pub fn places(&self) -> impl Iterator<Item = &Place> {
        self.places.iter().flatten()
    }

    pub fn places_mut(&mut self) -> impl Iterator<Item = &mut Place> {
        self.places.iter_mut().flatten()
    }
}

/// The numbers in a set that is given as bits, rising.
pub fn members(bits: u16) -> impl Iterator<Item = u8> {
    (0..16).filter(move |&number| contains(bits, number))
}

pub fn contains(bits: u16, number: u8) -> bool {
    number < 16 && bits >> number & 1 == 1
}
