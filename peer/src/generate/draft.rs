//! A book in the making, with the machine that it has led to so far.

use super::enabled::enabled;
use super::pairs::any_word;
use crate::book::{Book, MAX_STEPS};
use crate::machine::{
    members, ActorSetup, Machine, Place, MAX_ACTORS, MAX_INTERACTIONS, MAX_STORES,
};
use crate::random::Random;
use crate::step::{Step, KINDS};

pub struct Draft {
    pub random: Random,
    pub machine: Machine,
    pub book: Book,
    temper: Temper,
    /// What a send's data is drawn by.
    data: fn(&mut Random) -> u32,
}

/// How often each kind is picked, how many interactions are made at most, and how many of four
/// steps go towards the end.
struct Temper {
    weights: [usize; KINDS as usize],
    interactions: usize,
    diligence: usize,
}

impl Draft {
    /// An empty book on a random legal setup.
    pub fn new(random: Random) -> Draft {
        Draft::with_actors(2, random, any_data)
    }

    /// The same for a book about pairs, which needs a third actor.
    pub fn about_pairs(random: Random) -> Draft {
        Draft::with_actors(3, random, any_word)
    }

    fn with_actors(least: usize, mut random: Random, data: fn(&mut Random) -> u32) -> Draft {
        let (stores, actors) = setup(&mut random, least);
        let machine = Machine::setup(stores, &actors).expect("the setup is legal");
        let temper = Temper::new(&mut random);
        let book = Book { stores, actors, steps: Vec::new() };
        Draft { random, machine, book, temper, data }
    }

    /// Adds the step if the machine takes it.
    pub fn add_if_taken(&mut self, step: Step) {
        if self.machine.take(step).is_ok() {
            self.book.steps.push(step);
        }
    }

    /// Adds the step, taken or refused.
    pub fn add(&mut self, step: Step) {
        // A refusal is what the caller is after, and the machine is as it was.
        let _ = self.machine.take(step);
        self.book.steps.push(step);
    }

    /// A run of legal steps; now and then one of the longest that a book can hold.
    pub fn run_of_random_length(&mut self) {
        let longest = self.random.one_in(100);
        let steps = if longest { MAX_STEPS } else { self.random.between(20, 240) };
        self.run(steps);
    }

    /// Adds so many legal steps, picked as the temper has it.
    pub fn run(&mut self, steps: usize) {
        for _ in 0..steps {
            let step = self.next_of_drain().unwrap_or_else(|| self.legal_step());
            self.add_if_taken(step);
        }
    }

    /// Now and then the step that a drain would take, so that much gets closed.
    fn next_of_drain(&mut self) -> Option<Step> {
        let is_taken = |step: &Step| self.machine.clone().take(*step).is_ok();
        let diligent = self.random.below(4) < self.temper.diligence;
        diligent.then(|| self.machine.next_of_drain().filter(is_taken)).flatten()
    }

    /// Restarts every store and adds the drain's steps, so that nothing stays open.
    pub fn close(&mut self) {
        for store in 0..self.machine.store_count {
            self.add_if_taken(Step::Restart { store });
        }
        while let Some(step) = self.machine.next_of_drain() {
            self.add(step);
        }
    }

    /// A few legal steps, so that a story isn't told the same way twice.
    pub fn interlude(&mut self) {
        if self.random.one_in(3) {
            let steps = self.random.between(1, 4);
            self.run(steps);
        }
    }

    /// A step that the machine takes. There is one always: a crash or a restart.
    pub fn legal_step(&mut self) -> Step {
        loop {
            let kind = self.temper.kind(&mut self.random);
            let step = match kind {
                1 if usize::from(self.machine.interaction_count) >= self.temper.interactions => {
                    None
                }
                1 => Some(self.legal_send()),
                17 => self.legal_checkpoint(),
                _ => self.random.pick(&enabled(&self.machine, kind)),
            };
            if let Some(step) = step {
                return step;
            }
        }
    }

    /// A checkpoint, mostly of a store that owes something, so that acks flow.
    fn legal_checkpoint(&mut self) -> Option<Step> {
        let owing = |store: &u8| self.machine.stores[usize::from(*store)].places().any(Place::owes);
        let up = (0..self.machine.store_count).filter(|&store| self.machine.is_up(store));
        let idle_too = self.random.one_in(16);
        let stores: Vec<u8> = up.filter(|store| idle_too || owing(store)).collect();
        self.random.pick(&stores).map(|store| Step::Checkpoint { store })
    }

    fn legal_send(&mut self) -> Step {
        let (from, to) = self.two_actors();
        let received = |cause: &u8| self.machine.has_received(from, *cause);
        let possible = (0..self.machine.interaction_count).filter(received);
        let causes = possible.fold(0, |causes, cause| causes | 1 << cause);
        let thinned =
            if self.random.one_in(2) { causes } else { causes & self.random.bits() as u16 };
        self.send_between(from, to, thinned)
    }

    /// A legal send with a random own store and data.
    pub fn send_between(&mut self, from: u8, to: u8, causes: u16) -> Step {
        let list = self.machine.actors[usize::from(from)].list;
        let listed: Vec<u8> = members(list.into()).collect();
        let own = self.random.pick(&listed).expect("a list has two stores or more");
        let data = (self.data)(&mut self.random);
        Step::Send { from, to, own, data, causes }
    }

    pub fn two_actors(&mut self) -> (u8, u8) {
        let actors = usize::from(self.machine.actor_count);
        let from = self.random.below(actors);
        let to = (from + self.random.between(1, actors - 1)) % actors;
        (from as u8, to as u8)
    }

    /// Lets this draft make as many interactions as a machine holds.
    pub fn lift_limit(&mut self) {
        self.temper.interactions = MAX_INTERACTIONS;
    }
}

fn any_data(random: &mut Random) -> u32 {
    match random.one_in(4) {
        true => random.bits() as u32,
        false => random.below(100) as u32,
    }
}

/// Mostly a few stores and actors, so that the steps meet each other.
fn setup(random: &mut Random, least_actors: usize) -> (u8, Vec<ActorSetup>) {
    let most_stores = if random.one_in(4) { MAX_STORES } else { 4 };
    let most_actors = if random.one_in(4) { MAX_ACTORS } else { 3 };
    let stores = random.between(2, most_stores);
    let actors = random.between(least_actors, most_actors);
    let actors = (0..actors).map(|_| actor_setup(random, stores)).collect();
    (stores as u8, actors)
}

fn actor_setup(random: &mut Random, stores: usize) -> ActorSetup {
    let home = random.below(stores);
    let other = (home + random.between(1, stores - 1)) % stores;
    let more = random.byte() & random.byte() & ((1u16 << stores) - 1) as u8;
    ActorSetup { home: home as u8, list: 1 << home | 1 << other | more }
}

impl Temper {
    fn new(random: &mut Random) -> Temper {
        let mut weights = [6, 6, 8, 8, 0, 9, 9, 9, 6, 8, 8, 8, 0, 0, 0, 4, 0, 0];
        let often = |kind: usize| kind - 1;
        weights[often(5)] = [1, 3, 9][random.below(3)];
        weights[often(13)] = [1, 4][random.below(2)];
        weights[often(14)] = [0, 2, 6][random.below(3)];
        // Never zero: with every store up, a crash may be the only legal step left.
        weights[often(15)] = [1, 1, 3][random.below(3)];
        weights[often(17)] = [4, 9, 18][random.below(3)];
        weights[often(18)] = [0, 3, 8][random.below(3)];
        let interactions = random.between(1, MAX_INTERACTIONS);
        Temper { weights, interactions, diligence: random.below(4) }
    }

    fn kind(&self, random: &mut Random) -> u8 {
        let mut drawn = random.below(self.weights.iter().sum());
        for (kind, &weight) in (1..).zip(&self.weights) {
            if drawn < weight {
                return kind;
            }
            drawn -= weight;
        }
        unreachable!("the draw is below the sum of the weights")
    }
}
