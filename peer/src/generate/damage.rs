//! Books that are refused, in a step or as a whole.

use super::draft::Draft;
use crate::book::MAX_STEPS;
use crate::machine::{ActorSetup, Phase};
use crate::programs::MAX_INPUT;
use crate::step::{fields, Field, Step, KINDS};

impl Draft {
    /// Legal steps, and among them some that would be legal but for one field.
    pub fn near_misses(&mut self) {
        let steps = self.random.between(20, 120);
        for _ in 0..steps {
            match self.random.below(6) {
                0 => self.near_miss(),
                1 if self.random.one_in(4) => self.repeat(),
                2 if self.random.one_in(2) => self.try_again(),
                _ => self.run(1),
            }
        }
    }

    fn near_miss(&mut self) {
        let (kind, mut values) = self.legal_step().values();
        let place = self.random.below(values.len());
        let is_causes = fields(kind).is_some_and(|fields| fields[place] == Field::Causes);
        values[place] = match self.random.below(5) {
            _ if is_causes => values[place] ^ 1 << self.random.below(16),
            0 => values[place].wrapping_add(1),
            1 => values[place].wrapping_sub(1),
            2 => self.random.byte().into(),
            _ => self.random.below(9) as u32,
        };
        self.add(Step::from_values(kind, &values));
    }

    /// The current store of a view that is sent is named, also where that is a try too many.
    fn try_again(&mut self) {
        let actor = self.random.below(self.machine.actor_count.into()) as u8;
        if let Some(head) = self.machine.head_in(actor, Phase::Sent) {
            self.add(Step::Timeout { actor, store: self.machine.record(head).store });
        }
    }

    /// The step before once more.
    fn repeat(&mut self) {
        if let Some(&last) = self.book.steps.last() {
            self.add(last);
        }
    }

    /// Any kind with any fields, with legal steps between so that there is something to hit.
    pub fn wild(&mut self) {
        let steps = self.random.between(10, 120);
        for _ in 0..steps {
            if self.random.one_in(2) {
                self.run(1);
            } else {
                let step = self.any_step();
                self.add(step);
            }
        }
    }

    fn any_step(&mut self) -> Step {
        let kind = self.random.between(1, KINDS.into()) as u8;
        let limit = if self.random.one_in(8) { 1 << 32 } else { 4 };
        let fields = fields(kind).unwrap_or_default();
        let values: Vec<u32> = fields.iter().map(|_| self.random.below(limit) as u32).collect();
        Step::from_values(kind, &values)
    }

    /// A few steps on a setup that is illegal, mostly in one respect.
    pub fn illegal_setup(&mut self) {
        let steps = self.random.between(0, 10);
        self.run(steps);
        let stores = self.book.stores;
        let actor = self.random.below(self.book.actors.len());
        match self.random.below(8) {
            0 => self.book.stores = [0, 1, 9, 255][self.random.below(4)],
            1 => self.book.actors.truncate(self.random.below(2)),
            2 => self.add_actors(),
            3 => self.book.actors[actor].home = stores,
            4 => self.book.actors[actor].home = self.random.byte(),
            5 => self.book.actors[actor].list ^= 1 << self.book.actors[actor].home,
            6 => self.book.actors[actor].list = 1 << self.book.actors[actor].home,
            _ => self.book.actors[actor].list |= 0x80,
        }
    }

    fn add_actors(&mut self) {
        let count = [9, 10, 200, 255][self.random.below(4)];
        self.book.actors.resize(count, ActorSetup { home: 0, list: 3 });
    }

    /// The bytes of a legal run, no longer what they were.
    pub fn damaged(mut self) -> Vec<u8> {
        let steps = self.random.between(0, 30);
        self.run(steps);
        let random = &mut self.random;
        let mut bytes = self.book.bytes();
        let place = random.below(bytes.len());
        match random.below(16) {
            0..=3 => bytes.truncate(place),
            4..=6 => bytes.extend((0..random.between(1, 12)).map(|_| random.byte())),
            7..=10 => bytes[place] ^= 1 << random.below(8),
            11 => bytes[place] = random.byte(),
            12 | 13 => drop(bytes.remove(place)),
            14 => bytes.insert(place, random.byte()),
            _ => return self.beyond_a_limit(),
        }
        bytes
    }

    /// One step, or one byte of input, too many; or just not.
    fn beyond_a_limit(mut self) -> Vec<u8> {
        if self.random.one_in(2) {
            let steps = self.random.between(MAX_STEPS, MAX_STEPS + 1);
            self.book.steps.resize(steps, Step::Crash { store: 0 });
            return self.book.bytes();
        }
        let mut bytes = self.book.bytes();
        bytes.resize(self.random.between(MAX_INPUT, MAX_INPUT + 1), 0);
        bytes
    }
}
