//! The books that are measured, each made by trying steps on the peer's machine.

use peer::book::{Book, MAX_STEPS};
use peer::machine::{ActorSetup, Machine, Phase, Status, View};
use peer::random::Random;
use peer::step::{Step, KINDS};

/// The data word of every send.
const DATA: u32 = 7;

/// A book as it is written, with the peer's machine after its steps.
pub struct Draft {
    book: Book,
    machine: Machine,
    random: Random,
    /// So many interactions are made at most.
    most: u8,
    /// One in so many of the steps that bring something to rest is taken.
    restless: usize,
}

impl Draft {
    /// Eight stores and eight actors, each with a home of its own and every store in its list.
    fn new(seed: u64) -> Draft {
        let actors: Vec<_> = (0..8).map(|home| ActorSetup { home, list: 0xff }).collect();
        let machine = Machine::setup(8, &actors).expect("the setup is legal");
        let book = Book { stores: 8, actors, steps: Vec::new() };
        Draft { book, machine, random: Random::new(seed), most: 16, restless: 60 }
    }

    pub fn bytes(&self) -> Vec<u8> {
        self.book.bytes()
    }

    pub fn machine(&self) -> &Machine {
        &self.machine
    }

    /// Adds a step, which the machine takes or refuses.
    fn add(&mut self, step: Step) {
        let _ = self.machine.take_unbroken(step);
        self.book.steps.push(step);
    }

    /// A step of a kind whose fields are in the machine, or nearly so.
    fn any(&mut self, kind: u8) -> Step {
        let mut below = |limit| self.random.below(limit) as u32;
        let values = match kind {
            1 => vec![below(8), below(8), below(8), DATA, below(2) << below(8)],
            2 => vec![below(16)],
            3 | 4 | 8 | 15 | 16 | 17 => vec![below(8)],
            5 => vec![below(8), below(8)],
            6 | 7 | 11 | 12 => vec![below(8), below(16), below(2)],
            9 | 10 | 13 => vec![below(16), below(2)],
            _ => vec![below(4), below(8), below(16), below(2)],
        };
        Step::from_values(kind, &values)
    }

    /// Takes a step of a kind, where some tries find one that the machine takes. Few of those that
    /// bring something to rest are tried, or soon there would be nothing left to do.
    fn take(&mut self, kind: u8) -> Option<Step> {
        (0..200).find_map(|_| {
            let step = self.any(kind);
            let due = !self.ends(step) || self.random.one_in(self.restless);
            (due && self.machine.take_unbroken(step).is_ok()).then_some(step)
        })
    }

    /// Whether the step, if it is taken, brings its view or its entry to rest.
    fn ends(&self, step: Step) -> bool {
        match step {
            Step::TakeAck { store, view } => {
                let record = self.machine.record(view);
                record.store == store
                    && self.machine.head_in(record.actor, Phase::Sent) == Some(view)
            }
            Step::TakeUack { store, view } => {
                let entry = self.machine.side(view).entry;
                entry.is_some_and(|entry| {
                    entry.destination == store && entry.status == Status::Waiting
                })
            }
            _ => false,
        }
    }

    /// The steps that close every interaction, with no message lost.
    fn close(&mut self) {
        loop {
            let before = self.book.steps.len();
            for actor in 0..8 {
                let Some(view) = self.machine.head(actor) else { continue };
                let store = self.machine.record(view).store;
                self.add(Step::PreCheck { actor });
                self.add(Step::SendRecord { actor });
                self.add(Step::TakeRecord { store, view });
                self.add(Step::Checkpoint { store });
                self.add(Step::TakeAck { store, view });
                self.add(Step::PostCheck { actor });
            }
            if self.book.steps.len() == before {
                return;
            }
        }
    }

    /// One more step that the machine takes, of a kind drawn by its weight.
    fn go_on(&mut self) {
        loop {
            let kind = self.random.pick(&WEIGHTED).expect("there are kinds");
            if kind == 1 && self.machine.interaction_count == self.most {
                continue;
            }
            if let Some(step) = self.take(kind) {
                return self.book.steps.push(step);
            }
        }
    }

    /// One more step that the machine refuses, of any kind.
    fn be_refused(&mut self) {
        loop {
            let kind = self.random.between(1, KINDS.into()) as u8;
            let step = self.any(kind);
            if self.machine.clone().take_unbroken(step).is_err() {
                return self.book.steps.push(step);
            }
        }
    }
}

/// Each kind as often as it is drawn. Sends, receipts and pre-checks soon run out.
const WEIGHTED: [u8; 37] = [
    1, 1, 1, 2, 3, 3, 4, 4, 4, 5, 5, 5, 6, 6, 6, 6, 7, 7, 7, 8, 9, 10, 10, 11, 11, 12, 12, 13, 13,
    14, 14, 15, 16, 17, 17, 17, 18,
];

/// A book of 4,096 steps over sixteen interactions: every step is taken, but that one in so many
/// is replaced by a step that is refused.
pub fn long(refused: Option<usize>) -> Draft {
    let mut draft = Draft::new(100);
    while draft.book.steps.len() < MAX_STEPS {
        if refused.is_some_and(|times| draft.random.one_in(times)) {
            draft.be_refused();
        } else {
            draft.go_on();
        }
    }
    draft
}

/// The longest book in bytes: 4,096 sends, of which all but sixteen are refused.
pub fn sends() -> Vec<u8> {
    let mut draft = Draft::new(101);
    while draft.book.steps.len() < MAX_STEPS {
        let step = draft.any(1);
        draft.add(step);
    }
    draft.bytes()
}

/// A machine in the midst of its steps that takes a step of that kind, and the step: the shortest
/// book of some seeds, so that its run is little beside the turns.
pub fn before(kind: u8) -> (Draft, Step) {
    let found = (0..8).map(|seed| first(kind, seed));
    found.min_by_key(|(draft, _)| draft.book.steps.len()).expect("there are seeds")
}

/// Goes on for sixty steps, and then until a step of that kind can be taken.
fn first(kind: u8, seed: u64) -> (Draft, Step) {
    let mut draft = Draft { most: 15, restless: 4, ..Draft::new(seed) };
    loop {
        draft.go_on();
        if draft.book.steps.len() < 60 {
            continue;
        }
        let machine = draft.machine.clone();
        if let Some(step) = draft.take(kind) {
            return (Draft { machine, ..draft }, step);
        }
    }
}

/// Sixteen interactions in the midst of their steps, three hundred in all.
pub fn full() -> Draft {
    let mut draft = Draft::new(104);
    (0..300).for_each(|_| draft.go_on());
    draft
}

/// Sixteen interactions, none received; each actor's head was sent, lost, moved and lost again.
pub fn messy() -> Draft {
    let mut draft = Draft::new(102);
    for key in 0..16 {
        let from = key % 8;
        draft.add(Step::Send {
            from,
            to: (from + 1 + key / 8) % 8,
            own: from,
            data: DATA,
            causes: 0,
        });
    }
    for actor in 0..8 {
        let view = View::sender(actor);
        let away = 7 - actor;
        draft.add(Step::PreCheck { actor });
        for store in [actor, away] {
            draft.add(Step::SendRecord { actor });
            draft.add(Step::Lose { what: 0, store, view });
            draft.add(Step::Timeout { actor, store: away });
        }
    }
    draft
}

/// Sixteen closed interactions, each caused by the one before.
pub fn chain() -> Draft {
    let mut draft = Draft::new(103);
    for key in 0..16 {
        let from = key % 8;
        let causes = if key == 0 { 0 } else { 1 << (key - 1) };
        draft.add(Step::Send { from, to: (from + 1) % 8, own: from, data: DATA, causes });
        draft.add(Step::Receive { key });
    }
    draft.close();
    draft
}
