//! What a range of generated books covers.

use std::fmt;
use std::iter;
use std::ops::Range;

use crate::book::Book;
use crate::generate::generate;
use crate::machine::{
    members, Holding, Machine, Phase, Place, Record, Status, Store, View, What, MAX_COPIES,
    MAX_INTERACTIONS, MAX_TRIES,
};
use crate::programs::MAX_INPUT;
use crate::refusal::{number, Refusal};
use crate::step::{Step, KINDS};
use crate::text::kind_name;
use crate::walk::Walk;

/// The answers that the rules allow to each kind, kind 1 first.
const POSSIBLE: [&[u8]; KINDS as usize] = [
    &[0, 2, 3, 4, 8, 9],
    &[0, 2, 7],
    &[0, 2, 7],
    &[0, 2, 7],
    &[0, 2, 7, 8],
    &[0, 2, 5, 7],
    &[0, 2, 7],
    &[0, 2, 7],
    &[0, 2, 7],
    &[0, 2, 7],
    &[0, 2, 5, 7],
    &[0, 2, 7],
    &[0, 2, 7],
    &[0, 2, 7],
    &[0, 2, 5],
    &[0, 2, 6],
    &[0, 2, 5],
    &[0, 2, 7],
];

/// Something worth meeting in a run or at its end.
#[derive(Clone, Copy)]
enum Event {
    SixteenthRecord,
    SixteenthAck,
    SixteenthUpdate,
    SixteenthUack,
    SendersRepairSecond,
    ReceiversRepairSecond,
    StaleUack,
    LateRecord,
    AckOfLeftStore,
    MovedReceipt,
    FirstTry,
    ThirdTry,
    FourthTryRefused,
    MoveAfterTries,
    AckAtCheckpoint,
    UackAtCheckpoint,
    SecondRecordWhileOwed,
    SecondUpdateWhileOwed,
    CrashDropsAck,
    CrashDropsUack,
    CrashThrowsBackContents,
    CrashThrowsBackUpdate,
    RecordRepeated,
    AckRepeated,
    UpdateRepeated,
    UackRepeated,
    RepeatedAtFifteen,
    SixteenInteractions,
    DrainRefused,
    DrainSendsAck,
    DrainSendsUack,
    NoteAfterDrain,
    WalkRefused,
    LongWalk,
    LongWalkAfterDrain,
    KeyMetAgain,
}

/// What each event is called, in their order.
const EVENT_NAMES: [&str; 36] = [
    "a sixteenth record lost",
    "a sixteenth ack lost at a checkpoint",
    "a sixteenth update lost",
    "a sixteenth uack lost at a checkpoint",
    "both repairs, the sender's second",
    "both repairs, the receiver's second",
    "a stale uack, its destination replaced",
    "a late record, the viewlink written by an update",
    "an ack of a store that was left",
    "a cause link set to where the receipt moved",
    "a first try at the same store",
    "a third try at the same store",
    "a fourth try refused",
    "a move to another store after tries",
    "a checkpoint that sends an ack",
    "a checkpoint that sends a uack",
    "a second record taken while an ack is owed",
    "a second update taken while a uack is owed",
    "a crash that drops an owed ack",
    "a crash that drops an owed uack",
    "a crash that throws back contents",
    "a crash that throws back the viewlink of an update",
    "a duplicate of a record",
    "a duplicate of an ack",
    "a duplicate of an update",
    "a duplicate of a uack",
    "a duplicate with fifteen copies in flight",
    "sixteen interactions",
    "a drain refused with a store down",
    "a drain that takes a checkpoint for an ack",
    "a drain that takes a checkpoint for a uack",
    "a note that a drain leaves, at a store that it doesn't wait for",
    "a walk refused at an open interaction",
    "a walk over several interactions",
    "a walk over several interactions after a drain",
    "a walk that meets a key again",
];

/// Counts over the books of some seeds.
pub struct Coverage {
    books: usize,
    steps: usize,
    longest: usize,
    refused: [usize; Refusal::NUMBERS],
    answers: [[usize; Refusal::NUMBERS]; KINDS as usize],
    events: [usize; EVENT_NAMES.len()],
}

impl Coverage {
    pub fn of_seeds(seeds: Range<u64>) -> Coverage {
        let mut coverage = Coverage {
            books: 0,
            steps: 0,
            longest: 0,
            refused: [0; Refusal::NUMBERS],
            answers: [[0; Refusal::NUMBERS]; KINDS as usize],
            events: [0; EVENT_NAMES.len()],
        };
        for seed in seeds {
            coverage.add_book(&generate(seed));
        }
        coverage
    }

    fn add_book(&mut self, bytes: &[u8]) {
        self.books += 1;
        if let Err(refusal) = self.add_run(bytes) {
            self.refused[refusal as usize] += 1;
        }
    }

    fn add_run(&mut self, bytes: &[u8]) -> Result<(), Refusal> {
        Refusal::Malformed.when(bytes.len() > MAX_INPUT)?;
        let book = Book::read(bytes)?;
        let mut machine = Machine::setup(book.stores, &book.actors)?;
        self.steps += book.steps.len();
        self.longest = self.longest.max(book.steps.len());
        for step in book.steps {
            let before = machine.clone();
            let answer = number(&machine.take(step));
            self.answers[usize::from(step.kind()) - 1][usize::from(answer)] += 1;
            let events = if answer == 0 {
                events(&before, step)
            } else {
                fourth_try(&before, step).into_iter().collect()
            };
            events.into_iter().for_each(|event| self.add_event(event, true));
        }
        self.add_end(machine);
        Ok(())
    }

    /// What the end of a run shows: its walks and its drain.
    fn add_end(&mut self, mut machine: Machine) {
        let made = usize::from(machine.interaction_count);
        self.add_event(Event::SixteenInteractions, made == MAX_INTERACTIONS);
        let walked = walks(&machine);
        self.add_event(Event::WalkRefused, walked.contains(&Err(Refusal::Open)));
        self.add_event(Event::LongWalk, has_long_walk(&walked));
        let before = machine.clone();
        let drained = machine.drain();
        self.add_event(Event::DrainRefused, drained == Err(Refusal::StoreDown));
        if drained.is_ok() {
            self.add_drain(before);
            let notes = machine.stores.iter().flat_map(Store::places).any(Place::owes);
            self.add_event(Event::NoteAfterDrain, notes);
        }
        let walked = walks(&machine);
        let long = has_long_walk(&walked);
        self.add_event(Event::LongWalkAfterDrain, drained.is_ok() && long);
        self.add_event(Event::KeyMetAgain, has_key_met_again(&machine, &walked));
    }

    /// What the drain's checkpoints are for: acks while a queue is left, uacks behind that.
    fn add_drain(&mut self, mut machine: Machine) {
        while let Some(step) = machine.next_of_drain() {
            let has_queue = (0..machine.actor_count).any(|actor| machine.head(actor).is_some());
            let event = if has_queue { Event::DrainSendsAck } else { Event::DrainSendsUack };
            self.add_event(event, matches!(step, Step::Checkpoint { .. }));
            machine.take_unbroken(step).expect("the drain picks a step that its rule allows");
        }
    }

    fn add_event(&mut self, event: Event, met: bool) {
        self.events[event as usize] += usize::from(met);
    }

    /// What the rules allow and these books don't show.
    fn missing(&self) -> Vec<String> {
        let mut missing = Vec::new();
        for (kind, (possible, counts)) in (1..).zip(POSSIBLE.iter().zip(&self.answers)) {
            let unseen = possible.iter().filter(|&&answer| counts[usize::from(answer)] == 0);
            missing.extend(unseen.map(|answer| format!("{} answered {answer}", kind_name(kind))));
        }
        let unseen = EVENT_NAMES.iter().zip(self.events).filter(|(_, count)| *count == 0);
        missing.extend(unseen.map(|(name, _)| name.to_string()));
        let refusals = [Refusal::Malformed as usize, Refusal::IllegalSetup as usize];
        let unseen = refusals.into_iter().filter(|&refusal| self.refused[refusal] == 0);
        missing.extend(unseen.map(|refusal| format!("a book refused with {refusal}")));
        missing
    }
}

impl fmt::Display for Coverage {
    fn fmt(&self, out: &mut fmt::Formatter) -> fmt::Result {
        let malformed = self.refused[Refusal::Malformed as usize];
        let illegal = self.refused[Refusal::IllegalSetup as usize];
        writeln!(out, "books {}, refused with 10 {malformed}, with 11 {illegal}", self.books)?;
        writeln!(out, "steps {}, at most {} in a book", self.steps, self.longest)?;
        writeln!(out)?;
        self.answer_table(out)?;
        writeln!(out)?;
        for (name, count) in EVENT_NAMES.iter().zip(self.events) {
            writeln!(out, "{count:>8}  {name}")?;
        }
        writeln!(out)?;
        match self.missing().as_slice() {
            [] => writeln!(out, "nothing is missing"),
            missing => missing.iter().try_for_each(|name| writeln!(out, "missing: {name}")),
        }
    }
}

impl Coverage {
    /// One row for each kind, one column for each answer; a dot where the rules have none.
    fn answer_table(&self, out: &mut fmt::Formatter) -> fmt::Result {
        const COLUMNS: [u8; 9] = [0, 2, 3, 4, 5, 6, 7, 8, 9];
        write!(out, "{:<22}", "answers")?;
        COLUMNS.iter().try_for_each(|answer| write!(out, "{answer:>8}"))?;
        writeln!(out)?;
        for (kind, counts) in (1..).zip(&self.answers) {
            write!(out, "{kind:>2} {:<19}", kind_name(kind))?;
            for answer in COLUMNS {
                let count = counts[usize::from(answer)];
                match POSSIBLE[usize::from(kind) - 1].contains(&answer) || count > 0 {
                    true => write!(out, "{count:>8}")?,
                    false => write!(out, "{:>8}", ".")?,
                }
            }
            writeln!(out)?;
        }
        Ok(())
    }
}

fn walks(machine: &Machine) -> Vec<Result<Walk, Refusal>> {
    (0..machine.interaction_count).map(|key| machine.walk(key)).collect()
}

fn has_long_walk(walks: &[Result<Walk, Refusal>]) -> bool {
    walks.iter().flatten().any(|walk| walk.keys.len() > 1)
}

/// Whether a walk met a key again: more causes in what it met than keys behind its first.
fn has_key_met_again(machine: &Machine, walks: &[Result<Walk, Refusal>]) -> bool {
    let causes = |key: &u8| machine.record(View::sender(*key)).causes.count_ones() as usize;
    let met = |walk: &Walk| walk.keys.iter().map(causes).sum::<usize>();
    walks.iter().flatten().any(|walk| met(walk) > walk.keys.len() - 1)
}

/// What is worth noting about a step that the machine takes.
fn events(machine: &Machine, step: Step) -> Vec<Event> {
    match step {
        Step::TakeRecord { store, view } => {
            let owed = machine.place(store, view).ack_owed;
            let second = owed.then_some(Event::SecondRecordWhileOwed);
            second.into_iter().chain(late(machine, store, view)).collect()
        }
        Step::TakeUpdate { store, view } => {
            let owed = machine.place(store, view).uack_owed;
            owed.then_some(Event::SecondUpdateWhileOwed).into_iter().collect()
        }
        Step::Crash { store } => places(machine, store).flat_map(thrown_back).collect(),
        Step::Checkpoint { store } => places(machine, store).flat_map(sent_at_checkpoint).collect(),
        Step::Duplicate { what, store, view } => repeated(machine, what, store, view),
        _ => event(machine, step).into_iter().collect(),
    }
}

fn repeated(machine: &Machine, what: u8, store: u8, view: View) -> Vec<Event> {
    const EVENTS: [Event; What::ALL.len()] =
        [Event::RecordRepeated, Event::AckRepeated, Event::UpdateRepeated, Event::UackRepeated];
    let what = usize::from(what);
    let full = is_full(machine, What::ALL[what], store, view);
    iter::once(EVENTS[what]).chain(full.then_some(Event::RepeatedAtFifteen)).collect()
}

fn places(machine: &Machine, store: u8) -> impl Iterator<Item = &Place> {
    machine.stores[usize::from(store)].places()
}

/// What a crash does at a place.
fn thrown_back(place: &Place) -> impl Iterator<Item = Event> {
    let Place { working, checkpointed, ack_owed, uack_owed, .. } = place;
    let contents = working.contents != checkpointed.contents;
    // Only an update writes a link where there is one, or where there are no contents.
    let written = checkpointed.viewlink.is_some() || working.contents.is_none();
    let update = working.viewlink != checkpointed.viewlink && written;
    let met = [
        (Event::CrashDropsAck, *ack_owed),
        (Event::CrashDropsUack, *uack_owed),
        (Event::CrashThrowsBackContents, contents),
        (Event::CrashThrowsBackUpdate, update),
    ];
    met.into_iter().filter(|(_, met)| *met).map(|(event, _)| event)
}

/// What a checkpoint sends from a place, and what is lost because fifteen are in flight.
fn sent_at_checkpoint(place: &Place) -> impl Iterator<Item = Event> {
    let Place { ack_owed, uack_owed, .. } = place;
    let full = |what| place.count(what) == MAX_COPIES;
    let met = [
        (Event::AckAtCheckpoint, *ack_owed),
        (Event::UackAtCheckpoint, *uack_owed),
        (Event::SixteenthAck, *ack_owed && full(What::Ack)),
        (Event::SixteenthUack, *uack_owed && full(What::Uack)),
    ];
    met.into_iter().filter(|(_, met)| *met).map(|(event, _)| event)
}

/// The one thing that most kinds of step can show.
fn event(machine: &Machine, step: Step) -> Option<Event> {
    match step {
        Step::PreCheck { actor } => moved_receipt(machine, machine.head(actor)?),
        Step::SendRecord { actor } => {
            let view = machine.head(actor)?;
            let full = is_full(machine, What::Record, machine.record(view).store, view);
            full.then_some(Event::SixteenthRecord)
        }
        Step::Timeout { actor, store } => tried(machine.record(machine.head(actor)?), store),
        Step::TakeAck { store, view } => {
            let record = machine.record(view);
            let left = record.phase == Phase::Sent && record.store != store;
            left.then_some(Event::AckOfLeftStore)
        }
        Step::TakeRepair { view } => {
            let second = [Event::SendersRepairSecond, Event::ReceiversRepairSecond];
            machine.side(view.opposite()).entry.map(|_| second[usize::from(view.role)])
        }
        Step::SendUpdate { view } => {
            let destination = machine.side(view).entry?.destination;
            let full = is_full(machine, What::Update, destination, view);
            full.then_some(Event::SixteenthUpdate)
        }
        Step::TakeUack { store, view } => {
            let entry = machine.side(view).entry?;
            let stale = entry.status == Status::Waiting && entry.destination != store;
            stale.then_some(Event::StaleUack)
        }
        _ => None,
    }
}

/// A timeout that the machine takes: a try at the same store, or a move.
fn tried(record: &Record, store: u8) -> Option<Event> {
    match record.tries {
        0 if record.store == store => Some(Event::FirstTry),
        2 if record.store == store => Some(Event::ThirdTry),
        1.. if record.store != store => Some(Event::MoveAfterTries),
        _ => None,
    }
}

/// A refused step that is a timeout to the current store, after three tries there.
fn fourth_try(machine: &Machine, step: Step) -> Option<Event> {
    let Step::Timeout { actor, store } = step else { return None };
    let in_machine = actor < machine.actor_count && store < machine.store_count;
    let head = in_machine.then(|| machine.head_in(actor, Phase::Sent))??;
    let record = machine.record(head);
    (record.store == store && record.tries == MAX_TRIES).then_some(Event::FourthTryRefused)
}

fn is_full(machine: &Machine, what: What, store: u8, view: View) -> bool {
    machine.place(store, view).count(what) == MAX_COPIES
}

/// A first record that finds another viewlink than its own, which only an update writes.
fn late(machine: &Machine, store: u8, view: View) -> Option<Event> {
    let Holding { contents, viewlink } = &machine.place(store, view).working;
    let other_link = viewlink.is_some_and(|link| link != machine.record(view).viewlink);
    (other_link && contents.is_none()).then_some(Event::LateRecord)
}

fn moved_receipt(machine: &Machine, view: View) -> Option<Event> {
    let record = machine.record(view);
    let moved = |cause: u8| {
        let receipt = machine.record(View::receiver(cause));
        receipt.changed && receipt.store != record.cause_links[usize::from(cause)]
    };
    members(record.causes).any(moved).then_some(Event::MovedReceipt)
}
