//! What is measured: for each row a turn of ours and a turn of the peer's.

use std::hint::black_box;
use std::time::{Duration, Instant};

use peer::book::{self, Book, MAX_STEPS};
use peer::lineage;
use peer::machine::Machine;
use peer::prep::messages::{Activity, Message, Said};
use peer::prep::Store;
use peer::refusal::number;
use peer::step::{Step, KINDS};

use crate::books::{self, Draft};
use crate::ours;

/// The bytes of our machine value, and of our store of the first PReP.
const MACHINE_BYTES: usize = 7164;
const STORE_BYTES: usize = 3011;

/// So many of the peer's values are copied at a time: few enough to stay near the processor.
const COPIES: usize = 16;

/// Makes a number of turns, or with `false` all that is beside them, and says how long it took.
pub struct Side(pub Box<dyn Fn(u32, bool) -> Duration>);

impl Side {
    /// Turns with nothing beside them.
    pub fn plain<T>(turn: impl Fn() -> T + 'static) -> Side {
        Side(Box::new(move |times, made| {
            let start = Instant::now();
            for _ in 0..if made { times } else { 0 } {
                black_box(turn());
            }
            start.elapsed()
        }))
    }

    /// Turns of ours, which a call makes in a loop after it has run the book.
    fn looped(call: impl Fn(u32) -> u32 + 'static) -> Side {
        Side(Box::new(move |times, made| {
            let start = Instant::now();
            black_box(call(black_box(if made { times } else { 0 })));
            start.elapsed()
        }))
    }

    /// Turns of the peer that change its value, each on a copy; the copying takes no time.
    fn on_copies<V, T>(value: V, turn: impl Fn(&mut V) -> T + 'static) -> Side
    where
        V: Clone + 'static,
    {
        Side(Box::new(move |times, made| {
            let mut time = Duration::ZERO;
            let copies = vec![&value; times as usize];
            for batch in copies.chunks(COPIES) {
                let mut copies: Vec<V> = batch.iter().map(|&value| value.clone()).collect();
                let start = Instant::now();
                for copy in copies.iter_mut().filter(|_| made) {
                    black_box(turn(black_box(copy)));
                }
                time += start.elapsed();
            }
            time
        }))
    }
}

/// A turn of ours beside a turn of the peer's.
pub struct Row {
    pub name: String,
    /// What the ratio is to stay within, where an aim is set.
    pub aim: Option<u32>,
    pub ours: Side,
    pub peer: Side,
}

/// The calls, the copies and the steps, each kind with the test for a broken value and without.
pub struct Rows {
    pub calls: Vec<Row>,
    pub copies: Row,
    pub tested: Vec<Row>,
    pub untested: Vec<Row>,
}

impl Rows {
    /// # Panics
    /// If ours and the peer's don't answer alike what is measured.
    pub fn new() -> Rows {
        let steps: Vec<_> = (1..=KINDS).map(books::before).collect();
        Rows {
            calls: vec![
                book("a book of 4,096 steps, all taken", &books::long(None)),
                book("a book of 4,096 steps, a quarter refused", &books::long(Some(4))),
                broken(&books::full()),
                drain(&books::messy()),
                walk(&books::chain()),
                document(&books::chain()),
                received(),
                copies::<STORE_BYTES, _>("2004 store", store()),
            ],
            copies: copies::<MACHINE_BYTES, _>("machine", books::full().machine().clone()),
            tested: steps.iter().map(|(draft, step)| tested(draft, *step)).collect(),
            untested: steps.iter().map(|(draft, step)| untested(draft, *step)).collect(),
        }
    }

    /// Every row, in one order.
    pub fn all(&self) -> impl Iterator<Item = &Row> {
        let copies = std::slice::from_ref(&self.copies);
        [&self.calls, copies, &self.tested, &self.untested].into_iter().flatten()
    }
}

fn book(name: &str, draft: &Draft) -> Row {
    let (bytes, same) = (draft.bytes(), draft.bytes());
    let mut answers = ([0; MAX_STEPS], [0; MAX_STEPS]);
    ours::run(&bytes, &mut answers.0);
    book::run(&bytes, &mut answers.1).expect("the book is run");
    assert!(answers.0 == answers.1, "the answers to {name} differ");
    Row {
        name: name.into(),
        aim: Some(2),
        ours: Side::plain(move || ours::run(black_box(&bytes), &mut [0; MAX_STEPS])),
        peer: Side::plain(move || book::run(black_box(&same), &mut [0; MAX_STEPS])),
    }
}

fn broken(draft: &Draft) -> Row {
    let (bytes, machine) = (draft.bytes(), draft.machine().clone());
    let at = place(machine.is_broken().into(), |at| ours::broken(&bytes, at, 1));
    Row {
        name: "the test for a broken value".into(),
        aim: Some(2),
        ours: Side::looped(move |times| ours::broken(&bytes, at, times)),
        peer: Side::plain(move || black_box(&machine).is_broken()),
    }
}

fn drain(draft: &Draft) -> Row {
    let (bytes, machine) = (draft.bytes(), draft.machine().clone());
    let mut drained = machine.clone();
    let count = drained.drain().expect("every store is up") as u32;
    let told = count + u32::from(drained.interaction_count);
    let at = place(told, |at| ours::drain(&bytes, at, 1));
    Row {
        name: format!("the drain of sixteen interactions, {count} steps"),
        aim: Some(8),
        ours: Side::looped(move |times| ours::drain(&bytes, at, times)),
        peer: Side::on_copies(machine, Machine::drain),
    }
}

fn walk(draft: &Draft) -> Row {
    let (bytes, machine) = (draft.bytes(), draft.machine().clone());
    let keys = machine.walk(15).expect("the chain is closed").keys.len();
    let at = place(keys as u32, |at| ours::walk(&bytes, 15, at, 1));
    Row {
        name: format!("the walk of {keys} keys"),
        aim: Some(3),
        ours: Side::looped(move |times| ours::walk(&bytes, 15, at, times)),
        peer: Side::plain(move || black_box(&machine).walk(15)),
    }
}

/// The walk of the same key, written as a PROV-N document.
fn document(draft: &Draft) -> Row {
    let (bytes, machine) = (draft.bytes(), draft.machine().clone());
    let text = |machine: &Machine| {
        let chain = lineage::chain(machine, 15).expect("the chain is closed");
        lineage::document(&chain)
    };
    let size = text(&machine).len();
    let at = place(size as u32, |at| ours::lineage(&bytes, 15, at, 1));
    Row {
        name: format!("the PROV-N document of that walk, {size} bytes"),
        aim: Some(2),
        ours: Side::looped(move |times| ours::lineage(&bytes, 15, at, times)),
        peer: Side::plain(move || text(black_box(&machine))),
    }
}

/// So many activities the peer's store of the first PReP holds, and ours.
const HELD: u32 = 16;

/// The client's message of an activity.
fn message(session: u32, said: Said) -> Message {
    let activity = Activity { session, nonce: 0, thread: 0, client: 1, service: 2 };
    Message { sender: 1, activity, said }
}

/// A store of the first PReP with an invocation in each activity.
fn store() -> Store {
    let mut store = Store::default();
    for session in 0..HELD {
        let invocation = message(session, Said::Invocation { extra: 0, data: 7 });
        store.take(&invocation).expect("there is room");
    }
    store
}

/// A message of the store's last activity, which is taken.
fn received() -> Row {
    let store = store();
    let last = message(HELD - 1, Said::Negotiation { list: 0, accepted: 0, extra: 1 });
    let taken = store.clone().take(&last).is_ok();
    assert!(taken && ours::receive(HELD, HELD - 1, 1) == HELD, "the message is taken by both");
    Row {
        name: "a message of the 2004 protocol".into(),
        aim: None,
        ours: Side::looped(move |times| ours::receive(HELD, HELD - 1, times)),
        peer: Side::on_copies(store, move |store| store.take(black_box(&last))),
    }
}

/// Two copies of a value as large as ours, and one of the peer's.
fn copies<const BYTES: usize, V: Clone + 'static>(name: &str, value: V) -> Row {
    let bytes = [0u8; BYTES];
    Row {
        name: format!("two copies of our {name}, one of the peer's"),
        aim: None,
        ours: Side::plain(move || {
            let copy = *black_box(&bytes);
            *black_box(&copy)
        }),
        peer: Side::plain(move || black_box(&value).clone()),
    }
}

/// A step with the test for a broken value.
fn tested(draft: &Draft, step: Step) -> Row {
    let (bytes, machine) = (draft.bytes(), draft.machine().clone());
    let own = written(step);
    let at = place(told(&machine, step), |at| ours::step(&bytes, &own, at, 1));
    Row {
        name: named(step),
        aim: None,
        ours: Side::looped(move |times| ours::step(&bytes, &own, at, times)),
        peer: Side::on_copies(machine, move |machine| machine.take(step)),
    }
}

/// A step of a machine that is known not to be broken.
fn untested(draft: &Draft, step: Step) -> Row {
    let (bytes, machine) = (draft.bytes(), draft.machine().clone());
    let own = written(step);
    let alike = ours::step_unbroken(&bytes, &own, 1) == told(&machine, step);
    assert!(alike, "the answers to {step:?} differ");
    Row {
        name: named(step),
        aim: None,
        ours: Side::looped(move |times| ours::step_unbroken(&bytes, &own, times)),
        peer: Side::on_copies(machine, move |machine| machine.take_unbroken(step)),
    }
}

/// A step as ours takes it: as it is written in a book, behind the counts of one with no stores and
/// no actors.
fn written(step: Step) -> Vec<u8> {
    let alone = Book { stores: 0, actors: Vec::new(), steps: vec![step] };
    alone.bytes().split_off(4)
}

/// What ours tells of a step: its number and the interactions made.
fn told(machine: &Machine, step: Step) -> u32 {
    let mut after = machine.clone();
    let answer = number(&after.take(step));
    u32::from(answer) + u32::from(after.interaction_count)
}

/// Kind and name, as `5 timeout`.
fn named(step: Step) -> String {
    const NAMES: [&str; 18] = [
        "send",
        "receive",
        "pre-check",
        "send record",
        "timeout",
        "take record",
        "take ack",
        "post-check",
        "take repair",
        "send update",
        "take update",
        "take uack",
        "coordinator timeout",
        "lose",
        "crash",
        "restart",
        "checkpoint",
        "duplicate",
    ];
    let kind = step.kind();
    format!("{kind} {}", NAMES[usize::from(kind) - 1])
}

/// A place whose acks, which ours changes from turn to turn, don't change what a turn gives.
fn place(peer: u32, turn: impl Fn(u8) -> u32) -> u8 {
    (0..=255).find(|&at| turn(at) == peer).expect("ours and the peer's answer alike")
}
