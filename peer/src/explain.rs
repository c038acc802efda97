//! A run told in words: each step with its answer and, where it is refused, why.

use std::fmt::{self, Write};

use crate::book::Book;
use crate::machine::{
    members, ActorSetup, Entry, Machine, Phase, Status, View, What, MAX_ACTORS, MAX_STORES,
    MAX_TRIES,
};
use crate::programs::MAX_INPUT;
use crate::refusal::Refusal;
use crate::step::{fields, Field, Step};
use crate::text;

/// What the book's steps answer and why; for a refused book, why it is refused.
pub fn explain(input: &[u8]) -> String {
    let mut out = String::new();
    explanation(&mut out, input).expect("a string takes every line");
    out
}

fn explanation(out: &mut String, input: &[u8]) -> fmt::Result {
    if input.len() > MAX_INPUT {
        let longer = format!("{} bytes are more than {MAX_INPUT}", input.len());
        return refused(out, Refusal::Malformed, &longer);
    }
    let book = match Book::read(input) {
        Ok(book) => book,
        Err(malformed) => return refused(out, Refusal::Malformed, &malformed.to_string()),
    };
    match illegal(book.stores, &book.actors) {
        Some(reason) => refused(out, Refusal::IllegalSetup, &reason),
        None => run(out, &book),
    }
}

fn refused(out: &mut String, refusal: Refusal, reason: &str) -> fmt::Result {
    writeln!(out, "refused {}: {reason}", refusal as u8)
}

fn run(out: &mut String, book: &Book) -> fmt::Result {
    let mut machine = Machine::setup(book.stores, &book.actors).expect("the setup is legal");
    let mut taken = 0;
    write!(out, "{}", text::write(&Book { steps: Vec::new(), ..book.clone() }))?;
    for (index, &step) in book.steps.iter().enumerate() {
        write!(out, "{index}: {}: ", text::step_line(&step))?;
        let before = machine.clone();
        match machine.take_unbroken(step) {
            Ok(()) => {
                taken += 1;
                writeln!(out, "taken")?;
            }
            Err(refusal) => refused(out, refusal, &reason(&before, step, refusal))?,
        }
    }
    writeln!(out, "{taken} of {} steps taken", book.steps.len())
}

/// Why a setup is illegal, if it is: the first count or row at which that shows.
pub fn illegal(stores: u8, actors: &[ActorSetup]) -> Option<String> {
    if !(2..=MAX_STORES).contains(&stores.into()) {
        return Some(format!("a setup has 2 to {MAX_STORES} stores, not {stores}"));
    }
    if !(2..=MAX_ACTORS).contains(&actors.len()) {
        return Some(format!("a setup has 2 to {MAX_ACTORS} actors, not {}", actors.len()));
    }
    let row = |(index, actor): (usize, &ActorSetup)| {
        illegal_row(stores, actor).map(|reason| format!("actor {index}: {reason}"))
    };
    actors.iter().enumerate().find_map(row)
}

fn illegal_row(stores: u8, actor: &ActorSetup) -> Option<String> {
    let ActorSetup { home, list } = *actor;
    let outside = members(list.into()).find(|&store| store >= stores);
    if home >= stores {
        Some(format!("its home {home} is none of the {stores} stores"))
    } else if let Some(store) = outside {
        Some(format!("its list names {store}, which is none of the {stores} stores"))
    } else if !members(list.into()).any(|store| store == home) {
        Some(format!("its home {home} isn't in its list, which is {}", numbers(list.into())))
    } else if list.count_ones() < 2 {
        Some(format!("its list has no store but {home}, and needs two"))
    } else {
        None
    }
}

/// Why the machine refuses the step with that number.
pub fn reason(machine: &Machine, step: Step, refusal: Refusal) -> String {
    match refusal {
        Refusal::NotInMachine => outside(machine, step),
        Refusal::ToItself => "an actor doesn't send to itself".to_string(),
        Refusal::SixteenMade => "sixteen interactions are made already".to_string(),
        Refusal::StoreDown => format!("store {} is down", store_of(step)),
        Refusal::StoreUp => format!("store {} is up", store_of(step)),
        Refusal::NotThere => not_there(machine, step),
        Refusal::NotListed => not_listed(machine, step),
        Refusal::NotReceived => not_received(machine, step),
        Refusal::Broken => "the machine value is broken".to_string(),
        Refusal::Malformed
        | Refusal::IllegalSetup
        | Refusal::ShortBuffer
        | Refusal::Open
        | Refusal::NoSuchRule
        | Refusal::NotForecast => unreachable!("no step is refused so"),
    }
}

/// The first field that names nothing of this machine.
fn outside(machine: &Machine, step: Step) -> String {
    let (kind, values) = step.values();
    let named = fields(kind).unwrap_or_default().iter().zip(values);
    let mut names_nothing = named.filter_map(|(&field, value)| {
        let (what, count) = match field {
            Field::Actor => ("actor", machine.actor_count.into()),
            Field::Store => ("store", machine.store_count.into()),
            Field::Key => ("interaction", machine.interaction_count.into()),
            Field::Role => ("role", 2),
            Field::What => ("message", What::ALL.len() as u32),
            Field::Data | Field::Causes => return None,
        };
        (value >= count).then(|| format!("there is no {what} {value}, {}", known(what, count)))
    });
    names_nothing.next().expect("a field names nothing of the machine")
}

fn known(what: &str, count: u32) -> String {
    match count {
        0 => format!("no {what} is made"),
        1 => format!("only {what} 0"),
        _ => format!("only {what}s 0 to {}", count - 1),
    }
}

fn store_of(step: Step) -> u32 {
    let (kind, values) = step.values();
    let place = fields(kind).unwrap_or_default().iter().position(|&field| field == Field::Store);
    values[place.expect("a step that needs a store up or down names it")]
}

/// Which phase, status or copy isn't there, and what is instead.
fn not_there(machine: &Machine, step: Step) -> String {
    match step {
        Step::Receive { key } => {
            let actor = machine.record(View::receiver(key)).actor;
            format!("actor {actor} has received interaction {key} already")
        }
        Step::PreCheck { actor } => head_isnt(machine, actor, Phase::Queued),
        Step::SendRecord { actor } => head_isnt(machine, actor, Phase::Ready),
        Step::Timeout { actor, .. } => head_isnt(machine, actor, Phase::Sent),
        Step::PostCheck { actor } => head_isnt(machine, actor, Phase::Acknowledged),
        Step::TakeRecord { store, view } => no_copy(What::Record, store, view),
        Step::TakeAck { store, view } => no_copy(What::Ack, store, view),
        Step::TakeUpdate { store, view } => no_copy(What::Update, store, view),
        Step::TakeUack { store, view } => no_copy(What::Uack, store, view),
        Step::Lose { what, store, view } | Step::Duplicate { what, store, view } => {
            no_copy(What::ALL[usize::from(what)], store, view)
        }
        Step::TakeRepair { view } => format!("no repair of {} is in flight", name(view)),
        Step::SendUpdate { view } => entry_isnt(machine, view, Status::ToSend),
        Step::CoordinatorTimeout { view } => entry_isnt(machine, view, Status::Waiting),
        Step::Send { .. } | Step::Crash { .. } | Step::Restart { .. } | Step::Checkpoint { .. } => {
            unreachable!("such a step needs no phase, status or copy")
        }
    }
}

fn head_isnt(machine: &Machine, actor: u8, needed: Phase) -> String {
    let Some(head) = machine.head(actor) else {
        return format!("no view waits in actor {actor}'s queue");
    };
    let (phase, needed) = (phase_name(machine.record(head).phase), phase_name(needed));
    format!("the head of actor {actor}'s queue, {}, is {phase} and not {needed}", name(head))
}

fn entry_isnt(machine: &Machine, view: View, needed: Status) -> String {
    let (view_name, needed) = (name(view), status_name(needed));
    match machine.side(view).entry {
        None => format!("the coordinator has no entry for {view_name}"),
        Some(Entry { status, .. }) => {
            let status = status_name(status);
            format!("the coordinator's entry for {view_name} is {status} and not {needed}")
        }
    }
}

fn no_copy(what: What, store: u8, view: View) -> String {
    let way = match what {
        What::Record | What::Update => "to",
        What::Ack | What::Uack => "from",
    };
    let message = text::WHATS[what as usize];
    format!("no {message} of {} is in flight {way} store {store}", name(view))
}

fn not_listed(machine: &Machine, step: Step) -> String {
    let (actor, store) = match step {
        Step::Send { from, own, .. } => (from, own),
        Step::Timeout { actor, store } => (actor, store),
        _ => unreachable!("only a send and a timeout look at a list"),
    };
    if machine.lists(actor, store) {
        let head = machine.head(actor).expect("a timeout's head waits");
        let tried = format!("{} has tried its current store {store}", name(head));
        return format!("{tried} again {MAX_TRIES} times, and has to leave it");
    }
    let list = numbers(machine.actors[usize::from(actor)].list.into());
    format!("store {store} isn't in actor {actor}'s list, which is {list}")
}

/// The first cause that from hasn't received.
fn not_received(machine: &Machine, step: Step) -> String {
    let Step::Send { from, causes, .. } = step else { unreachable!("only a send has causes") };
    let cause = members(causes).find(|&cause| !machine.has_received(from, cause));
    let cause = cause.expect("a cause isn't received");
    if cause >= machine.interaction_count {
        return format!("cause {cause} isn't made");
    }
    match machine.record(View::receiver(cause)).actor {
        to if to == from => format!("actor {from} hasn't received cause {cause} yet"),
        to => format!("cause {cause} went to actor {to} and not to actor {from}"),
    }
}

fn name(view: View) -> String {
    format!("key {} role {}", view.key, view.role)
}

fn numbers(set: u16) -> String {
    members(set).map(|number| number.to_string()).collect::<Vec<_>>().join(" ")
}

fn phase_name(phase: Phase) -> String {
    let word = match phase {
        Phase::NotMade => "not made",
        Phase::Queued => "queued",
        Phase::Ready => "ready",
        Phase::Sent => "sent",
        Phase::Acknowledged => "acknowledged",
        Phase::Settled => "settled",
    };
    format!("in phase {} ({word})", phase as u8)
}

fn status_name(status: Status) -> &'static str {
    match status {
        Status::ToSend => "to-send",
        Status::Waiting => "waiting",
        Status::Done => "done",
    }
}
