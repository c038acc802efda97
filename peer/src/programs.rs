//! What the programs `recorder` and `inspect` print for a book.

use std::fmt::{self, Write};

use crate::book::{self, Book};
use crate::machine::{members, Holding, Machine, Phase, View};
use crate::refusal::{number, Refusal};
use crate::step::Step;
use crate::walk::Walk;

/// Standard input longer than this is refused as malformed.
pub const MAX_INPUT: usize = 65_536;

/// What the recorder prints: the refusal, or one line of counts and one for each view.
pub fn recorder(input: &[u8]) -> String {
    let mut out = String::new();
    let written = match run(input) {
        Ok((machine, answers)) => listing(&mut out, &machine, &answers),
        Err(refusal) => writeln!(out, "refused {}", refusal as u8),
    };
    written.expect("a string takes every line");
    out
}

/// Everything: the run, the machine and its walks, and the same again after the drain.
pub fn inspect(input: &[u8]) -> String {
    let mut out = String::new();
    let written = match run(input) {
        Ok((machine, answers)) => inspection(&mut out, machine, &answers),
        Err(refusal) => writeln!(out, "run {} 0 0", refusal as u8),
    };
    written.expect("a string takes every line");
    out
}

/// The machine after the book and the answer to each of its steps.
fn run(input: &[u8]) -> Result<(Machine, Vec<u8>), Refusal> {
    Refusal::Malformed.when(input.len() > MAX_INPUT)?;
    let mut answers = vec![0; Book::read(input)?.steps.len()];
    let machine = book::run(input, &mut answers)?;
    Ok((machine, answers))
}

/// The machine after the book, drained where that word is `drained`; no store is restarted.
pub fn machine_after(input: &[u8], word: Option<&String>) -> Result<Machine, Refusal> {
    let (mut machine, _) = run(input)?;
    if word.is_some_and(|word| word == "drained") {
        machine.drain()?;
    }
    Ok(machine)
}

/// The key that a program's word names: a decimal number of one byte without leading zeros.
pub fn key_word(word: Option<&String>) -> Result<u8, Refusal> {
    number_word(word).ok_or(Refusal::NotInMachine)
}

fn number_word(word: Option<&String>) -> Option<u8> {
    let word = word?;
    let number: u8 = word.parse().ok()?;
    // A sign or a leading zero doesn't come back.
    (number.to_string() == *word).then_some(number)
}

fn taken(answers: &[u8]) -> usize {
    answers.iter().filter(|&&answer| answer == 0).count()
}

fn listing(out: &mut String, machine: &Machine, answers: &[u8]) -> fmt::Result {
    let Machine { store_count, actor_count, interaction_count, .. } = machine;
    let (steps, taken) = (answers.len(), taken(answers));
    writeln!(out, "{store_count} {actor_count} {interaction_count} {steps} {taken}")?;
    for view in machine.views() {
        let record = machine.record(view);
        write!(out, "{} {} {} ", view.key, view.role, record.phase as u8)?;
        if record.phase == Phase::NotMade {
            writeln!(out, "- -")?;
            continue;
        }
        match machine.lasting(record.store, view).viewlink {
            Some(link) => writeln!(out, "{} {link}", record.store)?,
            None => writeln!(out, "{} -", record.store)?,
        }
    }
    Ok(())
}

fn inspection(out: &mut String, mut machine: Machine, answers: &[u8]) -> fmt::Result {
    writeln!(out, "run 0 {} {}", answers.len(), taken(answers))?;
    write!(out, "answers")?;
    for answer in answers {
        write!(out, " {answer}")?;
    }
    writeln!(out)?;
    machine_and_walks(out, &machine)?;

    let drained = machine.drain();
    drain_line(out, "drain", &drained)?;
    if drained == Err(Refusal::StoreDown) {
        restart_all(&mut machine);
        drain_line(out, "restarted drain", &machine.drain())?;
    }
    machine_and_walks(out, &machine)
}

fn drain_line(out: &mut String, name: &str, drained: &Result<usize, Refusal>) -> fmt::Result {
    writeln!(out, "{name} {} {}", number(drained), drained.unwrap_or(0))
}

fn restart_all(machine: &mut Machine) {
    for store in 0..machine.store_count {
        if !machine.is_up(store) {
            machine.take(Step::Restart { store }).expect("a store that is down restarts");
        }
    }
}

fn machine_and_walks(out: &mut String, machine: &Machine) -> fmt::Result {
    let Machine { store_count, actor_count, interaction_count, .. } = machine;
    let up = (0..*store_count).filter(|&store| machine.is_up(store)).fold(0, |up, p| up | 1 << p);
    writeln!(out, "M {store_count} {actor_count} {interaction_count} {up}")?;
    for (actor, held) in machine.actors[..usize::from(*actor_count)].iter().enumerate() {
        write!(out, "A {actor} {} {}", held.home, held.list)?;
        for view in &held.queue {
            write!(out, " {}.{}", view.key, view.role)?;
        }
        writeln!(out)?;
    }
    for view in machine.views() {
        view_lines(out, machine, view)?;
    }
    for key in 0..=*interaction_count {
        walk_line(out, machine, key)?;
    }
    Ok(())
}

fn view_lines(out: &mut String, machine: &Machine, view: View) -> fmt::Result {
    let View { key, role } = view;
    let side = machine.side(view);
    record_line(out, machine, view)?;
    if let (1, Some(message)) = (role, machine.interactions[usize::from(key)].application) {
        writeln!(out, "P {key} {} {}", message.own, message.data)?;
    }
    if let Some(repair) = side.repair {
        writeln!(out, "R {key} {role} {} {}", repair.destination, repair.own)?;
    }
    if let Some(entry) = side.entry {
        let status = entry.status as u8;
        writeln!(out, "E {key} {role} {} {} {status}", entry.destination, entry.own)?;
    }
    (0..machine.store_count).try_for_each(|store| place_lines(out, machine, store, view))
}

fn record_line(out: &mut String, machine: &Machine, view: View) -> fmt::Result {
    let record = machine.record(view);
    let phase = record.phase as u8;
    write!(out, "V {} {} {} {phase}", view.key, view.role, record.actor)?;
    if record.phase != Phase::NotMade {
        let (changed, tries) = (u8::from(record.changed), record.tries);
        write!(out, " {} {} {} {changed} {tries}", record.data, record.store, record.viewlink)?;
        causes(out, record.causes, &record.cause_links)?;
    }
    writeln!(out)
}

fn place_lines(out: &mut String, machine: &Machine, store: u8, view: View) -> fmt::Result {
    let View { key, role } = view;
    let place = machine.place(store, view);
    let at = format!("{store} {key} {role}");
    holding_lines(out, ["S", "L"], &at, &place.working)?;
    holding_lines(out, ["CS", "CL"], &at, &place.checkpointed)?;
    if place.owes() {
        let (ack, uack) = (u8::from(place.ack_owed), u8::from(place.uack_owed));
        writeln!(out, "N {at} {ack} {uack}")?;
    }
    let [record, ack, update, uack] = place.copies;
    if place.copies != [0; 4] {
        writeln!(out, "F {at} {record} {ack} {update} {uack}")?;
    }
    Ok(())
}

/// The contents and the viewlink of one state of a place, in lines that begin with these letters.
fn holding_lines(
    out: &mut String,
    [contents_line, link_line]: [&str; 2],
    at: &str,
    holding: &Holding,
) -> fmt::Result {
    if let Some(contents) = &holding.contents {
        write!(out, "{contents_line} {at} {} {}", contents.asserter, contents.data)?;
        causes(out, contents.causes, &contents.cause_links)?;
        writeln!(out)?;
    }
    if let Some(link) = holding.viewlink {
        writeln!(out, "{link_line} {at} {link}")?;
    }
    Ok(())
}

fn causes(out: &mut String, causes: u16, links: &[u8]) -> fmt::Result {
    write!(out, " {causes}")?;
    members(causes).try_for_each(|cause| write!(out, " {cause}:{}", links[usize::from(cause)]))
}

fn walk_line(out: &mut String, machine: &Machine, key: u8) -> fmt::Result {
    match machine.walk(key) {
        Ok(Walk { keys, lookups }) => {
            write!(out, "W {key} 0 {} {lookups}", keys.len())?;
            keys.iter().try_for_each(|met| write!(out, " {met}"))?;
            writeln!(out)
        }
        Err(refusal) => writeln!(out, "W {key} {}", refusal as u8),
    }
}
