//! Makes a book, or a file of messages, smaller for as long as it still shows what it is kept
//! for.

use crate::book::Book;
use crate::compare::Test;
use crate::machine::{members, ActorSetup, Machine};
use crate::prep::messages::{self, Activity, Message, Said};
use crate::step::{fields, Field, Step};

/// The ways to simplify a book, other than to drop steps.
const CANDIDATES: [fn(&Book) -> Vec<Book>; 5] = [
    without_each_interaction,
    without_each_actor,
    without_each_store,
    with_shorter_lists,
    with_simpler_fields,
];

/// A smaller book for which the test still holds, but for none that is one change away from it.
pub fn shrink_bytes(bytes: Vec<u8>, holds: &Test) -> Vec<u8> {
    match Book::read(&bytes) {
        Ok(book) => shrink_book(book, |book| holds(&book.bytes())).bytes(),
        Err(_) => drop_items(bytes, |fewer| holds(fewer)),
    }
}

fn shrink_book(mut book: Book, holds: impl Fn(&Book) -> bool) -> Book {
    loop {
        let before = book.clone();
        let with_steps = |steps: &[Step]| Book { steps: steps.to_vec(), ..before.clone() };
        book.steps = drop_items(book.steps, |steps| holds(&with_steps(steps)));
        for candidates in CANDIDATES {
            keep_first(&mut book, candidates, &holds);
        }
        if book == before {
            return book;
        }
    }
}

/// Drops what can be dropped, in large pieces first.
fn drop_items<T: Clone>(mut items: Vec<T>, holds: impl Fn(&[T]) -> bool) -> Vec<T> {
    let mut size = items.len();
    while size > 0 {
        let mut start = 0;
        while start < items.len() {
            let mut fewer = items.clone();
            fewer.drain(start..items.len().min(start + size));
            if holds(&fewer) {
                items = fewer;
            } else {
                start += size;
            }
        }
        size /= 2;
    }
    items
}

/// Takes a candidate for which the test holds, again and again until there is none.
fn keep_first(book: &mut Book, candidates: fn(&Book) -> Vec<Book>, holds: impl Fn(&Book) -> bool) {
    while let Some(simpler) = candidates(book).into_iter().find(|book| holds(book)) {
        *book = simpler;
    }
}

/// The book without one of its interactions, the later ones numbered anew.
fn without_each_interaction(book: &Book) -> Vec<Book> {
    let candidate = |(key, send): (u32, usize)| {
        let others = book.steps.iter().enumerate().filter(|(index, _)| *index != send);
        let steps = others.filter_map(|(_, step)| without(step, Field::Key, key)).collect();
        Book { steps, ..book.clone() }
    };
    (0..).zip(sends_that_are_taken(book)).map(candidate).collect()
}

fn sends_that_are_taken(book: &Book) -> Vec<usize> {
    let Ok(mut machine) = Machine::setup(book.stores, &book.actors) else { return Vec::new() };
    let mut taken = |step: &Step| machine.take(*step).is_ok() && step.kind() == 1;
    (0..book.steps.len()).filter(|&index| taken(&book.steps[index])).collect()
}

/// The book without one of its actors, the later ones numbered anew.
fn without_each_actor(book: &Book) -> Vec<Book> {
    let candidate = |index: usize| {
        let mut actors = book.actors.clone();
        actors.remove(index);
        let steps = book.steps.iter().filter_map(|step| without(step, Field::Actor, index as u32));
        Book { actors, steps: steps.collect(), ..book.clone() }
    };
    (0..book.actors.len()).map(candidate).collect()
}

/// The book without one of its stores, the later ones numbered anew.
fn without_each_store(book: &Book) -> Vec<Book> {
    let candidate = |store: u8| {
        let steps = book.steps.iter().filter_map(|step| without(step, Field::Store, store.into()));
        let actor = |actor: &ActorSetup| ActorSetup {
            home: actor.home - u8::from(actor.home > store),
            list: without_bit(actor.list.into(), store.into()) as u8,
        };
        let actors = book.actors.iter().map(actor).collect();
        Book { stores: book.stores - 1, actors, steps: steps.collect() }
    };
    (0..book.stores.min(8)).map(candidate).collect()
}

/// The step where that key, actor or store was never there, or nothing if it is about it.
fn without(step: &Step, field: Field, number: u32) -> Option<Step> {
    let (kind, mut values) = step.values();
    for (value, &has) in values.iter_mut().zip(fields(kind)?) {
        if has == field && *value == number {
            return None;
        }
        if has == field {
            *value -= u32::from(*value > number);
        }
        if has == Field::Causes && field == Field::Key {
            *value = without_bit(*value, number);
        }
    }
    Some(Step::from_values(kind, &values))
}

/// The set without that number, the higher ones moved down.
fn without_bit(set: u32, number: u32) -> u32 {
    let below = (1 << number) - 1;
    set & below | set >> 1 & !below
}

/// The book with a store less in a list.
fn with_shorter_lists(book: &Book) -> Vec<Book> {
    let mut simpler = Vec::new();
    for (index, actor) in book.actors.iter().enumerate() {
        for store in members(actor.list.into()) {
            let mut fewer = book.clone();
            fewer.actors[index].list ^= 1 << store;
            simpler.push(fewer);
        }
    }
    simpler
}

/// The book with one field of one step smaller.
fn with_simpler_fields(book: &Book) -> Vec<Book> {
    let mut simpler = Vec::new();
    for (index, step) in book.steps.iter().enumerate() {
        let (kind, values) = step.values();
        for (field, &value) in values.iter().enumerate().filter(|(_, value)| **value > 0) {
            for smaller in [0, value / 2, value - 1] {
                let mut fewer = values.clone();
                fewer[field] = smaller;
                let mut candidate = book.clone();
                candidate.steps[index] = Step::from_values(kind, &fewer);
                simpler.push(candidate);
            }
        }
    }
    simpler
}

/// A smaller file of messages for which the test still holds.
pub fn shrink_messages(bytes: Vec<u8>, holds: &Test) -> Vec<u8> {
    let Some(mut messages) = messages::read(&bytes) else { return drop_items(bytes, holds) };
    loop {
        let before = messages.clone();
        messages = drop_items(messages, |fewer| holds(&messages::write(fewer)));
        while let Some(simpler) = with_simpler_numbers(&messages)
            .into_iter()
            .find(|simpler| holds(&messages::write(simpler)))
        {
            messages = simpler;
        }
        if messages == before {
            return messages::write(&messages);
        }
    }
}

/// The messages with one number smaller, everywhere that it stands.
fn with_simpler_numbers(messages: &[Message]) -> Vec<Vec<Message>> {
    let mut numbers: Vec<u32> = messages.iter().flat_map(numbers_of).collect();
    numbers.sort_unstable();
    numbers.dedup();
    let mut simpler = Vec::new();
    for number in numbers.into_iter().filter(|&number| number > 0) {
        for smaller in [0, number / 2, number - 1] {
            let replace = |found| if found == number { smaller } else { found };
            simpler.push(messages.iter().map(|message| with_numbers(message, replace)).collect());
        }
    }
    simpler
}

fn numbers_of(message: &Message) -> Vec<u32> {
    let fields = message.said.fields();
    [&[message.sender][..], &message.activity.numbers(), &fields].concat()
}

fn with_numbers(message: &Message, replace: impl Fn(u32) -> u32 + Copy) -> Message {
    let fields: Vec<u32> = message.said.fields().into_iter().map(replace).collect();
    let said = Said::from_fields(message.said.kind(), &fields).expect("the kind is known");
    let activity = Activity::from_numbers(message.activity.numbers().map(replace));
    Message { sender: replace(message.sender), activity, said }
}
