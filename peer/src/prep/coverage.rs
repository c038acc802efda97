//! What a range of generated message files covers.

use std::fmt;
use std::ops::Range;

use super::generate::generate;
use super::messages::{self, Message, Said, FIELDS, NAMES};
use super::{Refusal, Store, Table, FINISHED, MAX_ACTIVITIES};
use crate::programs::MAX_INPUT;

/// Something worth meeting in a run or at its end.
#[derive(Clone, Copy)]
enum Event {
    RepeatOther,
    SecondFinished,
    EqualAdditional,
    StrangerToFull,
    SeventeenthActivity,
    NinthAdditional,
    AdditionalAfterCompletion,
    RepeatAfterCompletion,
    OneActor,
    CountTooLow,
    CountTooHigh,
    FullAndComplete,
    Longest,
}

/// What each event is called, in their order.
const EVENT_NAMES: [&str; 13] = [
    "a second message of a kind with other fields",
    "a second submission finished",
    "two additional messages alike",
    "a stranger where the store is full",
    "a seventeenth activity",
    "a side's ninth additional message",
    "an additional message after completion",
    "a second message after completion",
    "an activity of one actor that told all",
    "an activity that lacks but a higher count",
    "an activity that lacks but a lower count",
    "sixteen activities, some of them complete",
    "a file as long as one may be",
];

/// Counts over the files of some seeds.
#[derive(Default)]
pub struct Coverage {
    files: usize,
    messages: usize,
    malformed: usize,
    /// By kind: taken, refused with 17, refused with 18.
    answers: [[usize; 3]; FIELDS.len()],
    /// By kind and side: how often it was an activity's last message.
    last: [[usize; 2]; FIELDS.len()],
    events: [usize; EVENT_NAMES.len()],
}

impl Coverage {
    pub fn of_seeds(seeds: Range<u64>) -> Coverage {
        let mut coverage = Coverage::default();
        for seed in seeds {
            coverage.add_file(&generate(seed));
        }
        coverage
    }

    fn add_file(&mut self, bytes: &[u8]) {
        self.files += 1;
        let readable = bytes.len() <= MAX_INPUT;
        let Some(messages) = messages::read(bytes).filter(|_| readable) else {
            self.malformed += 1;
            return;
        };
        self.add_event(Event::Longest, bytes.len() == MAX_INPUT);
        self.messages += messages.len();
        let mut store = Store::default();
        for message in &messages {
            self.add_message(&mut store, message);
        }
        self.add_end(&store);
    }

    fn add_message(&mut self, store: &mut Store, message: &Message) {
        let before = store.clone();
        let kind = usize::from(message.said.kind());
        let answer = store.take(message);
        let column = match answer {
            Ok(_) => 0,
            Err(Refusal::NeitherSide) => 1,
            Err(Refusal::Full) => 2,
        };
        self.answers[kind][column] += 1;
        if answer.is_ok_and(|answer| answer.finished) {
            let side = usize::from(message.sender != message.activity.client);
            self.last[kind][side] += 1;
        }
        match answer {
            Ok(_) => self.add_taken(&before, message),
            Err(refusal) => self.add_refused(&before, message, refusal),
        }
    }

    fn add_taken(&mut self, before: &Store, message: &Message) {
        let known = before.entries.iter().find(|entry| entry.activity == message.activity);
        let Some(entry) = known else { return };
        let client = message.sender == message.activity.client;
        let table = if client { &entry.client } else { &entry.service };
        let said = message.said;
        let kind = usize::from(said.kind());
        let held: Vec<Said> = table.messages().filter(|held| held.kind() == said.kind()).collect();
        let additional = matches!(said, Said::Additional { .. });
        let again = !additional && !held.is_empty();
        self.add_event(Event::RepeatOther, again && kind != FINISHED && !held.contains(&said));
        self.add_event(Event::SecondFinished, again && kind == FINISHED);
        self.add_event(Event::EqualAdditional, additional && held.contains(&said));
        self.add_event(Event::AdditionalAfterCompletion, additional && entry.is_complete());
        self.add_event(Event::RepeatAfterCompletion, again && entry.is_complete());
    }

    fn add_refused(&mut self, before: &Store, message: &Message, refusal: Refusal) {
        let known = before.entries.iter().any(|entry| entry.activity == message.activity);
        let full = before.entries.len() == MAX_ACTIVITIES && !known;
        self.add_event(Event::StrangerToFull, refusal == Refusal::NeitherSide && full);
        self.add_event(Event::SeventeenthActivity, refusal == Refusal::Full && full);
        self.add_event(Event::NinthAdditional, refusal == Refusal::Full && known);
    }

    fn add_end(&mut self, store: &Store) {
        let complete = store.entries.iter().filter(|entry| entry.is_complete()).count();
        let full = store.entries.len() == MAX_ACTIVITIES;
        self.add_event(Event::FullAndComplete, full && complete > 0);
        for entry in &store.entries {
            let counts = [&entry.client, &entry.service].map(announced_and_sent);
            let one_actor = entry.activity.client == entry.activity.service;
            self.add_event(
                Event::OneActor,
                one_actor && matches!(counts[0], Some((a, s)) if a == s),
            );
            let [Some(client), Some(service)] = counts else { continue };
            let low = client.0 < client.1 || service.0 < service.1;
            let high = client.0 > client.1 || service.0 > service.1;
            self.add_event(Event::CountTooLow, low && !high);
            self.add_event(Event::CountTooHigh, high && !low);
        }
    }

    fn add_event(&mut self, event: Event, met: bool) {
        self.events[event as usize] += usize::from(met);
    }

    /// What the store's rules allow and these files don't show.
    fn missing(&self) -> Vec<String> {
        let mut missing = Vec::new();
        for (kind, name) in NAMES.iter().enumerate() {
            let answers = [0, 17, 18].iter().zip(self.answers[kind]);
            let unseen = answers.filter(|(_, count)| *count == 0);
            missing.extend(unseen.map(|(answer, _)| format!("{name} answered {answer}")));
            let sides = ["client", "service"].iter().zip(self.last[kind]);
            let unseen = sides.filter(|(_, count)| *count == 0);
            missing.extend(unseen.map(|(side, _)| format!("{name} of the {side} as the last")));
        }
        let unseen = EVENT_NAMES.iter().zip(self.events).filter(|(_, count)| *count == 0);
        missing.extend(unseen.map(|(name, _)| name.to_string()));
        missing.extend((self.malformed == 0).then(|| "a malformed file".to_string()));
        missing
    }
}

/// What a side announced and what it sent, if it sent the four kinds that come once.
fn announced_and_sent(table: &Table) -> Option<(usize, usize)> {
    let messages: Vec<Said> = table.messages().collect();
    let finished = messages.get(FINISHED).filter(|said| usize::from(said.kind()) == FINISHED)?;
    Some((finished.fields()[0] as usize, messages.len()))
}

impl fmt::Display for Coverage {
    fn fmt(&self, out: &mut fmt::Formatter) -> fmt::Result {
        let Coverage { files, messages, malformed, .. } = self;
        writeln!(out, "files {files}, refused with 10 {malformed}, messages {messages}")?;
        writeln!(out)?;
        let titles = ["0", "17", "18", "completes as", "client's", "service's"];
        write!(out, "{:<22}", "answers")?;
        titles.iter().try_for_each(|title| write!(out, "{title:>13}"))?;
        writeln!(out)?;
        for (kind, name) in NAMES.iter().enumerate() {
            write!(out, "{kind:>2} {name:<19}")?;
            self.answers[kind].iter().try_for_each(|count| write!(out, "{count:>13}"))?;
            write!(out, "{:>13}", "")?;
            self.last[kind].iter().try_for_each(|count| write!(out, "{count:>13}"))?;
            writeln!(out)?;
        }
        writeln!(out)?;
        for (name, count) in EVENT_NAMES.iter().zip(self.events) {
            writeln!(out, "{count:>8}  {name}")?;
        }
        writeln!(out)?;
        match self.missing().as_slice() {
            [] => writeln!(out, "nothing is missing"),
            missing => missing.iter().try_for_each(|name| writeln!(out, "missing: {name}")),
        }
    }
}
