//! What the program `prep` prints for a file of messages.

use std::fmt::{self, Write};

use super::messages::{self, Message};
use super::{Entry, Store};
use crate::programs::MAX_INPUT;

/// The answer to each message, then the tables of each activity.
pub fn prep(input: &[u8]) -> String {
    let readable = input.len() <= MAX_INPUT;
    let Some(messages) = messages::read(input).filter(|_| readable) else {
        return "refused 10\n".to_string();
    };
    let mut out = String::new();
    let mut store = Store::default();
    answers(&mut out, &mut store, &messages)
        .and_then(|()| store.entries.iter().try_for_each(|entry| tables(&mut out, entry)))
        .expect("a string takes every line");
    out
}

fn answers(out: &mut String, store: &mut Store, messages: &[Message]) -> fmt::Result {
    messages.iter().try_for_each(|message| match store.take(message) {
        Ok(answer) => {
            let kind = message.said.kind().to_string();
            let acknowledged = if answer.acknowledged { &kind } else { "-" };
            writeln!(out, "0 {acknowledged} {}", u8::from(answer.finished))
        }
        Err(refusal) => writeln!(out, "{} - 0", refusal as u8),
    })
}

fn tables(out: &mut String, entry: &Entry) -> fmt::Result {
    writeln!(out, "{}", line(entry.activity.numbers()))?;
    let complete = u8::from(entry.is_complete());
    for (side, table) in [&entry.client, &entry.service].into_iter().enumerate() {
        write!(out, "{side} {complete}")?;
        for said in table.messages() {
            write!(out, " {} {}", said.kind(), line(said.fields()))?;
        }
        writeln!(out)?;
    }
    Ok(())
}

fn line(numbers: impl IntoIterator<Item = u32>) -> String {
    let words: Vec<String> = numbers.into_iter().map(|number| number.to_string()).collect();
    words.join(" ")
}
