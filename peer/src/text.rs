//! The text form of a book: one line for each thing, `#` begins a comment.
//!
//! A form is a line's pattern. Its words in small letters stand for themselves, those in
//! capitals for values: LIST and CAUSES for numbers (or `-` for none) to the end of the line,
//! WHAT for a message's name or number, DATA for 32 bits, any other for a byte.

use std::fmt;
use std::iter;
use std::str::SplitWhitespace;

use crate::book::{Book, MAX_STEPS};
use crate::machine::{contains, members, ActorSetup};
use crate::step::{Step, KINDS};

pub const STORES_FORM: &str = "stores STORES";
pub const ACTOR_FORM: &str = "actor home HOME list LIST";

/// The form of each kind of step, kind 1 first.
pub const STEP_FORMS: [&str; KINDS as usize] = [
    "send FROM TO own OWN data DATA causes CAUSES",
    "receive KEY",
    "pre-check ACTOR",
    "send-record ACTOR",
    "timeout ACTOR store STORE",
    "take-record store STORE key KEY role ROLE",
    "take-ack store STORE key KEY role ROLE",
    "post-check ACTOR",
    "take-repair key KEY role ROLE",
    "send-update key KEY role ROLE",
    "take-update store STORE key KEY role ROLE",
    "take-uack store STORE key KEY role ROLE",
    "coordinator-timeout key KEY role ROLE",
    "lose WHAT store STORE key KEY role ROLE",
    "crash STORE",
    "restart STORE",
    "checkpoint STORE",
    "duplicate WHAT store STORE key KEY role ROLE",
];

/// The names of the messages that can be lost and repeated, by their numbers.
pub const WHATS: [&str; 4] = ["record", "ack", "update", "uack"];

/// What is wrong with a text, and in which line.
#[derive(Clone, PartialEq, Eq, Debug)]
pub struct TextError {
    pub line: usize,
    pub reason: String,
}

impl fmt::Display for TextError {
    fn fmt(&self, out: &mut fmt::Formatter) -> fmt::Result {
        write!(out, "line {}: {}", self.line, self.reason)
    }
}

/// The name of a kind of step in the text form.
pub fn kind_name(kind: u8) -> &'static str {
    first_word(STEP_FORMS[usize::from(kind) - 1])
}

/// The text of a book, without comments.
pub fn write(book: &Book) -> String {
    let mut lines = vec![line(STORES_FORM, &[book.stores.into()])];
    for actor in &book.actors {
        lines.push(line(ACTOR_FORM, &[actor.home.into(), actor.list.into()]));
    }
    lines.extend(book.steps.iter().map(step_line));
    lines.join("\n") + "\n"
}

/// The line of a step.
pub fn step_line(step: &Step) -> String {
    let (kind, values) = step.values();
    line(STEP_FORMS[usize::from(kind) - 1], &values)
}

fn line(form: &str, values: &[u32]) -> String {
    let mut values = values.iter();
    let mut words = Vec::new();
    for part in form.split(' ') {
        words.push(match Slot::of(part) {
            None => part.to_string(),
            Some(slot) => slot.word(*values.next().expect("a form has a slot for each value")),
        });
    }
    words.join(" ")
}

/// Reads a text. The stores come first, then the actors, then the steps.
pub fn read(text: &str) -> Result<Book, TextError> {
    let mut stores = None;
    let mut book = Book { stores: 0, actors: Vec::new(), steps: Vec::new() };
    for (number, line) in (1..).zip(text.lines()) {
        let line = line.split('#').next().unwrap_or_default();
        if let Some(word) = line.split_whitespace().next() {
            read_line(&mut stores, &mut book, word, line)
                .map_err(|reason| TextError { line: number, reason })?;
        }
    }
    let end = text.lines().count() + 1;
    let missing = || TextError { line: end, reason: format!("`{STORES_FORM}` is missing") };
    book.stores = stores.ok_or_else(missing)?;
    Ok(book)
}

fn read_line(
    stores: &mut Option<u8>,
    book: &mut Book,
    word: &str,
    line: &str,
) -> Result<(), String> {
    if word == first_word(STORES_FORM) {
        if stores.is_some() {
            return Err("the stores are given already".to_string());
        }
        *stores = Some(read_values(STORES_FORM, line)?[0] as u8);
        return Ok(());
    }
    if stores.is_none() {
        return Err(format!("`{STORES_FORM}` comes before `{word}`"));
    }
    if word == first_word(ACTOR_FORM) {
        read_actor(book, line)
    } else {
        read_step(book, word, line)
    }
}

fn read_actor(book: &mut Book, line: &str) -> Result<(), String> {
    let values = read_values(ACTOR_FORM, line)?;
    if !book.steps.is_empty() {
        return Err("an actor comes before the first step".to_string());
    }
    if book.actors.len() == usize::from(u8::MAX) {
        return Err(format!("a book has at most {} actors", u8::MAX));
    }
    book.actors.push(ActorSetup { home: values[0] as u8, list: values[1] as u8 });
    Ok(())
}

fn read_step(book: &mut Book, word: &str, line: &str) -> Result<(), String> {
    let (kind, form) = (1..)
        .zip(STEP_FORMS)
        .find(|(_, form)| first_word(form) == word)
        .ok_or_else(|| format!("no line begins with `{word}`"))?;
    let values = read_values(form, line)?;
    if book.steps.len() == MAX_STEPS {
        return Err(format!("a book has at most {MAX_STEPS} steps"));
    }
    book.steps.push(Step::from_values(kind, &values));
    Ok(())
}

fn first_word(form: &str) -> &str {
    form.split(' ').next().unwrap_or_default()
}

/// The values of a line that follows the form.
fn read_values(form: &str, line: &str) -> Result<Vec<u32>, String> {
    let mut words = line.split_whitespace();
    let mut values = Vec::new();
    let mut read = || -> Result<(), String> {
        for part in form.split(' ') {
            match Slot::of(part) {
                Some(slot) => values.push(slot.read(&mut words)?),
                None => expect_word(part, words.next())?,
            }
        }
        words.next().map_or(Ok(()), |more| Err(format!("`{more}` is too much")))
    };
    read().map_err(|reason| format!("{reason}; the form is `{form}`"))?;
    Ok(values)
}

fn expect_word(expected: &str, found: Option<&str>) -> Result<(), String> {
    match found {
        Some(word) if word == expected => Ok(()),
        Some(word) => Err(format!("`{word}` stands where `{expected}` is expected")),
        None => Err(format!("`{expected}` is missing")),
    }
}

/// What a word in capitals stands for, with its name.
enum Slot<'a> {
    Number { name: &'a str, highest: u32 },
    What,
    Set { name: &'a str, highest: u8 },
}

impl<'a> Slot<'a> {
    fn of(part: &'a str) -> Option<Slot<'a>> {
        match part {
            "LIST" => Some(Slot::Set { name: part, highest: 7 }),
            "CAUSES" => Some(Slot::Set { name: part, highest: 15 }),
            "WHAT" => Some(Slot::What),
            "DATA" => Some(Slot::Number { name: part, highest: u32::MAX }),
            name if name.starts_with(char::is_uppercase) => {
                Some(Slot::Number { name, highest: u8::MAX.into() })
            }
            _ => None,
        }
    }

    fn word(&self, value: u32) -> String {
        match self {
            Slot::Number { .. } => value.to_string(),
            Slot::What => match WHATS.get(value as usize) {
                Some(name) => name.to_string(),
                None => value.to_string(),
            },
            Slot::Set { .. } if value == 0 => "-".to_string(),
            Slot::Set { .. } => {
                members(value as u16).map(|n| n.to_string()).collect::<Vec<_>>().join(" ")
            }
        }
    }

    fn read(&self, words: &mut SplitWhitespace) -> Result<u32, String> {
        match *self {
            Slot::Number { name, highest } => read_number(name, highest, words.next()),
            Slot::What => {
                let word = words.next();
                match WHATS.iter().position(|&name| Some(name) == word) {
                    Some(what) => Ok(what as u32),
                    None => read_number("WHAT", u8::MAX.into(), word),
                }
            }
            Slot::Set { name, highest } => read_set(name, highest, words),
        }
    }
}

fn read_number(name: &str, highest: u32, word: Option<&str>) -> Result<u32, String> {
    let word = word.ok_or_else(|| format!("{name} is missing"))?;
    let is_decimal = word.bytes().all(|byte| byte.is_ascii_digit());
    word.parse()
        .ok()
        .filter(|&value| is_decimal && value <= highest)
        .ok_or_else(|| format!("{name} is a number from 0 to {highest}, not `{word}`"))
}

/// `-` for the empty set, or its numbers in any order.
fn read_set(name: &str, highest: u8, words: &mut SplitWhitespace) -> Result<u32, String> {
    let first = words.next().ok_or_else(|| format!("{name} is missing"))?;
    if first == "-" {
        return Ok(0);
    }
    let mut set = 0;
    for word in iter::once(first).chain(words) {
        let number = read_number(name, highest.into(), Some(word))?;
        if contains(set, number as u8) {
            return Err(format!("{name} has {number} twice"));
        }
        set |= 1 << number;
    }
    Ok(set.into())
}
