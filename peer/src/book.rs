//! The run book: its bytes, and a run over them.

use std::fmt;

use crate::machine::{ActorSetup, Machine};
use crate::refusal::{number, Refusal};
use crate::step::{fields, Step};
use crate::text::kind_name;

pub const MAX_STEPS: usize = 4096;

/// A well-formed book. Its setup may be illegal and its steps may be refused.
#[derive(Clone, PartialEq, Eq, Debug)]
pub struct Book {
    pub stores: u8,
    pub actors: Vec<ActorSetup>,
    pub steps: Vec<Step>,
}

/// Why bytes are no book, and the first byte at which they can't be one.
#[derive(Clone, PartialEq, Eq, Debug)]
pub struct Malformed {
    pub at: usize,
    pub reason: String,
}

impl fmt::Display for Malformed {
    fn fmt(&self, out: &mut fmt::Formatter) -> fmt::Result {
        write!(out, "reading stops at byte {}: {}", self.at, self.reason)
    }
}

impl From<Malformed> for Refusal {
    fn from(_: Malformed) -> Refusal {
        Refusal::Malformed
    }
}

impl Book {
    /// Reads a whole book for its form alone.
    pub fn read(bytes: &[u8]) -> Result<Book, Malformed> {
        let mut reader = Reader { bytes, at: 0 };
        let stores = reader.number(1).ok_or_else(|| reader.ends_in("the count of stores"))?;
        let actor_count = reader.number(1).ok_or_else(|| reader.ends_in("the count of actors"))?;
        let actors = (0..actor_count).map(|index| reader.actor(index)).collect::<Result<_, _>>()?;
        let steps = (0..reader.step_count()?).map(|index| reader.step(index));
        let steps = steps.collect::<Result<_, _>>()?;
        reader.end()?;
        Ok(Book { stores: stores as u8, actors, steps })
    }

    /// The book as bytes. One with more than 255 actors or 65,535 steps has none.
    pub fn bytes(&self) -> Vec<u8> {
        let actor_count = u8::try_from(self.actors.len()).expect("a book has 255 actors at most");
        let step_count = u16::try_from(self.steps.len()).expect("two bytes hold the step count");
        let mut bytes = vec![self.stores, actor_count];
        for actor in &self.actors {
            bytes.extend([actor.home, actor.list]);
        }
        bytes.extend(step_count.to_le_bytes());
        for step in &self.steps {
            write_step(step, &mut bytes);
        }
        bytes
    }
}

fn write_step(step: &Step, bytes: &mut Vec<u8>) {
    let (kind, values) = step.values();
    bytes.push(kind);
    for (value, field) in values.iter().zip(fields(kind).unwrap_or_default()) {
        bytes.extend(&value.to_le_bytes()[..field.width()]);
    }
}

/// Runs the book that these bytes are. Each step's answer goes into the buffer at its index;
/// a refused step doesn't stop the run. A refused book writes nothing.
pub fn run(bytes: &[u8], answers: &mut [u8]) -> Result<Machine, Refusal> {
    let book = Book::read(bytes)?;
    let mut machine = Machine::setup(book.stores, &book.actors)?;
    Refusal::ShortBuffer.when(answers.len() < book.steps.len())?;
    for (step, answer) in book.steps.iter().zip(answers) {
        *answer = number(&machine.take_unbroken(*step));
    }
    Ok(machine)
}

/// A book's bytes and how many of them are read.
struct Reader<'a> {
    bytes: &'a [u8],
    at: usize,
}

impl Reader<'_> {
    /// A number of that many bytes, low first, or nothing where they aren't all there.
    fn number(&mut self, width: usize) -> Option<u32> {
        let bytes = self.bytes.get(self.at..self.at + width)?;
        self.at += width;
        Some(bytes.iter().rev().fold(0, |high, &byte| high << 8 | u32::from(byte)))
    }

    fn actor(&mut self, index: u32) -> Result<ActorSetup, Malformed> {
        let row = self.number(2).ok_or_else(|| self.ends_in(&format!("actor {index}")))?;
        let [home, list, ..] = row.to_le_bytes();
        Ok(ActorSetup { home, list })
    }

    fn step_count(&mut self) -> Result<u32, Malformed> {
        let at = self.at;
        let count = self.number(2).ok_or_else(|| self.ends_in("the count of steps"))?;
        if count > MAX_STEPS as u32 {
            let reason = format!("{count} steps are more than {MAX_STEPS}");
            return Err(Malformed { at, reason });
        }
        Ok(count)
    }

    fn step(&mut self, index: u32) -> Result<Step, Malformed> {
        let at = self.at;
        let kind = self.number(1).ok_or_else(|| self.ends_in(&format!("step {index}")))? as u8;
        let unknown = || format!("step {index} has kind {kind}, and there is none");
        let fields = fields(kind).ok_or_else(|| Malformed { at, reason: unknown() })?;
        let values = fields.iter().map(|field| self.number(field.width()));
        let values: Option<Vec<u32>> = values.collect();
        let within = || format!("step {index}, a {}", kind_name(kind));
        let values = values.ok_or_else(|| self.ends_in(&within()))?;
        Ok(Step::from_values(kind, &values))
    }

    fn end(&self) -> Result<(), Malformed> {
        match self.bytes.len() - self.at {
            0 => Ok(()),
            more => {
                let reason = format!("the last step ends before it, and {more} more follow");
                Err(Malformed { at: self.at, reason })
            }
        }
    }

    fn ends_in(&self, part: &str) -> Malformed {
        Malformed { at: self.bytes.len(), reason: format!("the book ends within {part}") }
    }
}
