//! The provenance store of the first PReP, the protocol of 2004.
//!
//! It stands beside the recorder and shares nothing with it: [`messages`] come in as bytes, the
//! store here takes them one after another, and the [`program`] prints its answers and tables.

pub mod coverage;
pub mod generate;
pub mod messages;
pub mod program;

use messages::{Activity, Message, Said};

/// So many activities a store holds at most.
pub const MAX_ACTIVITIES: usize = 16;

/// So many additional messages a side holds at most.
pub const MAX_ADDITIONAL: usize = 8;

/// The kinds that a side holds once: negotiation, invocation, result, submission finished.
pub const KINDS_HELD_ONCE: usize = 4;

/// The kind of a submission finished.
pub const FINISHED: usize = 3;

/// Why a message is refused.
#[derive(Clone, Copy, PartialEq, Eq, Debug)]
#[repr(u8)]
pub enum Refusal {
    /// The sender is neither the activity's client nor its service.
    NeitherSide = 17,
    /// A seventeenth activity, or a side's ninth additional message.
    Full = 18,
}

/// What goes out when a message is taken.
#[derive(Clone, Copy, PartialEq, Eq, Debug)]
pub struct Answer {
    /// Whether the message itself is acknowledged to its sender.
    pub acknowledged: bool,
    /// Whether the finished acknowledgements go to both sides.
    pub finished: bool,
}

/// What one side has told about an activity.
#[derive(Clone, PartialEq, Eq, Debug, Default)]
pub struct Table {
    /// By kind: the first message of each.
    once: [Option<Said>; KINDS_HELD_ONCE],
    /// The extra of each additional message, in the order taken.
    additional: Vec<u32>,
}

impl Table {
    /// Every message held, kinds rising, additional ones in the order taken.
    pub fn messages(&self) -> impl Iterator<Item = Said> + '_ {
        let additional = self.additional.iter().map(|&extra| Said::Additional { extra });
        self.once.iter().flatten().copied().chain(additional)
    }

    /// The first four are there, and the count that was announced is that of what came.
    fn is_complete(&self) -> bool {
        let sent = KINDS_HELD_ONCE + self.additional.len();
        let announced = self.once[FINISHED].map(|finished| finished.fields()[0] as usize);
        self.once.iter().all(Option::is_some) && announced == Some(sent)
    }

    fn has_room_for(&self, said: Said) -> bool {
        !matches!(said, Said::Additional { .. }) || self.additional.len() < MAX_ADDITIONAL
    }

    /// A second message of a kind changes nothing, additional ones aside.
    fn put(&mut self, said: Said) {
        match said {
            Said::Additional { extra } => self.additional.push(extra),
            _ => drop(self.once[usize::from(said.kind())].get_or_insert(said)),
        }
    }
}

/// An activity with its two tables.
#[derive(Clone, PartialEq, Eq, Debug)]
pub struct Entry {
    pub activity: Activity,
    pub client: Table,
    pub service: Table,
}

impl Entry {
    fn new(activity: Activity) -> Entry {
        Entry { activity, client: Table::default(), service: Table::default() }
    }

    pub fn is_complete(&self) -> bool {
        self.client.is_complete() && self.service.is_complete()
    }

    /// The sender's table. One that is both client and service writes into the client's.
    fn table_of(&mut self, sender: u32) -> &mut Table {
        if sender == self.activity.client {
            &mut self.client
        } else {
            &mut self.service
        }
    }
}

/// The store: its activities, in the order of their first taken messages.
#[derive(Clone, PartialEq, Eq, Debug, Default)]
pub struct Store {
    pub entries: Vec<Entry>,
}

impl Store {
    /// Takes a message and says what goes out, or refuses it and changes nothing.
    pub fn take(&mut self, message: &Message) -> Result<Answer, Refusal> {
        let Message { sender, activity, said } = *message;
        if sender != activity.client && sender != activity.service {
            return Err(Refusal::NeitherSide);
        }
        let entry = self.entry_for(activity)?;
        let was_complete = entry.is_complete();
        let table = entry.table_of(sender);
        if !table.has_room_for(said) {
            return Err(Refusal::Full);
        }
        table.put(said);
        let finished = entry.is_complete() && !was_complete;
        // A submission finished is answered by the finished acknowledgement, at completion.
        Ok(Answer { acknowledged: usize::from(said.kind()) != FINISHED, finished })
    }

    /// The activity's entry, made if it isn't there. A new one is never too full, so that a
    /// message for which one is made is taken.
    fn entry_for(&mut self, activity: Activity) -> Result<&mut Entry, Refusal> {
        let known = self.entries.iter().position(|entry| entry.activity == activity);
        let place = known.unwrap_or(self.entries.len());
        if place == MAX_ACTIVITIES {
            return Err(Refusal::Full);
        }
        if place == self.entries.len() {
            self.entries.push(Entry::new(activity));
        }
        Ok(&mut self.entries[place])
    }
}
