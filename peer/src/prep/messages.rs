//! The messages of the first PReP, and their bytes.

use std::fmt;

/// One exchange between a client and a service.
#[derive(Clone, Copy, PartialEq, Eq, Debug)]
pub struct Activity {
    pub session: u32,
    pub nonce: u32,
    pub thread: u32,
    pub client: u32,
    pub service: u32,
}

impl Activity {
    pub fn numbers(&self) -> [u32; 5] {
        [self.session, self.nonce, self.thread, self.client, self.service]
    }

    pub fn from_numbers([session, nonce, thread, client, service]: [u32; 5]) -> Activity {
        Activity { session, nonce, thread, client, service }
    }
}

/// What a message says, with its fields.
#[derive(Clone, Copy, PartialEq, Eq, Debug)]
pub enum Said {
    Negotiation { list: u32, accepted: u32, extra: u32 },
    Invocation { extra: u32, data: u32 },
    Result { extra: u32, data: u32 },
    Finished { count: u32 },
    Additional { extra: u32 },
}

/// How many fields each kind has, kind 0 first.
pub const FIELDS: [usize; 5] = [3, 2, 2, 1, 1];

/// What each kind is called, kind 0 first.
pub const NAMES: [&str; 5] =
    ["negotiation", "invocation", "result", "submission-finished", "additional"];

impl Said {
    pub fn kind(&self) -> u8 {
        match self {
            Said::Negotiation { .. } => 0,
            Said::Invocation { .. } => 1,
            Said::Result { .. } => 2,
            Said::Finished { .. } => 3,
            Said::Additional { .. } => 4,
        }
    }

    pub fn fields(&self) -> Vec<u32> {
        match *self {
            Said::Negotiation { list, accepted, extra } => vec![list, accepted, extra],
            Said::Invocation { extra, data } | Said::Result { extra, data } => vec![extra, data],
            Said::Finished { count } => vec![count],
            Said::Additional { extra } => vec![extra],
        }
    }

    /// What is said with these fields, or nothing for an unknown kind.
    ///
    /// # Panics
    /// If the kind has more fields than there are.
    pub fn from_fields(kind: u8, fields: &[u32]) -> Option<Said> {
        Some(match kind {
            0 => Said::Negotiation { list: fields[0], accepted: fields[1], extra: fields[2] },
            1 => Said::Invocation { extra: fields[0], data: fields[1] },
            2 => Said::Result { extra: fields[0], data: fields[1] },
            3 => Said::Finished { count: fields[0] },
            4 => Said::Additional { extra: fields[0] },
            _ => return None,
        })
    }
}

#[derive(Clone, Copy, PartialEq, Eq, Debug)]
pub struct Message {
    pub sender: u32,
    pub activity: Activity,
    pub said: Said,
}

impl fmt::Display for Message {
    fn fmt(&self, out: &mut fmt::Formatter) -> fmt::Result {
        write!(out, "from {} activity", self.sender)?;
        self.activity.numbers().iter().try_for_each(|number| write!(out, " {number}"))?;
        write!(out, " {}", NAMES[usize::from(self.said.kind())])?;
        self.said.fields().iter().try_for_each(|field| write!(out, " {field}"))
    }
}

/// The messages that these bytes are, or nothing where they don't fit the form.
pub fn read(bytes: &[u8]) -> Option<Vec<Message>> {
    let (count, mut rest) = bytes.split_first_chunk()?;
    let messages = (0..u16::from_le_bytes(*count)).map(|_| read_message(&mut rest));
    let messages = messages.collect::<Option<_>>()?;
    rest.is_empty().then_some(messages)
}

fn read_message(rest: &mut &[u8]) -> Option<Message> {
    let sender = read_number(rest)?;
    let mut numbers = [0; 5];
    for number in &mut numbers {
        *number = read_number(rest)?;
    }
    let (&kind, behind) = rest.split_first()?;
    *rest = behind;
    let count = *FIELDS.get(usize::from(kind))?;
    let fields = (0..count).map(|_| read_number(rest)).collect::<Option<Vec<_>>>()?;
    let said = Said::from_fields(kind, &fields)?;
    Some(Message { sender, activity: Activity::from_numbers(numbers), said })
}

fn read_number(rest: &mut &[u8]) -> Option<u32> {
    let (bytes, behind) = rest.split_first_chunk()?;
    *rest = behind;
    Some(u32::from_le_bytes(*bytes))
}

/// The bytes of so many messages.
///
/// # Panics
/// If two bytes don't hold their count.
pub fn write(messages: &[Message]) -> Vec<u8> {
    let count = u16::try_from(messages.len()).expect("two bytes hold the count");
    let mut bytes = count.to_le_bytes().to_vec();
    for Message { sender, activity, said } in messages {
        let before = [sender].into_iter().copied().chain(activity.numbers());
        bytes.extend(before.flat_map(u32::to_le_bytes));
        bytes.push(said.kind());
        bytes.extend(said.fields().into_iter().flat_map(u32::to_le_bytes));
    }
    bytes
}
