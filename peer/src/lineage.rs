//! The walk of a key as a PROV-N document.

use crate::machine::{members, Machine, View};
use crate::programs;
use crate::refusal::Refusal;

/// One interaction of a walk, as a PROV-N document tells it.
#[derive(Clone, PartialEq, Eq, Debug)]
pub struct Link {
    pub key: u8,
    pub sender: u8,
    pub causes: u16,
}

/// What a walk met, in its order.
pub fn chain(machine: &Machine, key: u8) -> Result<Vec<Link>, Refusal> {
    let link = |key: u8| {
        let record = machine.record(View::sender(key));
        Link { key, sender: record.actor, causes: record.causes }
    };
    Ok(machine.walk(key)?.keys.into_iter().map(link).collect())
}

/// The document of a chain, each line ended by a line feed.
pub fn document(chain: &[Link]) -> String {
    let mut lines = vec!["document".to_string(), "prefix r <urn:runs:>".to_string()];
    lines.extend(chain.iter().map(|link| format!("entity({})", entity(link.key))));
    lines.extend(
        senders(chain).into_iter().map(|sender| format!("activity({},-,-)", activity(sender))),
    );
    lines.extend(chain.iter().flat_map(statements));
    lines.push("endDocument".to_string());
    lines.join("\n") + "\n"
}

/// Each actor that sent one, in the order in which the walk first meets what it sent.
fn senders(chain: &[Link]) -> Vec<u8> {
    let mut senders = Vec::new();
    for link in chain {
        if !senders.contains(&link.sender) {
            senders.push(link.sender);
        }
    }
    senders
}

/// Who sent an interaction and, for each cause, rising, what its sender used for it.
fn statements(link: &Link) -> Vec<String> {
    let (effect, sender) = (entity(link.key), activity(link.sender));
    let mut lines = vec![format!("wasGeneratedBy({effect},{sender},-)")];
    for cause in members(link.causes).map(entity) {
        lines.push(format!("used({sender},{cause},-)"));
        lines.push(format!("wasDerivedFrom({effect},{cause})"));
    }
    lines
}

fn entity(key: u8) -> String {
    format!("r:i{key}")
}

fn activity(actor: u8) -> String {
    format!("r:a{actor}")
}

/// What the program `lineage` prints for its words and a book.
pub fn lineage(words: &[String], input: &[u8]) -> String {
    match of_book(words, input) {
        Ok(chain) => document(&chain),
        Err(refusal) => format!("refused {}\n", refusal as u8),
    }
}

/// The chain that the words ask for, of the machine that the book leads to.
fn of_book(words: &[String], input: &[u8]) -> Result<Vec<Link>, Refusal> {
    let machine = programs::machine_after(input, words.get(1))?;
    chain(&machine, programs::key_word(words.first())?)
}
