//! The eighteen kinds of step.

use crate::machine::View;

/// One step with its fields, which may name things that aren't in the machine.
#[derive(Clone, Copy, PartialEq, Eq, Debug)]
pub enum Step {
    Send { from: u8, to: u8, own: u8, data: u32, causes: u16 },
    Receive { key: u8 },
    PreCheck { actor: u8 },
    SendRecord { actor: u8 },
    Timeout { actor: u8, store: u8 },
    TakeRecord { store: u8, view: View },
    TakeAck { store: u8, view: View },
    PostCheck { actor: u8 },
    TakeRepair { view: View },
    SendUpdate { view: View },
    TakeUpdate { store: u8, view: View },
    TakeUack { store: u8, view: View },
    CoordinatorTimeout { view: View },
    Lose { what: u8, store: u8, view: View },
    Crash { store: u8 },
    Restart { store: u8 },
    Checkpoint { store: u8 },
    Duplicate { what: u8, store: u8, view: View },
}

/// How many kinds there are; they are numbered from 1.
pub const KINDS: u8 = 18;

/// What a field of a step stands for.
#[derive(Clone, Copy, PartialEq, Eq, Debug)]
pub enum Field {
    Actor,
    Store,
    Key,
    Role,
    What,
    Data,
    Causes,
}

impl Field {
    /// How many bytes the field takes in a book.
    pub fn width(self) -> usize {
        match self {
            Field::Data => 4,
            Field::Causes => 2,
            _ => 1,
        }
    }
}

/// The fields of a kind in the book's order, or nothing for an unknown kind.
pub fn fields(kind: u8) -> Option<&'static [Field]> {
    use Field::*;
    match kind {
        1 => Some(&[Actor, Actor, Store, Data, Causes]),
        2 => Some(&[Key]),
        3 | 4 | 8 => Some(&[Actor]),
        5 => Some(&[Actor, Store]),
        6 | 7 | 11 | 12 => Some(&[Store, Key, Role]),
        9 | 10 | 13 => Some(&[Key, Role]),
        14 | 18 => Some(&[What, Store, Key, Role]),
        15..=17 => Some(&[Store]),
        _ => None,
    }
}

impl Step {
    pub fn kind(&self) -> u8 {
        self.values().0
    }

    /// The kind's number and the fields in the book's order.
    pub fn values(&self) -> (u8, Vec<u32>) {
        fn at(store: u8, view: View) -> Vec<u32> {
            vec![store.into(), view.key.into(), view.role.into()]
        }
        fn of(view: View) -> Vec<u32> {
            vec![view.key.into(), view.role.into()]
        }
        fn copy(what: u8, store: u8, view: View) -> Vec<u32> {
            [vec![what.into()], at(store, view)].concat()
        }
        match *self {
            Step::Send { from, to, own, data, causes } => {
                (1, vec![from.into(), to.into(), own.into(), data, causes.into()])
            }
            Step::Receive { key } => (2, vec![key.into()]),
            Step::PreCheck { actor } => (3, vec![actor.into()]),
            Step::SendRecord { actor } => (4, vec![actor.into()]),
            Step::Timeout { actor, store } => (5, vec![actor.into(), store.into()]),
            Step::TakeRecord { store, view } => (6, at(store, view)),
            Step::TakeAck { store, view } => (7, at(store, view)),
            Step::PostCheck { actor } => (8, vec![actor.into()]),
            Step::TakeRepair { view } => (9, of(view)),
            Step::SendUpdate { view } => (10, of(view)),
            Step::TakeUpdate { store, view } => (11, at(store, view)),
            Step::TakeUack { store, view } => (12, at(store, view)),
            Step::CoordinatorTimeout { view } => (13, of(view)),
            Step::Lose { what, store, view } => (14, copy(what, store, view)),
            Step::Crash { store } => (15, vec![store.into()]),
            Step::Restart { store } => (16, vec![store.into()]),
            Step::Checkpoint { store } => (17, vec![store.into()]),
            Step::Duplicate { what, store, view } => (18, copy(what, store, view)),
        }
    }

    /// The step with these values; each is cut down to its field's width.
    ///
    /// # Panics
    /// If the kind is unknown or has another number of fields.
    pub fn from_values(kind: u8, values: &[u32]) -> Step {
        let byte = |field: usize| values[field] as u8;
        let view = |field: usize| View { key: byte(field), role: byte(field + 1) };
        let (actor, store) = (byte(0), byte(0));
        match kind {
            1 => Step::Send {
                from: byte(0),
                to: byte(1),
                own: byte(2),
                data: values[3],
                causes: values[4] as u16,
            },
            2 => Step::Receive { key: byte(0) },
            3 => Step::PreCheck { actor },
            4 => Step::SendRecord { actor },
            5 => Step::Timeout { actor, store: byte(1) },
            6 => Step::TakeRecord { store, view: view(1) },
            7 => Step::TakeAck { store, view: view(1) },
            8 => Step::PostCheck { actor },
            9 => Step::TakeRepair { view: view(0) },
            10 => Step::SendUpdate { view: view(0) },
            11 => Step::TakeUpdate { store, view: view(1) },
            12 => Step::TakeUack { store, view: view(1) },
            13 => Step::CoordinatorTimeout { view: view(0) },
            14 => Step::Lose { what: byte(0), store: byte(1), view: view(2) },
            15 => Step::Crash { store },
            16 => Step::Restart { store },
            17 => Step::Checkpoint { store },
            18 => Step::Duplicate { what: byte(0), store: byte(1), view: view(2) },
            _ => panic!("there is no kind {kind}"),
        }
    }
}
