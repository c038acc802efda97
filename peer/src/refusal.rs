//! The refusal numbers of what books are about.

/// Why a call was refused. Zero, taken, is `Ok`.
#[derive(Clone, Copy, PartialEq, Eq, Debug)]
#[repr(u8)]
pub enum Refusal {
    /// The machine value is broken.
    Broken = 1,
    /// An actor, store, key, role or what isn't in this machine.
    NotInMachine = 2,
    /// From equals to.
    ToItself = 3,
    /// Sixteen interactions are made.
    SixteenMade = 4,
    /// The store is down.
    StoreDown = 5,
    /// A restart of a store that is up.
    StoreUp = 6,
    /// The phase, status or copy that the rule needs isn't there.
    NotThere = 7,
    /// The store isn't in the list, or in a timeout is the current one at three tries.
    NotListed = 8,
    /// A cause that from hasn't received, or that isn't made.
    NotReceived = 9,
    /// The book is malformed.
    Malformed = 10,
    /// The setup is illegal.
    IllegalSetup = 11,
    /// The answer buffer is shorter than the steps.
    ShortBuffer = 12,
    /// The walk meets an open interaction.
    Open = 13,
    /// A pair rule other than 1 or 2.
    NoSuchRule = 19,
    /// The key's word isn't a forecast.
    NotForecast = 20,
}

impl Refusal {
    /// One more than the highest number that a step or a walk answers, for tables indexed by the answer.
    pub const NUMBERS: usize = 14;

    /// Refuses if the condition holds, so that a rule reads as its list of refusals.
    pub fn when(self, condition: bool) -> Result<(), Refusal> {
        if condition {
            Err(self)
        } else {
            Ok(())
        }
    }
}

/// The number of an outcome.
pub fn number<T>(outcome: &Result<T, Refusal>) -> u8 {
    match outcome {
        Ok(_) => 0,
        Err(refusal) => *refusal as u8,
    }
}
