//! The walk back from an interaction over its causes, by the links that last in the stores.

use crate::machine::{members, Contents, Machine, View};
use crate::refusal::Refusal;

/// What a walk answers.
#[derive(Clone, PartialEq, Eq, Debug, Default)]
pub struct Walk {
    /// The key and all that led to it, each once, in the order first met.
    pub keys: Vec<u8>,
    /// How many store entries were looked up.
    pub lookups: usize,
}

impl Machine {
    /// The walk back from a key. A refused one has no keys and made no lookups that count.
    pub fn walk(&self, key: u8) -> Result<Walk, Refusal> {
        Refusal::Broken.when(self.is_broken())?;
        Refusal::NotInMachine.when(key >= self.interaction_count)?;
        let settled_store = self.record(View::sender(key)).store;
        let mut walk = Walk::default();
        self.visit(key, settled_store, &mut walk)?;
        Ok(walk)
    }

    /// Meets the sender record of a key in that store, then each of its causes, depth first.
    fn visit(&self, key: u8, store: u8, walk: &mut Walk) -> Result<(), Refusal> {
        Refusal::Open.when(!self.is_closed(key))?;
        let contents = self.look_up(store, View::sender(key), walk)?;
        walk.keys.push(key);
        for cause in members(contents.causes) {
            // A key met again isn't looked up again, and costs nothing.
            if !walk.keys.contains(&cause) {
                let link = contents.cause_links[usize::from(cause)];
                let store = self.viewlink_of_receipt(link, cause, walk)?;
                self.visit(cause, store, walk)?;
            }
        }
        Ok(())
    }

    /// Where the receipt in that store says that the sender's record is.
    fn viewlink_of_receipt(&self, store: u8, key: u8, walk: &mut Walk) -> Result<u8, Refusal> {
        let receipt = View::receiver(key);
        self.look_up(store, receipt, walk)?;
        self.lasting(store, receipt).viewlink.ok_or(Refusal::Open)
    }

    /// What a store holds of a view. Its viewlink stands beside it and costs no lookup more.
    fn look_up(&self, store: u8, view: View, walk: &mut Walk) -> Result<&Contents, Refusal> {
        walk.lookups += 1;
        self.lasting(store, view).contents.as_ref().ok_or(Refusal::Open)
    }
}
