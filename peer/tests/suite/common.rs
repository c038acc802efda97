//! Runs of books that are written as text.

use peer::book;
use peer::machine::Machine;
use peer::text;

/// Setup M of the marked runs.
pub const M: &str = "
    stores 3
    actor home 0 list 0 2
    actor home 1 list 1 2
";

/// Step S of the marked runs.
pub const S: &str = "send 0 1 own 0 data 7 causes -\n";

/// After S: the sender moves to store 2, which takes its record, makes a checkpoint and so
/// acknowledges it, and it settles.
pub const SENDER_MOVES: &str = "
    pre-check 0
    send-record 0
    timeout 0 store 2
    send-record 0
    take-record store 2 key 0 role 0
    checkpoint 2
    take-ack store 2 key 0 role 0
    post-check 0
";

/// The machine after a book, and the answer to each of its steps.
pub fn run(text: &str) -> (Machine, Vec<u8>) {
    let book = text::read(text).unwrap_or_else(|error| panic!("{error}"));
    let mut answers = vec![0; book.steps.len()];
    let machine = book::run(&book.bytes(), &mut answers).expect("the book runs");
    (machine, answers)
}
