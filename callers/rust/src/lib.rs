//! The proved recorder, behind safe calls.
//!
//! Each call is a function of a book, the machine's whole history. A refusal carries its number (docs/REFUSALS.md), and writes nothing;
//! bytes of a lent buffer behind what is written stay as they were.

use std::fmt;

/// Room for the number of every step that a book may have.
pub const ANSWERS: usize = 4096;
/// Room for every listing.
pub const TEXT: usize = 1024;
/// Room for the keys of every walk.
pub const KEYS: usize = 16;
/// Room for every PROV-N document.
pub const PROVN: usize = 6247;

/// Why a call was refused: the number of docs/REFUSALS.md, never 0.
#[derive(Clone, Copy, Debug, PartialEq, Eq)]
pub struct Refusal(pub u8);

impl fmt::Display for Refusal {
    fn fmt(&self, f: &mut fmt::Formatter<'_>) -> fmt::Result {
        write!(f, "refused {}", self.0)
    }
}

impl std::error::Error for Refusal {}

/// What a drain gives.
#[derive(Clone, Copy, Debug, PartialEq, Eq)]
pub struct Drained<'t> {
    /// How many steps the drain took.
    pub count: u16,
    /// The listing after it.
    pub listing: &'t [u8],
}

/// What a walk gives.
#[derive(Clone, Copy, Debug, PartialEq, Eq)]
pub struct Walked<'k> {
    /// The keys met, each once, in the order first met.
    pub keys: &'k [u8],
    /// How many store entries were looked up for them: one for the first key, two for each behind it.
    pub lookups: u8,
}

// The exported functions: a slice is its pointer and its length, as in callers/c/tautlichen.h.
mod linked {
    extern "C" {
        pub fn tautlichen_run(
            book: *const u8,
            book_len: usize,
            answers: *mut u8,
            answers_len: usize,
        ) -> u8;
        pub fn tautlichen_list(
            book: *const u8,
            book_len: usize,
            answers: *mut u8,
            answers_len: usize,
            text: *mut u8,
            text_len: usize,
            len: *mut u16,
        ) -> u8;
        pub fn tautlichen_drain(
            book: *const u8,
            book_len: usize,
            text: *mut u8,
            text_len: usize,
            len: *mut u16,
            count: *mut u16,
        ) -> u8;
        pub fn tautlichen_walk(
            book: *const u8,
            book_len: usize,
            key: u8,
            keys: *mut u8,
            keys_len: usize,
            count: *mut u8,
            lookups: *mut u8,
        ) -> u8;
        pub fn tautlichen_lineage(
            book: *const u8,
            book_len: usize,
            key: u8,
            text: *mut u8,
            text_len: usize,
            len: *mut u16,
        ) -> u8;
    }
}

fn done(number: u8) -> Result<(), Refusal> {
    match number {
        0 => Ok(()),
        refused => Err(Refusal(refused)),
    }
}

/// Runs a book: the number of each step goes into `answers`, at the step's own index.
///
/// Refused with 10 for a malformed book, 11 for an illegal setup, 12 where the steps are more than the answers.
pub fn run(book: &[u8], answers: &mut [u8]) -> Result<(), Refusal> {
    // Safety: each pointer comes with its slice's length, and a slice that is lent to be written overlaps with no other.
    done(unsafe {
        linked::tautlichen_run(book.as_ptr(), book.len(), answers.as_mut_ptr(), answers.len())
    })
}

/// The same, with the listing, which is written into `text`.
///
/// Refused as [`run`], then with 14 where the listing is longer than `text`; then the answers stay too.
///
/// ```
/// let book = [
///     3, 2, 0, 5, 1, 6, // three stores; actor 0 at home in 0, with 0 and 2; actor 1 at home in 1, with 1 and 2
///     3, 0, // three steps
///     1, 0, 1, 0, 7, 0, 0, 0, 0, 0, // send from 0 to 1, own store 0, data 7, no causes
///     2, 0, // receive 0
///     5, 0, 2, // timeout of actor 0 to store 2: it hasn't sent its record
/// ];
/// let (mut answers, mut text) = ([0; 3], [0; tautlichen::TEXT]);
/// let listing = tautlichen::list(&book, &mut answers, &mut text)?;
/// assert_eq!(listing, b"3 2 1 3 2\n0 0 1 0 -\n0 1 1 1 -\n");
/// assert_eq!(answers, [0, 0, 7]);
/// # Ok::<(), tautlichen::Refusal>(())
/// ```
pub fn list<'t>(book: &[u8], answers: &mut [u8], text: &'t mut [u8]) -> Result<&'t [u8], Refusal> {
    let mut len = 0;
    // Safety: as for `run`, and `len` is a local.
    done(unsafe {
        linked::tautlichen_list(
            book.as_ptr(),
            book.len(),
            answers.as_mut_ptr(),
            answers.len(),
            text.as_mut_ptr(),
            text.len(),
            &mut len,
        )
    })?;
    Ok(&text[..len.into()])
}

/// Drains the machine after a book: the count of steps, and the listing after it, which is written into `text`.
///
/// Refused with 10 and 11 as [`run`], then 5 where a store is down, then 14 where the listing is longer than `text`.
pub fn drain<'t>(book: &[u8], text: &'t mut [u8]) -> Result<Drained<'t>, Refusal> {
    let (mut len, mut count) = (0, 0);
    // Safety: as for `list`, and `count` is a local.
    done(unsafe {
        linked::tautlichen_drain(
            book.as_ptr(),
            book.len(),
            text.as_mut_ptr(),
            text.len(),
            &mut len,
            &mut count,
        )
    })?;
    Ok(Drained { count, listing: &text[..len.into()] })
}

/// Walks back from a key in the machine after a book: the keys met, each once, in the order first met, written into `keys`,
/// and how many store entries were looked up for them.
///
/// Refused with 10 and 11 as [`run`], then 2 for a key that isn't made, 13 where the walk meets an interaction that isn't
/// closed, then 14 where the keys are more than `keys` has room for.
pub fn walk<'k>(book: &[u8], key: u8, keys: &'k mut [u8]) -> Result<Walked<'k>, Refusal> {
    let (mut count, mut lookups) = (0, 0);
    // Safety: as for `run`, and `count` and `lookups` are locals.
    done(unsafe {
        linked::tautlichen_walk(
            book.as_ptr(),
            book.len(),
            key,
            keys.as_mut_ptr(),
            keys.len(),
            &mut count,
            &mut lookups,
        )
    })?;
    Ok(Walked { keys: &keys[..count.into()], lookups })
}

/// The walk of a key in the machine after a book as a PROV-N document, which is written into `text`.
///
/// Refused as [`walk`], 14 where the document is longer than `text`.
pub fn lineage<'t>(book: &[u8], key: u8, text: &'t mut [u8]) -> Result<&'t [u8], Refusal> {
    let mut len = 0;
    // Safety: as for `list`.
    done(unsafe {
        linked::tautlichen_lineage(
            book.as_ptr(),
            book.len(),
            key,
            text.as_mut_ptr(),
            text.len(),
            &mut len,
        )
    })?;
    Ok(&text[..len.into()])
}

mod linked_pair {
    extern "C" {
        pub fn tautlichen_pair(
            book: *const u8,
            book_len: usize,
            rule: u8,
            key: u8,
            passes: *mut u8,
        ) -> u8;
    }
}

/// Checks the pair of a forecast in the machine after a book, by rule 1 (the old registry's) or 2 (the new one's): whether its
/// weights and its scaler belong together.
///
/// Refused with 19 for another rule, then 10 and 11 as [`run`], then 2 and 13 as [`walk`], then 20 where the key's word is no
/// forecast.
pub fn pair(book: &[u8], rule: u8, key: u8) -> Result<bool, Refusal> {
    let mut passes = 0;
    // Safety: the pointer comes with its slice's length, and `passes` is a local.
    done(unsafe {
        linked_pair::tautlichen_pair(book.as_ptr(), book.len(), rule, key, &mut passes)
    })?;
    Ok(passes == 1)
}
