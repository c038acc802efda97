//! Seeded books: legal runs, stories that aim at one thing, near misses, wild steps,
//! illegal setups and damaged bytes.

mod damage;
mod draft;
mod enabled;
mod pairs;
mod stories;

use crate::random::Random;
use draft::Draft;

/// The styles take turns, so that few seeds cover them all.
pub const STYLES: u64 = 23;

/// The first styles have steps alone that are taken.
pub const LEGAL_STYLES: u64 = 12;

/// The book of a seed, as bytes.
pub fn generate(seed: u64) -> Vec<u8> {
    let mut draft = Draft::new(Random::new(seed));
    match seed % STYLES {
        0..=4 => draft.run_of_random_length(),
        5 => draft.flood(seed / STYLES),
        6 | 7 => draft.both_repairs(),
        8 => draft.late_record(),
        9 => draft.moved_receipts(),
        10 => draft.lost_before_checkpoint(),
        11 => draft.repeating_broker(),
        12 => draft.sixteen(),
        13 => draft.tries(),
        14..=17 => draft.near_misses(),
        18 | 19 => draft.wild(),
        20 => draft.illegal_setup(),
        _ => return draft.damaged(),
    }
    draft.book.bytes()
}

/// The book of a seed that is about weights, scalers and forecasts.
pub fn generate_pairs(seed: u64) -> Vec<u8> {
    const STYLES: u64 = 10;
    let mut draft = Draft::about_pairs(Random::new(seed));
    let turn = seed / STYLES;
    match seed % STYLES {
        0..=5 => {
            draft.pair_story(turn);
            draft.close();
        }
        6 => {
            draft.pair_story(turn);
            draft.run_of_random_length();
        }
        7 => {
            draft.run_of_random_length();
            draft.close();
        }
        8 => draft.near_misses(),
        _ if turn.is_multiple_of(2) => draft.illegal_setup(),
        _ => return draft.damaged(),
    }
    draft.book.bytes()
}
