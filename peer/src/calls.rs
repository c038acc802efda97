//! The words with which the programs that take some are called for a seed's book.

use crate::book::{self, MAX_STEPS};
use crate::compare::Words;
use crate::machine::{Machine, View};
use crate::pair::{kind, FORECAST};
use crate::random::Random;

/// Words that aren't keys, or are none of a machine.
const WRONG_KEYS: [&str; 10] =
    ["", "00", "01", "+1", "-1", "1 ", "0x1", "256", "4294967296", "drained"];

/// Words that don't ask for a drain.
const NOT_DRAINED: [&str; 4] = ["", "Drained", "drained ", "drain"];

/// Words that are no rule.
const WRONG_RULES: [&str; 8] = ["", "0", "3", "01", "+1", "12", "258", "one"];

/// The highest key and another, drained and not, and a call that is wrong.
pub fn of_lineage(seed: u64, input: &[u8]) -> Vec<Words> {
    let mut random = Random::new(seed.wrapping_mul(3));
    let made = interactions(input);
    let highest = made.saturating_sub(1).to_string();
    let other = random.between(0, made + 1).to_string();
    vec![
        words(&[&highest, "drained"]),
        words(&[&highest]),
        words(&[&other, "drained"]),
        words(&[&other]),
        wrong_call(&mut random, &highest),
    ]
}

/// The last forecast by both rules, drained and not, another key, and a call that is wrong.
pub fn of_pair(seed: u64, input: &[u8]) -> Vec<Words> {
    let mut random = Random::new(seed.wrapping_mul(3));
    let machine = book::run(input, &mut [0; MAX_STEPS]).unwrap_or_default();
    let forecast = last_forecast(&machine).unwrap_or(0).to_string();
    let other = random.between(0, usize::from(machine.interaction_count) + 1).to_string();
    let rule = if random.one_in(2) { "1" } else { "2" };
    let mut calls = vec![
        words(&["1", &forecast, "drained"]),
        words(&["2", &forecast, "drained"]),
        words(&["1", &forecast]),
        words(&["2", &forecast]),
        words(&[rule, &other, "drained"]),
    ];
    let wrong_rule = WRONG_RULES[random.below(WRONG_RULES.len())];
    let rule = if random.one_in(3) { wrong_rule } else { rule };
    calls.push([words(&[rule]), wrong_call(&mut random, &forecast)].concat());
    calls
}

fn last_forecast(machine: &Machine) -> Option<u8> {
    let is_forecast = |key: &u8| kind(machine.record(View::sender(*key)).data) == FORECAST;
    (0..machine.interaction_count).rev().find(is_forecast)
}

fn wrong_call(random: &mut Random, key: &str) -> Words {
    let wrong = WRONG_KEYS[random.below(WRONG_KEYS.len())];
    match random.below(6) {
        0 => words(&[]),
        1 => words(&[wrong]),
        2 => words(&[wrong, "drained"]),
        3 => words(&[key, NOT_DRAINED[random.below(NOT_DRAINED.len())]]),
        4 => words(&[key, "drained", "more"]),
        _ => words(&[&random.byte().to_string(), "drained"]),
    }
}

fn words(words: &[&str]) -> Words {
    words.iter().map(ToString::to_string).collect()
}

/// How many interactions the book makes; none if it is refused.
fn interactions(input: &[u8]) -> usize {
    let machine = book::run(input, &mut [0; MAX_STEPS]);
    machine.map_or(0, |machine| machine.interaction_count.into())
}
