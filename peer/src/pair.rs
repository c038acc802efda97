//! The pair rule: whether a forecast was made of weights and a scaler that
//! belong together.

use crate::machine::{contains, Machine, Record, View};
use crate::programs;
use crate::refusal::Refusal;

/// What the high byte of a data word says.
pub const WEIGHTS: u32 = 1;
pub const SCALER: u32 = 2;
pub const FORECAST: u32 = 3;

/// The data word of that kind and bundle.
pub fn word(kind: u32, bundle: u32) -> u32 {
    kind << 24 | bundle
}

pub fn kind(word: u32) -> u32 {
    word >> 24
}

pub fn bundle(word: u32) -> u32 {
    word & 0xff_ffff
}

/// A weights word or a scaler word that the walk of a forecast met.
#[derive(Clone, PartialEq, Eq, Debug)]
pub struct Part {
    bundle: u32,
    sender: u8,
    /// Whether it is a direct cause of the forecast.
    direct: bool,
}

/// A forecast's bundle, and every part that led to it.
#[derive(Clone, PartialEq, Eq, Debug)]
pub struct Pair {
    bundle: u32,
    weights: Vec<Part>,
    scalers: Vec<Part>,
}

/// What rule one asks for, in the order of [`Pair::rule_one`].
pub const RULE_ONE: [&str; 4] = [
    "at least one weights word",
    "at least one scaler word",
    "every weights word of the forecast's bundle",
    "every scaler word of the forecast's bundle",
];

/// What rule two asks for beyond that, in the order of [`Pair::beyond_rule_one`].
pub const BEYOND_RULE_ONE: [&str; 5] = [
    "no second weights word",
    "no second scaler word",
    "the weights a direct cause",
    "the scaler a direct cause",
    "both from one sender",
];

impl Pair {
    /// The parts that the walk of a forecast meets.
    pub fn of_forecast(machine: &Machine, key: u8) -> Result<Pair, Refusal> {
        let keys = machine.walk(key)?.keys;
        let forecast = machine.record(View::sender(key));
        Refusal::NotForecast.when(kind(forecast.data) != FORECAST)?;
        let parts = |wanted: u32| {
            let met = keys.iter().map(|&met| (met, machine.record(View::sender(met))));
            let parts = met.filter(|(_, record)| kind(record.data) == wanted);
            let part = |(met, record): (u8, &Record)| Part {
                bundle: bundle(record.data),
                sender: record.actor,
                direct: contains(forecast.causes, met),
            };
            parts.map(part).collect()
        };
        let bundle = bundle(forecast.data);
        Ok(Pair { bundle, weights: parts(WEIGHTS), scalers: parts(SCALER) })
    }

    /// Whether each of rule one's clauses holds.
    pub fn rule_one(&self) -> [bool; RULE_ONE.len()] {
        let of_bundle = |part: &Part| part.bundle == self.bundle;
        [
            !self.weights.is_empty(),
            !self.scalers.is_empty(),
            self.weights.iter().all(of_bundle),
            self.scalers.iter().all(of_bundle),
        ]
    }

    /// Whether each clause holds that rule two has beyond rule one. Where there is one of each,
    /// "both" are these two; where there are more, each has to be as the one would.
    pub fn beyond_rule_one(&self) -> [bool; BEYOND_RULE_ONE.len()] {
        let parts = || self.weights.iter().chain(&self.scalers);
        let first_sender = parts().next().map(|part| part.sender);
        [
            self.weights.len() == 1,
            self.scalers.len() == 1,
            self.weights.iter().all(|part| part.direct),
            self.scalers.iter().all(|part| part.direct),
            parts().all(|part| Some(part.sender) == first_sender),
        ]
    }

    pub fn passes(&self, rule: Rule) -> bool {
        let one = self.rule_one().into_iter().all(|holds| holds);
        match rule {
            Rule::One => one,
            Rule::Two => one && self.beyond_rule_one().into_iter().all(|holds| holds),
        }
    }
}

#[derive(Clone, Copy, PartialEq, Eq, Debug)]
pub enum Rule {
    /// For runs under the old registry.
    One,
    /// From the new registry on.
    Two,
}

impl Rule {
    fn of_word(word: Option<&String>) -> Result<Rule, Refusal> {
        match word.map(String::as_str) {
            Some("1") => Ok(Rule::One),
            Some("2") => Ok(Rule::Two),
            _ => Err(Refusal::NoSuchRule),
        }
    }
}

/// What the program `pair` prints for its words and a book.
pub fn pair(words: &[String], input: &[u8]) -> String {
    match check(words, input) {
        Ok((rule, pair)) if pair.passes(rule) => "yes\n".to_string(),
        Ok(_) => "no\n".to_string(),
        Err(refusal) => format!("refused {}\n", refusal as u8),
    }
}

/// The rule and the parts that the words ask for, of the machine that the book leads to.
pub fn check(words: &[String], input: &[u8]) -> Result<(Rule, Pair), Refusal> {
    let rule = Rule::of_word(words.first())?;
    let machine = programs::machine_after(input, words.get(2))?;
    let key = programs::key_word(words.get(1))?;
    Ok((rule, Pair::of_forecast(&machine, key)?))
}
