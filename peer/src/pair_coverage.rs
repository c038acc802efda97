//! What the books about pairs and their calls cover: each answer, and each clause as the one
//! that decides.

use std::collections::BTreeMap;
use std::fmt;
use std::ops::Range;

use crate::calls;
use crate::generate::generate_pairs;
use crate::pair::{check, Pair, Rule, BEYOND_RULE_ONE, RULE_ONE};

/// The numbers with which a check is refused.
const REFUSALS: [u8; 7] = [19, 10, 11, 5, 2, 13, 20];

/// How often each thing worth meeting was met in the calls of some seeds.
pub struct PairCoverage {
    calls: usize,
    met: BTreeMap<String, usize>,
}

impl PairCoverage {
    pub fn of_seeds(seeds: Range<u64>) -> PairCoverage {
        let met = wanted().into_iter().map(|name| (name, 0)).collect();
        let mut coverage = PairCoverage { calls: 0, met };
        for seed in seeds {
            let book = generate_pairs(seed);
            for words in calls::of_pair(seed, &book) {
                coverage.calls += 1;
                match check(&words, &book) {
                    Ok((rule, pair)) => coverage.add_answer(rule, &pair),
                    Err(refusal) => coverage.add(refused(refusal as u8)),
                }
            }
        }
        coverage
    }

    fn add_answer(&mut self, rule: Rule, pair: &Pair) {
        self.add(answered(rule, pair.passes(rule)));
        let (one, beyond) = (pair.rule_one(), pair.beyond_rule_one());
        let rule_one_holds = one.into_iter().all(|holds| holds);
        match rule {
            Rule::One => deciding(&one).into_iter().for_each(|clause| {
                self.add(decides(RULE_ONE[clause]));
            }),
            Rule::Two if rule_one_holds => deciding(&beyond).into_iter().for_each(|clause| {
                self.add(decides(BEYOND_RULE_ONE[clause]));
            }),
            Rule::Two => self.add(STOPPED_BY_RULE_ONE.to_string()),
        }
    }

    fn add(&mut self, name: String) {
        *self.met.entry(name).or_default() += 1;
    }
}

const STOPPED_BY_RULE_ONE: &str = "rule two says no as rule one does";

/// The clause that fails, if it is the only one.
fn deciding(clauses: &[bool]) -> Option<usize> {
    let mut failing = (0..clauses.len()).filter(|&clause| !clauses[clause]);
    failing.next().filter(|_| failing.next().is_none())
}

fn refused(number: u8) -> String {
    format!("refused {number}")
}

fn answered(rule: Rule, passes: bool) -> String {
    let rule = if rule == Rule::One { "one" } else { "two" };
    format!("rule {rule} says {}", if passes { "yes" } else { "no" })
}

fn decides(clause: &str) -> String {
    format!("no, and of all clauses only this fails: {clause}")
}

/// Everything that the calls should meet.
fn wanted() -> Vec<String> {
    let answers = [Rule::One, Rule::Two].map(|rule| [true, false].map(|yes| answered(rule, yes)));
    let clauses = RULE_ONE.iter().chain(&BEYOND_RULE_ONE).map(|clause| decides(clause));
    let refusals = REFUSALS.into_iter().map(refused);
    let stopped = [STOPPED_BY_RULE_ONE.to_string()];
    answers.into_iter().flatten().chain(clauses).chain(refusals).chain(stopped).collect()
}

impl fmt::Display for PairCoverage {
    fn fmt(&self, out: &mut fmt::Formatter) -> fmt::Result {
        writeln!(out, "calls {}", self.calls)?;
        writeln!(out)?;
        for (name, count) in &self.met {
            writeln!(out, "{count:>8}  {name}")?;
        }
        writeln!(out)?;
        let mut missing = self.met.iter().filter(|(_, count)| **count == 0).peekable();
        if missing.peek().is_none() {
            return writeln!(out, "nothing is missing");
        }
        missing.try_for_each(|(name, _)| writeln!(out, "missing: {name}"))
    }
}
