//! The pair rule.

use peer::compare::Words;
use peer::generate::generate_pairs;
use peer::pair::{pair, word, FORECAST, SCALER, WEIGHTS};
use peer::pair_coverage::PairCoverage;
use peer::text;

const SETUP: &str = "
    stores 3
    actor home 0 list 0 2
    actor home 1 list 1 2
    actor home 2 list 0 2
";

const BUNDLE: u32 = 7;

/// What the program prints for its words, given as one line.
fn told(words: &str, book: &str) -> String {
    let words: Words = words.split_whitespace().map(ToString::to_string).collect();
    let book = text::read(&format!("{SETUP}{book}")).unwrap_or_else(|error| panic!("{error}"));
    pair(&words, &book.bytes()).trim_end().to_string()
}

/// A word sent between two actors, own store the sender's home, and received.
fn sent(key: u8, from: u8, to: u8, data: u32, causes: &str) -> String {
    format!("send {from} {to} own {from} data {data} causes {causes} \n receive {key} \n")
}

fn weights(bundle: u32) -> u32 {
    word(WEIGHTS, bundle)
}

fn scaler(bundle: u32) -> u32 {
    word(SCALER, bundle)
}

fn forecast() -> u32 {
    word(FORECAST, BUNDLE)
}

/// Actor 0 sends two words to actor 1, which makes a forecast of them.
fn forecast_of(one: u32, two: u32) -> String {
    [sent(0, 0, 1, one, "-"), sent(1, 0, 1, two, "-"), sent(2, 1, 2, forecast(), "0 1")].concat()
}

/// What both rules say of a drained key.
fn both(key: u8, book: &str) -> (String, String) {
    (told(&format!("1 {key} drained"), book), told(&format!("2 {key} drained"), book))
}

fn says(one: &str, two: &str) -> (String, String) {
    (one.to_string(), two.to_string())
}

#[test]
fn a_pair_that_belongs_together_passes_both_rules() {
    assert_eq!(both(2, &forecast_of(weights(BUNDLE), scaler(BUNDLE))), says("yes", "yes"));
    assert_eq!(both(2, &forecast_of(scaler(BUNDLE), weights(BUNDLE))), says("yes", "yes"));
}

#[test]
fn one_of_each_of_the_forecasts_bundle() {
    for (one, two) in [
        (weights(BUNDLE), weights(BUNDLE)),
        (scaler(BUNDLE), scaler(BUNDLE)),
        (weights(BUNDLE), scaler(BUNDLE + 1)),
        (weights(BUNDLE ^ 1 << 23), scaler(BUNDLE)),
        (weights(BUNDLE), word(4, BUNDLE)),
        (word(0x81, BUNDLE), scaler(BUNDLE)),
    ] {
        assert_eq!(both(2, &forecast_of(one, two)), says("no", "no"), "{one:x} {two:x}");
    }
}

#[test]
fn a_second_scaler_passes_rule_one_if_it_is_of_the_bundle() {
    for (bundle, one) in [(BUNDLE, "yes"), (BUNDLE + 1, "no")] {
        let book = [
            sent(0, 0, 1, weights(BUNDLE), "-"),
            sent(1, 0, 1, scaler(BUNDLE), "-"),
            sent(2, 0, 1, scaler(bundle), "-"),
            sent(3, 1, 2, forecast(), "0 1 2"),
        ];
        assert_eq!(both(3, &book.concat()), says(one, "no"));
    }
}

#[test]
fn parts_from_two_senders_pass_rule_one_alone() {
    let book = [
        sent(0, 0, 1, weights(BUNDLE), "-"),
        sent(1, 2, 1, scaler(BUNDLE), "-").replace("own 2", "own 0"),
        sent(2, 1, 2, forecast(), "0 1"),
    ];
    assert_eq!(both(2, &book.concat()), says("yes", "no"));
}

#[test]
fn a_part_that_is_no_direct_cause_passes_rule_one_alone() {
    let book = [
        sent(0, 0, 1, weights(BUNDLE), "-"),
        sent(1, 0, 2, scaler(BUNDLE), "-"),
        sent(2, 2, 1, 5, "1").replace("own 2", "own 0"),
        sent(3, 1, 2, forecast(), "0 2"),
    ];
    assert_eq!(both(3, &book.concat()), says("yes", "no"));
}

#[test]
fn what_the_forecast_isnt_made_of_doesnt_count() {
    let book = [
        sent(0, 0, 1, weights(BUNDLE), "-"),
        sent(1, 0, 1, scaler(BUNDLE), "-"),
        sent(2, 0, 1, scaler(BUNDLE + 1), "-"),
        sent(3, 1, 2, forecast(), "0 1"),
    ];
    assert_eq!(both(3, &book.concat()), says("yes", "yes"));
}

#[test]
fn refusals_come_in_the_issues_order() {
    let book = forecast_of(weights(BUNDLE), scaler(BUNDLE));
    let illegal = |words: &str| {
        let words: Words = words.split_whitespace().map(ToString::to_string).collect();
        pair(&words, &[3, 0, 0, 0])
    };
    assert_eq!(illegal("3 x drained"), "refused 19\n");
    assert_eq!(illegal("1 x drained"), "refused 11\n");
    assert_eq!(pair(&[], &[]), "refused 19\n");
    assert_eq!(pair(&["2".to_string()], &[]), "refused 10\n");
    let down = format!("{book} crash 2");
    for (words, book, refusal) in [
        ("3 x drained", &down, 19),
        ("01 2", &down, 19),
        ("1 x drained", &down, 5),
        ("1 x", &down, 2),
        ("1", &book, 2),
        ("1 3 drained", &book, 2),
        // The walk's own comes first, though 20 is above it and key 0 isn't a forecast.
        ("1 0", &book, 13),
        ("2 0 drained", &book, 20),
        ("2 2 drain", &book, 13),
    ] {
        assert_eq!(told(words, book), format!("refused {refusal}"), "{words}");
    }
}

#[test]
fn each_clause_decides_in_some_books() {
    let coverage = PairCoverage::of_seeds(0..600).to_string();
    assert!(coverage.ends_with("\nnothing is missing\n"), "{coverage}");
}

#[test]
fn a_seed_gives_the_same_book_every_time() {
    for seed in 0..40 {
        assert_eq!(generate_pairs(seed), generate_pairs(seed));
    }
}
