//! The generated books, and what is promised of every one of them.

use peer::book::{self, Book, MAX_STEPS};
use peer::coverage::Coverage;
use peer::generate::{generate, LEGAL_STYLES, STYLES};
use peer::machine::{members, Holding, Machine, Phase, View, What};
use peer::refusal::Refusal;
use peer::step::Step;
use peer::walk::Walk;

/// The machines that the books of some seeds lead to, with all stores up again.
fn machines() -> impl Iterator<Item = (u64, Machine)> {
    (0..400).filter_map(|seed| {
        let mut machine = book::run(&generate(seed), &mut [0; MAX_STEPS]).ok()?;
        for store in 0..machine.store_count {
            // Refused where the store is up, and that is as well.
            let _ = machine.take(Step::Restart { store });
        }
        Some((seed, machine))
    })
}

/// What led to a key by the causes as they were sent, depth first.
fn reachable(machine: &Machine, key: u8, met: &mut Vec<u8>) {
    met.push(key);
    for cause in members(machine.record(View::sender(key)).causes) {
        if !met.contains(&cause) {
            reachable(machine, cause, met);
        }
    }
}

#[test]
fn a_seed_gives_the_same_book_every_time() {
    for seed in 0..40 {
        assert_eq!(generate(seed), generate(seed));
        assert_ne!(generate(seed), generate(seed + 1));
    }
}

#[test]
fn some_hundred_books_cover_everything() {
    let coverage = Coverage::of_seeds(0..400).to_string();
    assert!(coverage.ends_with("\nnothing is missing\n"), "{coverage}");
}

#[test]
fn a_third_of_the_books_and_more_repeat_a_message() {
    let repeats = |seed: &u64| {
        let Ok(book) = Book::read(&generate(*seed)) else { return false };
        let mut answers = vec![9; book.steps.len()];
        let ran = book::run(&book.bytes(), &mut answers).is_ok();
        let mut taken = book.steps.iter().zip(answers).filter(|(_, answer)| *answer == 0);
        ran && taken.any(|(step, _)| matches!(step, Step::Duplicate { .. }))
    };
    assert!((0..400).filter(repeats).count() * 3 >= 400);
}

#[test]
fn no_run_breaks_a_machine() {
    for seed in 0..400 {
        let Ok(book) = Book::read(&generate(seed)) else { continue };
        let Ok(mut machine) = Machine::setup(book.stores, &book.actors) else { continue };
        for step in book.steps {
            assert_ne!(machine.take(step), Err(Refusal::Broken), "seed {seed}");
        }
        assert!(!machine.is_broken(), "seed {seed}");
    }
}

#[test]
fn a_drain_closes_everything_within_its_limit() {
    for (seed, mut machine) in machines() {
        let count = machine.drain().expect("every store is up");
        assert!(count <= 22 * usize::from(machine.interaction_count), "seed {seed}");
        assert!((0..machine.interaction_count).all(|key| machine.is_closed(key)), "seed {seed}");
        assert_eq!(machine.drain(), Ok(0), "seed {seed}");
    }
}

/// What holds after each step of a run from a setup.
fn assert_kept(machine: &Machine, seed: u64) {
    for view in machine.views() {
        let record = machine.record(view);
        for store in 0..machine.store_count {
            let place = machine.place(store, view);
            let kept = place.checkpointed.contents.is_some();
            let acknowledged = record.phase >= Phase::Acknowledged && record.store == store;
            assert!(kept || place.count(What::Ack) == 0, "seed {seed} {view:?}: ack in flight");
            assert!(kept || !acknowledged, "seed {seed} {view:?}: acknowledged");
            assert!(!place.owes() || machine.is_up(store), "seed {seed} {view:?}: down with notes");
        }
    }
}

#[test]
fn what_is_acknowledged_is_in_the_checkpoint_through_any_crash() {
    for seed in 0..400 {
        let Ok(book) = Book::read(&generate(seed)) else { continue };
        let Ok(mut machine) = Machine::setup(book.stores, &book.actors) else { continue };
        for step in book.steps {
            // Refused or taken, the machine is one that a run reaches.
            let _ = machine.take_unbroken(step);
            assert_kept(&machine, seed);
        }
    }
}

#[test]
fn after_a_drain_every_viewlink_leads_to_the_opposite_view() {
    for (seed, mut machine) in machines() {
        machine.drain().expect("every store is up");
        for view in machine.views() {
            let Holding { contents, viewlink } = machine.lasting(machine.record(view).store, view);
            let opposite_store = machine.record(view.opposite()).store;
            assert!(contents.is_some(), "seed {seed} {view:?}");
            assert_eq!(*viewlink, Some(opposite_store), "seed {seed} {view:?}");
        }
    }
}

#[test]
fn after_a_drain_every_walk_meets_what_led_to_its_key() {
    for (seed, mut machine) in machines() {
        machine.drain().expect("every store is up");
        for key in 0..machine.interaction_count {
            let mut met = Vec::new();
            reachable(&machine, key, &mut met);
            let lookups = 2 * met.len() - 1;
            assert_eq!(machine.walk(key), Ok(Walk { keys: met, lookups }), "seed {seed} key {key}");
        }
    }
}

#[test]
fn legal_styles_have_legal_books() {
    for seed in (0..400).filter(|seed| seed % STYLES < LEGAL_STYLES) {
        let bytes = generate(seed);
        let steps = Book::read(&bytes).expect("the book is well formed").steps.len();
        let mut answers = vec![9; steps];
        book::run(&bytes, &mut answers).expect("the setup is legal");
        assert!(answers.iter().all(|&answer| answer == 0), "seed {seed}");
    }
}
