//! Books about weights, scalers and forecasts, for the pair rule.

use super::draft::Draft;
use crate::pair::{word, FORECAST, SCALER, WEIGHTS};
use crate::random::Random;
use crate::step::Step;

/// What is wrong with the pair of a story, if anything.
#[derive(Clone, Copy, PartialEq, Eq)]
enum Flaw {
    Nothing,
    NoWeights,
    NoScaler,
    OtherWeights,
    OtherScaler,
    SecondWeights,
    SecondScaler,
    DistantWeights,
    DistantScaler,
    TwoSenders,
    NotForecast,
    Anything,
}

const FLAWS: [Flaw; 12] = [
    Flaw::Nothing,
    Flaw::NoWeights,
    Flaw::NoScaler,
    Flaw::OtherWeights,
    Flaw::OtherScaler,
    Flaw::SecondWeights,
    Flaw::SecondScaler,
    Flaw::DistantWeights,
    Flaw::DistantScaler,
    Flaw::TwoSenders,
    Flaw::NotForecast,
    Flaw::Anything,
];

/// Words that are no part of a pair, and some of them nearly one.
const OTHER_KINDS: [u32; 8] = [0, FORECAST, 4, 0x11, 0x12, 0x81, 0x82, 0xff];

/// A part that leads to the forecast of a story.
#[derive(Clone, Copy)]
struct Part {
    word: u32,
    sender: u8,
    direct: bool,
}

/// A data word of any kind, of one of two bundles.
pub fn any_word(random: &mut Random) -> u32 {
    let kind = match random.below(5) {
        0 => OTHER_KINDS[random.below(OTHER_KINDS.len())],
        1 => WEIGHTS,
        2 => SCALER,
        _ => FORECAST,
    };
    word(kind, 5 + u32::from(random.one_in(4)))
}

impl Draft {
    /// A forecast of parts that have that turn's flaw, and often nothing left open at the end.
    pub fn pair_story(&mut self, turn: u64) {
        self.lift_limit();
        let flaw = FLAWS[(turn % FLAWS.len() as u64) as usize];
        let (forecaster, desk) = self.two_actors();
        let bundle = self.bundle();
        let mut causes = 0;
        for part in self.parts(flaw, forecaster, bundle) {
            causes |= 1 << self.feed(part, forecaster);
            self.interlude();
        }
        if self.random.one_in(3) {
            // A part of another bundle that the forecast isn't made of.
            let kind = if self.random.one_in(2) { WEIGHTS } else { SCALER };
            let word = word(kind, self.other_bundle(bundle));
            let sender = self.actor_beside(forecaster);
            self.feed(Part { word, sender, direct: true }, forecaster);
        }
        let kind = if flaw == Flaw::NotForecast { self.other_kind() } else { FORECAST };
        self.send_word(forecaster, desk, word(kind, bundle), causes);
    }

    fn parts(&mut self, flaw: Flaw, forecaster: u8, bundle: u32) -> Vec<Part> {
        let sender = self.actor_beside(forecaster);
        let part = |kind| Part { word: word(kind, bundle), sender, direct: true };
        let (mut weights, mut scaler) = (vec![part(WEIGHTS)], vec![part(SCALER)]);
        let other = self.other_bundle(bundle);
        match flaw {
            Flaw::Nothing | Flaw::NotForecast => {}
            Flaw::NoWeights => weights.clear(),
            Flaw::NoScaler => scaler.clear(),
            Flaw::OtherWeights => weights[0].word = word(WEIGHTS, other),
            Flaw::OtherScaler => scaler[0].word = word(SCALER, other),
            Flaw::SecondWeights => weights.push(part(WEIGHTS)),
            Flaw::SecondScaler => scaler.push(part(SCALER)),
            Flaw::DistantWeights => weights[0].direct = false,
            Flaw::DistantScaler => scaler[0].direct = false,
            Flaw::TwoSenders => scaler[0].sender = self.third_actor(forecaster, sender),
            Flaw::Anything => {
                let parts = self.random.between(0, 4);
                return (0..parts).map(|_| self.any_part(forecaster, bundle)).collect();
            }
        }
        let other_part = Part { word: word(self.other_kind(), other), ..part(FORECAST) };
        let more = self.random.one_in(3).then_some(other_part);
        if self.random.one_in(2) {
            weights.into_iter().chain(scaler).chain(more).collect()
        } else {
            more.into_iter().chain(scaler).chain(weights).collect()
        }
    }

    fn any_part(&mut self, forecaster: u8, bundle: u32) -> Part {
        let bundle = if self.random.one_in(4) { self.other_bundle(bundle) } else { bundle };
        let kind = if self.random.one_in(2) { WEIGHTS } else { SCALER };
        let (sender, direct) = (self.actor_beside(forecaster), !self.random.one_in(3));
        Part { word: word(kind, bundle), sender, direct }
    }

    /// Gets the part to the forecaster, directly or by another actor, and hands back the key by
    /// which it is a cause there.
    fn feed(&mut self, part: Part, forecaster: u8) -> u8 {
        let Part { word, sender, direct } = part;
        if direct {
            return self.send_word(sender, forecaster, word, 0);
        }
        let between = self.third_actor(forecaster, sender);
        let first = self.send_word(sender, between, word, 0);
        let other = crate::pair::word(self.other_kind(), self.random.below(9) as u32);
        self.send_word(between, forecaster, other, 1 << first)
    }

    /// Sends that word and has it received; the key that it got.
    fn send_word(&mut self, from: u8, to: u8, word: u32, causes: u16) -> u8 {
        let step = self.send_between(from, to, causes);
        if let Step::Send { from, to, own, causes, .. } = step {
            self.add_if_taken(Step::Send { from, to, own, data: word, causes });
        }
        let key = self.machine.interaction_count.saturating_sub(1);
        self.add_if_taken(Step::Receive { key });
        key
    }

    fn third_actor(&mut self, one: u8, two: u8) -> u8 {
        let others = (0..self.machine.actor_count).filter(|&actor| actor != one && actor != two);
        let others: Vec<u8> = others.collect();
        self.random.pick(&others).expect("a book about pairs has three actors or more")
    }

    fn other_kind(&mut self) -> u32 {
        OTHER_KINDS[self.random.below(OTHER_KINDS.len())]
    }

    fn bundle(&mut self) -> u32 {
        match self.random.below(4) {
            0 => [0, 1, 0xff_ffff][self.random.below(3)],
            _ => self.random.bits() as u32 & 0xff_ffff,
        }
    }

    /// A bundle that differs in one bit.
    fn other_bundle(&mut self, bundle: u32) -> u32 {
        bundle ^ 1 << self.random.below(24)
    }
}
