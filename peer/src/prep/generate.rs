//! Seeded files of messages: complete sets in any order, repeats, wrong senders, full tables,
//! wild messages and bytes that are no messages.

use super::messages::{write, Activity, Message, Said, FIELDS};
use super::{KINDS_HELD_ONCE, MAX_ACTIVITIES, MAX_ADDITIONAL};
use crate::programs::MAX_INPUT;
use crate::random::Random;

/// The file of a seed. The styles take turns, so that few seeds cover them all.
pub fn generate(seed: u64) -> Vec<u8> {
    const STYLES: u64 = 12;
    let mut draft = Draft { random: Random::new(seed), messages: Vec::new() };
    match seed % STYLES {
        0..=2 => draft.complete_sets(),
        3 => draft.repeats(),
        4 => draft.wrong_senders(),
        5 => draft.wrong_counts(),
        6 => draft.full_tables(),
        7 => draft.many_activities(),
        8 => draft.one_actor_on_both_sides(),
        9 => draft.wild(),
        10 => draft.after_completion(),
        _ => return draft.damaged(),
    }
    write(&draft.messages)
}

struct Draft {
    random: Random,
    messages: Vec<Message>,
}

impl Draft {
    /// All that both sides of a few activities send, in any order.
    fn complete_sets(&mut self) {
        let activities = self.random.between(1, 4);
        for activity in self.neighbours(activities) {
            self.add_set(activity);
        }
        self.shuffle();
    }

    /// Complete sets with messages of a kind that was sent, but with other fields.
    fn repeats(&mut self) {
        self.complete_sets();
        let repeats = self.random.between(1, 12);
        for _ in 0..repeats {
            let Message { sender, activity, said } = self.any_message();
            // An additional one more would only spoil the announced count.
            let again = match said {
                Said::Additional { .. } => Said::Finished { count: self.small() },
                _ if self.random.one_in(3) => said,
                _ => self.said(said.kind()),
            };
            let place = self.random.between(0, self.messages.len());
            self.messages.insert(place, Message { sender, activity, said: again });
        }
    }

    fn wrong_senders(&mut self) {
        self.complete_sets();
        let strangers = self.random.between(1, 6);
        for _ in 0..strangers {
            let stranger = Message { sender: self.any_number(), ..self.any_message() };
            let place = self.random.between(0, self.messages.len());
            self.messages.insert(place, stranger);
        }
    }

    /// Complete sets but for an announced count, or for a message that never comes.
    fn wrong_counts(&mut self) {
        self.complete_sets();
        let place = self.random.below(self.messages.len());
        if self.random.one_in(3) {
            self.messages.remove(place);
            return;
        }
        let wrong = self.small();
        for message in &mut self.messages {
            if let (Said::Finished { count }, true) = (&mut message.said, self.random.one_in(2)) {
                *count = match self.random.below(4) {
                    0 => wrong,
                    1 => count.wrapping_sub(1),
                    2 => count.wrapping_add(1),
                    // What an eight- or sixteen-bit comparison would take for right.
                    _ => *count | 1 << self.random.between(8, 31),
                };
            }
        }
    }

    /// More additional messages than a side holds.
    fn full_tables(&mut self) {
        let activity = self.activity();
        for sender in [activity.client, activity.service] {
            let additional = self.random.between(MAX_ADDITIONAL - 1, MAX_ADDITIONAL + 3);
            let announced = additional.min(MAX_ADDITIONAL);
            self.add_side(sender, activity, additional, announced);
        }
        self.shuffle();
    }

    /// More activities than a store holds, with strangers among the last.
    fn many_activities(&mut self) {
        let activities = self.random.between(MAX_ACTIVITIES - 1, MAX_ACTIVITIES + 3);
        let activities = self.neighbours(activities);
        for &activity in &activities {
            match self.random.one_in(3) {
                true => self.add_set(activity),
                false => self.add_any(activity),
            }
        }
        self.shuffle();
        for &activity in &activities {
            self.add_any(activity);
            if self.random.one_in(3) {
                let stranger = Message { sender: self.any_number(), ..self.any_message() };
                self.messages.push(stranger);
            }
        }
    }

    /// A client that is its own service: all is told, and nothing completes.
    fn one_actor_on_both_sides(&mut self) {
        self.complete_sets();
        let activity = self.activity();
        let activity = Activity { service: activity.client, ..activity };
        let additional = self.random.between(0, MAX_ADDITIONAL + 1);
        self.add_side(activity.client, activity, additional, additional);
        if self.random.one_in(2) {
            self.add_side(activity.client, activity, 0, additional);
        }
        self.shuffle();
    }

    /// Messages that come when an activity is complete already.
    fn after_completion(&mut self) {
        let activity = self.activity();
        self.add_set(activity);
        self.shuffle();
        let more = self.random.between(1, 8);
        for _ in 0..more {
            self.add_any(activity);
        }
    }

    /// Any kinds from any senders about few activities.
    fn wild(&mut self) {
        let activities = self.random.between(1, 3);
        let activities = self.neighbours(activities);
        let messages = self.random.between(0, 80);
        for _ in 0..messages {
            let activity = self.random.pick(&activities).expect("there is an activity");
            self.add_any(activity);
            if self.random.one_in(8) {
                let sender = self.any_number();
                self.messages.last_mut().expect("one was added").sender = sender;
            }
        }
    }

    /// The bytes of complete sets, no longer what they were.
    fn damaged(mut self) -> Vec<u8> {
        self.complete_sets();
        let mut bytes = write(&self.messages);
        let random = &mut self.random;
        let place = random.below(bytes.len());
        match random.below(9) {
            0 => bytes.truncate(place),
            1 => bytes.extend((0..random.between(1, 30)).map(|_| random.byte())),
            2 => bytes[place] ^= 1 << random.below(8),
            3 => drop(bytes.remove(place)),
            4 => bytes.insert(place, random.byte()),
            5 => bytes[0] = bytes[0].wrapping_add(1),
            6 => bytes[0] = bytes[0].wrapping_sub(1),
            // The first message's kind stands behind the count and six numbers.
            7 => bytes[26] = [5, 6, 128, 255][random.below(4)],
            _ => return self.around_the_limit(),
        }
        bytes
    }

    /// Well-formed bytes, just as many as are read or one more.
    fn around_the_limit(mut self) -> Vec<u8> {
        let size = self.random.between(MAX_INPUT, MAX_INPUT + 1);
        // A message has 29 bytes with one field, and 33 with two.
        let count = (2250..2260).find(|count| (size - 2 - 29 * count).is_multiple_of(4));
        let count = count.expect("one of four counts leaves a multiple of four");
        let with_two_fields = (size - 2 - 29 * count) / 4;
        let activity = self.activity();
        self.messages.clear();
        for index in 0..count {
            let kind = if index < with_two_fields { 1 } else { 3 };
            let said = self.said(kind);
            self.messages.push(Message { sender: activity.client, activity, said });
        }
        write(&self.messages)
    }

    /// All that both sides of an activity send.
    fn add_set(&mut self, activity: Activity) {
        for sender in [activity.client, activity.service] {
            let most = if self.random.one_in(4) { MAX_ADDITIONAL } else { 2 };
            let additional = self.random.between(0, most);
            self.add_side(sender, activity, additional, additional);
        }
    }

    /// The four kinds that come once and so many additional ones, and a count that announces
    /// so many.
    fn add_side(&mut self, sender: u32, activity: Activity, additional: usize, announced: usize) {
        for kind in 0..3 {
            let said = self.said(kind);
            self.messages.push(Message { sender, activity, said });
        }
        let said = Said::Finished { count: (KINDS_HELD_ONCE + announced) as u32 };
        self.messages.push(Message { sender, activity, said });
        // Two additional ones may say the same.
        let extra = self.any_number();
        for _ in 0..additional {
            let extra = if self.random.one_in(3) { extra } else { self.any_number() };
            self.messages.push(Message { sender, activity, said: Said::Additional { extra } });
        }
    }

    fn add_any(&mut self, activity: Activity) {
        let kind = self.random.below(FIELDS.len()) as u8;
        let said = self.said(kind);
        let sender = if self.random.one_in(2) { activity.client } else { activity.service };
        self.messages.push(Message { sender, activity, said });
    }

    fn said(&mut self, kind: u8) -> Said {
        let fields: Vec<u32> = match kind {
            3 => vec![self.small()],
            _ => (0..FIELDS[usize::from(kind)]).map(|_| self.any_number()).collect(),
        };
        Said::from_fields(kind, &fields).expect("the kind is known")
    }

    /// So many activities of which each differs from another in one number, or in the order of
    /// its two actors.
    fn neighbours(&mut self, count: usize) -> Vec<Activity> {
        let mut activities = vec![self.activity()];
        while activities.len() < count {
            let near = self.random.pick(&activities).expect("there is an activity");
            let mut numbers = near.numbers();
            match self.random.below(numbers.len() + 1) {
                5 => numbers.swap(3, 4),
                place => numbers[place] ^= 1 << self.random.below(32),
            }
            let new = Activity::from_numbers(numbers);
            if !activities.contains(&new) && new.client != new.service {
                activities.push(new);
            }
        }
        activities
    }

    fn activity(&mut self) -> Activity {
        let activity = Activity::from_numbers([(); 5].map(|()| self.any_number()));
        let other = activity.client.wrapping_add(self.random.between(1, 9) as u32);
        Activity { service: other, ..activity }
    }

    fn any_message(&mut self) -> Message {
        self.random.pick(&self.messages).expect("there is a message")
    }

    fn any_number(&mut self) -> u32 {
        match self.random.one_in(4) {
            true => self.random.bits() as u32,
            false => self.small(),
        }
    }

    fn small(&mut self) -> u32 {
        self.random.below(14) as u32
    }

    fn shuffle(&mut self) {
        for last in (1..self.messages.len()).rev() {
            self.messages.swap(last, self.random.below(last + 1));
        }
    }
}
