//! Runs: a text is cut, its fragments come as the air lets them, and other traffic comes
//! between them.

use second::chain::BUFFER;

use crate::chains::events::{Event as ChainEvent, Receiver};
use crate::chains::runs::seeded_buffer;
use crate::random::Random;

use super::arrivals::{damaged, seeded_arrivals, Arrival};
use super::events::{Asked, Event};
use super::sender::{seeded_sender, Sender};
use super::traffic::{open_key, Input, Traffic};

pub fn seeded_events(seed: u64, runs: usize) -> impl Iterator<Item = Event> + Send {
    let mut random = Random::new(seed);
    (0..runs).flat_map(move |_| seeded_run(&mut random))
}

fn seeded_run(random: &mut Random) -> Vec<Event> {
    let (sender, cut) = seeded_sender(random);
    let (receiver, fresh) = Receiver::fresh(seeded_buffer(random));
    let cut = Asked::Cut {
        sender: sender.clone(),
        cut,
    };
    let mut run = Run {
        traffic: Traffic::seeded(random, &sender),
        sender,
        receiver,
        events: vec![Event::new(cut), Event::new(Asked::Other(fresh))],
    };
    for _ in 0..random.choose(&[0, 2, 7, 7, 8]) {
        let chains = &run.receiver.chains;
        let opening = run.traffic.opening(random, &run.sender, chains);
        run.other(opening);
    }
    let busy = random.choose(&[0, 1, 3, 4]);
    for arrival in seeded_arrivals(random, run.sender.fragments.len()) {
        run.others(random, busy);
        run.arrival(random, arrival);
    }
    run.others(random, busy);
    if let Some(last) = run.events.last_mut() {
        last.is_last_of_run = true;
    }
    run.events
}

struct Run {
    sender: Sender,
    receiver: Receiver,
    traffic: Traffic,
    events: Vec<Event>,
}

impl Run {
    /// A first fragment that would find no slot is lost, or a chain is dropped for it.
    fn arrival(&mut self, random: &mut Random, arrival: Arrival) {
        if arrival.is_good && arrival.fragment == 0 && !self.has_slot() {
            match open_key(random, &self.receiver.chains) {
                Some(key) if random.once_in(2) => self.other(Input::Drop(key)),
                _ => return,
            }
        }
        let mut words = self.sender.fragments[arrival.fragment].clone();
        if !arrival.is_good {
            words = damaged(random, &words);
        }
        let step = self.step(BUFFER, self.sender.key.address, words);
        self.events.push(Event::new(Asked::Copy { arrival, step }));
    }

    /// The bytes of a text that is handed out are looked at.
    fn step(&mut self, lent: usize, address: u32, words: Vec<u32>) -> ChainEvent {
        let chains = self.receiver.chains;
        let mut event = self.receiver.step(chains, lent, address, words, 0..0);
        let told = event.second.told;
        if told.complete == 1 {
            event.part = told.place..told.place + told.characters;
            event.second.part = self.receiver.buffer[event.part.clone()].to_vec();
        }
        event
    }

    /// For a first fragment of the sender: a free one, or that of its chain.
    fn has_slot(&self) -> bool {
        let chains = &self.receiver.chains;
        chains.first_free().is_some() || chains.slot_of(self.sender.key).is_some()
    }

    fn others(&mut self, random: &mut Random, most: u64) {
        for _ in 0..random.between(0, most) {
            let chains = &self.receiver.chains;
            let input = self.traffic.next(random, &self.sender, chains);
            self.other(input);
        }
    }

    fn other(&mut self, input: Input) {
        let event = match input {
            Input::Fragment {
                lent,
                address,
                words,
            } => self.step(lent, address, words),
            Input::Drop(key) => {
                let chains = self.receiver.chains;
                self.receiver.drop_chain(chains, key, 0..0)
            }
        };
        self.events.push(Event::new(Asked::Other(event)));
    }
}

#[cfg(test)]
mod tests {
    use super::*;
    use crate::air::seen::Watch;

    #[test]
    fn runs_are_as_the_sentence_supposes() {
        let mut watch = Watch::default();
        for event in seeded_events(1, 1_000) {
            if let Asked::Copy { arrival, step } = &event.asked {
                // No copy is refused for another reason than its own damage, or because
                // its chain was lost or never begun.
                let number = step.second.told.number;
                match arrival.is_good {
                    true => assert!(matches!(number, 0 | 13 | 14), "{number}"),
                    false => assert!(matches!(number, 9..=11), "{number}"),
                }
            }
            let Some(run) = watch.event(&event) else {
                continue;
            };
            assert!(run.good.is_sorted());
            assert!(run.gaps().all(|gap| gap <= 2), "{:?}", run.good);
            // Nothing else of the key is accepted, whether fragment or drop.
            let key = run.sender.key;
            let mut of_key = run.others.iter().filter(|other| other.key == key);
            assert!(of_key.all(|other| other.told.number != 0));
        }
    }
}
