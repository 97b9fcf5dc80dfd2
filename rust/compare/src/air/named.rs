//! Named arrivals of one text: what comes of them where the air keeps to its limits, and
//! that the limits are needed.

use second::chain::BUFFER;
use second::fragment::Marks;

use crate::chains::events::Receiver;
use crate::exchange;

use super::arrivals::Arrival;
use super::events::{Asked, Event};
use super::seen::{Seen, Watch};
use super::sender::Sender;
use super::sentence;

const TEXT: &[u8] = b"TAKE 28 CABLES";
const ADDRESS: u32 = 7;
const MESSAGE_NUMBER: u32 = 5;
/// "TA", "KE ", "28 ", "CAB" and "LES".
const LARGEST: usize = 2;

struct Named {
    name: &'static str,
    /// The fragments that arrive good, in this order.
    good: &'static [usize],
    handed_out: &'static [&'static [u8]],
    /// Whether the air keeps to its limits, and so the sentence is kept.
    is_within_limits: bool,
}

const NAMED: [Named; 5] = [
    Named {
        name: "each fragment once: the text",
        good: &[0, 1, 2, 3, 4],
        handed_out: &[TEXT],
        is_within_limits: true,
    },
    Named {
        name: "the first and the last repeated: the text, once",
        good: &[0, 0, 1, 2, 3, 4, 4],
        handed_out: &[TEXT],
        is_within_limits: true,
    },
    Named {
        name: "a middle one repeated: nothing",
        good: &[0, 1, 1, 2, 3, 4],
        handed_out: &[],
        is_within_limits: true,
    },
    Named {
        name: "three lost between two good arrivals: another text",
        good: &[0, 4],
        handed_out: &[b"TALES"],
        is_within_limits: false,
    },
    Named {
        name: "the order not kept: another text",
        good: &[0, 1, 2, 3, 1, 2, 3, 4],
        handed_out: &[b"TAKE 28 CABKE 28 CABLES"],
        is_within_limits: false,
    },
];

/// Shows each name when the library agrees and hands out what is named.
pub fn compare(exchange: &[String]) -> Result<usize, String> {
    let mut compared = 0;
    for named in &NAMED {
        let mut watch = Watch::default();
        let mut seen = None;
        let events = events_of(named).into_iter();
        compared += exchange::compare_and_show(exchange, events, |event, _| {
            seen = watch.event(event);
        })?;
        check(named, &seen.expect("the run is over"))?;
        println!("  {}", named.name);
    }
    Ok(compared)
}

fn check(named: &Named, seen: &Seen) -> Result<(), String> {
    let name = named.name;
    if seen.handed_out != named.handed_out {
        return Err(format!("{name}: handed out {:?}", seen.handed_out));
    }
    match (sentence::judge(seen), named.is_within_limits) {
        (Err(broken), true) => Err(format!("{name}: {broken}")),
        (Ok(()), false) => Err(format!("{name}: the sentence is kept all the same")),
        _ => Ok(()),
    }
}

/// The whole buffer is looked at after each fragment.
fn events_of(named: &Named) -> Vec<Event> {
    let marks = Marks {
        message_number: MESSAGE_NUMBER,
        ..Marks::default()
    };
    let (sender, cut) = Sender::new(ADDRESS, marks, TEXT.to_vec(), LARGEST);
    let (mut receiver, fresh) = Receiver::fresh(vec![0xA5; BUFFER]);
    let copies = named.good.iter().map(|&fragment| {
        let arrival = Arrival {
            fragment,
            is_good: true,
            sending: 1,
        };
        let (chains, words) = (receiver.chains, sender.fragments[fragment].clone());
        let step = receiver.step(chains, BUFFER, ADDRESS, words, 0..BUFFER);
        Event::new(Asked::Copy { arrival, step })
    });
    let copies: Vec<Event> = copies.collect();
    let mut events = vec![
        Event::new(Asked::Cut { sender, cut }),
        Event::new(Asked::Other(fresh)),
    ];
    events.extend(copies);
    if let Some(last) = events.last_mut() {
        last.is_last_of_run = true;
    }
    events
}

#[cfg(test)]
mod tests {
    use super::*;

    #[test]
    fn the_second_program_hands_out_what_is_named() {
        for named in &NAMED {
            let mut watch = Watch::default();
            let seen = events_of(named).iter().find_map(|event| watch.event(event));
            let seen = seen.expect("the run is over");
            assert_eq!(check(named, &seen), Ok(()));
        }
    }
}
