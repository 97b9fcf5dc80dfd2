//! Runs that 01 names, with what it says of them.

use second::chain::{Key, BUFFER};

use crate::exchange;
use crate::host::MortisevaneChain;

use super::events::{Event, Receiver};
use super::messages::{full_parts, signed};

struct Named {
    name: &'static str,
    fragments: Vec<Vec<u32>>,
    /// What the last fragment is answered with.
    last: MortisevaneChain,
}

const KEY: Key = Key {
    address: 3,
    message_number: 5,
};

/// Shows each name when the library agrees; 01's answer is asked of the second
/// program.
pub fn compare(exchange: &[String]) -> Result<usize, String> {
    let mut compared = 0;
    for named in named_runs() {
        let events = events_of(&named);
        let last = events.last().expect("fresh chains come first");
        if last.second.told != named.last {
            return Err(format!("{}: {:?}", named.name, last.second.told));
        }
        compared += exchange::compare(exchange, events.into_iter())?;
        println!("  {}", named.name);
    }
    Ok(compared)
}

/// The whole buffer is looked at after each event.
fn events_of(named: &Named) -> Vec<Event> {
    let (mut receiver, fresh) = Receiver::fresh(vec![0xA5; BUFFER]);
    let mut events = vec![fresh];
    for words in &named.fragments {
        let chains = receiver.chains;
        let words = words.clone();
        events.push(receiver.step(chains, BUFFER, KEY.address, words, 0..BUFFER));
    }
    events
}

fn named_runs() -> [Named; 4] {
    let refused = |number, lost| MortisevaneChain {
        number,
        lost,
        ..Default::default()
    };
    let complete = |characters| MortisevaneChain {
        complete: 1,
        characters,
        ..Default::default()
    };
    [
        Named {
            name: "1,008 characters join",
            fragments: of_length(1_008),
            last: complete(1_008),
        },
        Named {
            name: "1,009 characters are refused 15",
            fragments: of_length(1_009),
            last: refused(15, 1),
        },
        Named {
            name: "a fragment of one word is refused 9",
            // 3FF - 18 = 3E7: F is 3 and K is right.
            fragments: vec![vec![0x00_1BE7]],
            last: refused(9, 0),
        },
        Named {
            name: "a fragment that comes twice is refused 14",
            fragments: {
                let mut fragments = of_length(1_008);
                fragments.truncate(3);
                fragments.push(fragments[2].clone());
                fragments
            },
            last: refused(14, 1),
        },
    ]
}

/// A signed message of that many characters, all fragments but the last full.
fn of_length(characters: usize) -> Vec<Vec<u32>> {
    let text: Vec<u8> = (b' '..=b'~').cycle().take(characters).collect();
    let parts = full_parts(&text);
    let no_marks = vec![(0, 0); parts.len()];
    signed(KEY.message_number, &parts, &no_marks, 0)
}

#[cfg(test)]
mod tests {
    use super::*;

    #[test]
    fn the_second_program_answers_as_01_says() {
        for named in named_runs() {
            let told = events_of(&named).pop().map(|event| event.second.told);
            assert_eq!(told, Some(named.last), "{}", named.name);
        }
    }
}
