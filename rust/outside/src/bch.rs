//! The code alone: codewords and decoded words of IT++'s BCH code beside the second program's.
//!
//! The program of tools/outside/bch.cpp answers a line for each line: E and 21 bits with the 31
//! bits of their codeword, D and 31 bits with the codeword to which they are decoded, or with a
//! dash where they cannot be. IT++ knows nothing of a parity bit. So it decodes whatever has at
//! most two wrong code bits, and the second program the same but for words whose parity is wrong
//! then.

use std::collections::BTreeMap;
use std::fmt::{self, Display, Formatter};

use second::pocsag::mending::mend;
use second::pocsag::word::{has_even_parity, sent_word, IDLE, SYNC};

use crate::child;
use crate::random::Random;

/// A codeword has 21 information bits.
const INFORMATIONS: u32 = 1 << 21;
/// "x^10 + x^9 + x^8 + x^6 + x^5 + x^3 + 1": as a codeword it is that of the information 1.
const GENERATOR: u32 = 0x769;

/// How many patterns of so many wrong code bits each drawn codeword comes with.
const PATTERNS: [usize; 6] = [1, 10, 30, 30, 10, 10];
/// The parity bit is wrong once in so many times.
const WRONG_PARITY_ONCE_IN: u64 = 4;
/// So many differences of an unknown kind are shown.
const SHOWN_UNKNOWN: usize = 5;

pub fn compare(program: &str, codewords: u64, seed: u64) -> Result<(), String> {
    println!("{}", compare_encoded(program)?);
    let mut random = Random::new(seed);
    let mut received = patterns_of_few(&mut random);
    for _ in 0..codewords {
        let sent = drawn_word(&mut random);
        received.extend(drawn_patterns(&mut random, sent));
    }
    let counts = compare_decoded(program, &received)?;
    print!("{counts}");
    match counts.unknown {
        0 => Ok(()),
        unknown => Err(format!("{unknown} words differ in an unknown way")),
    }
}

/// The lines that the program answers, one for each of these.
fn answers(program: &str, lines: &str) -> Result<String, String> {
    let answered = child::run(program, &[], lines.as_bytes())?;
    let answered = String::from_utf8(answered).map_err(|error| format!("{program}: {error}"))?;
    match answered.lines().count() == lines.lines().count() {
        true => Ok(answered),
        false => Err(format!("{program}: not as many answers as questions")),
    }
}

/// Every codeword there is.
fn compare_encoded(program: &str) -> Result<String, String> {
    let lines: String = (0..INFORMATIONS)
        .map(|information| format!("E{information:06X}\n"))
        .collect();
    let encoded = answers(program, &lines)?;
    for (information, encoded) in (0..INFORMATIONS).zip(encoded.lines()) {
        let theirs = number_of(program, encoded)?;
        let ours = sent_word(information) >> 1;
        if theirs != ours {
            return Err(format!(
                "{information:06X} is encoded as {theirs:08X}, not {ours:08X}"
            ));
        }
        if information == 1 && theirs != GENERATOR {
            return Err(format!("the generator is {theirs:X}H"));
        }
    }
    Ok(format!(
        "all {INFORMATIONS} codewords are the same, that of 1 is the generator {GENERATOR:X}H"
    ))
}

/// A word as it was received, and the word that was sent.
struct Received {
    sent: u32,
    word: u32,
}

/// All choices of up to three code bits, with the parity bit right and wrong, in the sync word,
/// the idle word and two others.
fn patterns_of_few(random: &mut Random) -> Vec<Received> {
    let mut received = Vec::new();
    for sent in [SYNC, IDLE, drawn_word(random), drawn_word(random)] {
        for first in 0..32 {
            for second in first..32 {
                for third in second..32 {
                    // Place 0 is no code bit: it stands for one fewer. So each choice comes once
                    // where the same place is not chosen twice.
                    let is_once = |low, high| low < high || high == 0;
                    if is_once(first, second) && is_once(second, third) {
                        let wrong = (1_u32 << first | 1 << second | 1 << third) & !1;
                        for parity in [0, 1] {
                            let word = sent ^ wrong ^ parity;
                            received.push(Received { sent, word });
                        }
                    }
                }
            }
        }
    }
    received
}

fn drawn_word(random: &mut Random) -> u32 {
    sent_word(random.below(u64::from(INFORMATIONS)) as u32)
}

fn drawn_patterns(random: &mut Random, sent: u32) -> Vec<Received> {
    let mut received = Vec::new();
    for (count, patterns) in (0..).zip(PATTERNS) {
        for _ in 0..patterns {
            let mut wrong = 0_u32;
            while wrong.count_ones() < count {
                wrong |= 1 << random.between(1, 31);
            }
            let parity = u32::from(random.once_in(WRONG_PARITY_ONCE_IN));
            let word = sent ^ wrong ^ parity;
            received.push(Received { sent, word });
        }
    }
    received
}

/// What the two make of a received word.
#[derive(Clone, Copy, PartialEq, Eq, PartialOrd, Ord)]
enum Outcome {
    BothSent,
    BothOther,
    BothRefuse,
    /// The second program refuses it, since the parity of what IT++ makes of it is odd.
    OnlyTheirsSent,
    OnlyTheirsOther,
    Unknown,
}

const OUTCOMES: [(Outcome, &str); 6] = [
    (Outcome::BothSent, "both: sent"),
    (Outcome::BothOther, "both: other"),
    (Outcome::BothRefuse, "both refuse"),
    (Outcome::OnlyTheirsSent, "IT++: sent"),
    (Outcome::OnlyTheirsOther, "IT++: other"),
    (Outcome::Unknown, "unknown"),
];

fn outcome(received: &Received, theirs: Option<u32>) -> Outcome {
    let ours = mend(received.word).ok();
    let is_sent = |codeword: u32| codeword == received.sent >> 1;
    match (ours, theirs) {
        (None, None) => Outcome::BothRefuse,
        (Some(ours), Some(theirs)) if ours.word >> 1 == theirs => {
            let changed = (received.word >> 1 ^ theirs).count_ones();
            match (changed == ours.changed, is_sent(theirs)) {
                (true, true) => Outcome::BothSent,
                (true, false) => Outcome::BothOther,
                (false, _) => Outcome::Unknown,
            }
        }
        (None, Some(theirs)) if !has_even_parity(theirs << 1 | received.word & 1) => {
            match is_sent(theirs) {
                true => Outcome::OnlyTheirsSent,
                false => Outcome::OnlyTheirsOther,
            }
        }
        _ => Outcome::Unknown,
    }
}

#[derive(Default)]
struct Counts {
    /// By the number of wrong code bits, and whether the parity bit is wrong.
    rows: BTreeMap<(u32, bool), BTreeMap<Outcome, usize>>,
    words: usize,
    unknown: usize,
}

impl Counts {
    fn add(&mut self, received: &Received, outcome: Outcome) {
        let wrong = received.sent ^ received.word;
        let row = ((wrong >> 1).count_ones(), wrong & 1 == 1);
        *self
            .rows
            .entry(row)
            .or_default()
            .entry(outcome)
            .or_default() += 1;
        self.words += 1;
        self.unknown += usize::from(outcome == Outcome::Unknown);
    }
}

impl Display for Counts {
    fn fmt(&self, formatter: &mut Formatter) -> fmt::Result {
        writeln!(formatter, "{} words decoded", self.words)?;
        writeln!(
            formatter,
            "\nwhat each makes of a word: the sent one, another, or nothing"
        )?;
        write!(formatter, "{:<32}", "wrong code bits")?;
        for (_, name) in OUTCOMES {
            write!(formatter, " {name:>11}")?;
        }
        writeln!(formatter)?;
        for ((count, is_parity_wrong), row) in &self.rows {
            let name = match is_parity_wrong {
                true => format!("{count}, and the parity bit"),
                false => count.to_string(),
            };
            write!(formatter, "{name:<32}")?;
            for (outcome, _) in OUTCOMES {
                let count = row.get(&outcome).copied().unwrap_or_default();
                write!(formatter, " {count:>11}")?;
            }
            writeln!(formatter)?;
        }
        Ok(())
    }
}

fn compare_decoded(program: &str, received: &[Received]) -> Result<Counts, String> {
    let lines: String = received
        .iter()
        .map(|received| format!("D{:08X}\n", received.word >> 1))
        .collect();
    let decoded = answers(program, &lines)?;
    let mut counts = Counts::default();
    for (received, decoded) in received.iter().zip(decoded.lines()) {
        let theirs = match decoded {
            "-" => None,
            codeword => Some(number_of(program, codeword)?),
        };
        let outcome = outcome(received, theirs);
        counts.add(received, outcome);
        if outcome == Outcome::Unknown && counts.unknown <= SHOWN_UNKNOWN {
            let Received { sent, word } = received;
            eprintln!("{word:08X}, sent as {sent:08X}: IT++ answers {decoded}");
        }
    }
    Ok(counts)
}

fn number_of(program: &str, codeword: &str) -> Result<u32, String> {
    u32::from_str_radix(codeword, 16).map_err(|error| format!("{program}: {codeword}: {error}"))
}

#[cfg(test)]
mod tests {
    use std::collections::BTreeSet;

    use super::*;

    /// 1, 31, 465 and 4,495 choices, each with the parity bit right and wrong.
    #[test]
    fn every_choice_of_up_to_three_bits() {
        let received = patterns_of_few(&mut Random::new(1));
        assert_eq!(received.len(), 4 * 2 * (1 + 31 + 465 + 4_495));
        let of_sync = received.iter().filter(|received| received.sent == SYNC);
        let words: BTreeSet<u32> = of_sync.map(|received| received.word).collect();
        assert_eq!(words.len(), 2 * (1 + 31 + 465 + 4_495));
    }

    #[test]
    fn outcomes() {
        let of = |wrong: u32, theirs| {
            let received = Received {
                sent: 0,
                word: wrong,
            };
            outcome(&received, theirs) as u32
        };
        assert_eq!(of(0, Some(0)), Outcome::BothSent as u32);
        assert_eq!(of(0x8000_0002, Some(0)), Outcome::BothSent as u32);
        assert_eq!(of(1, Some(0)), Outcome::OnlyTheirsSent as u32);
        assert_eq!(of(7, Some(0)), Outcome::OnlyTheirsSent as u32);
        assert_eq!(of(0xE, None), Outcome::BothRefuse as u32);
        assert_eq!(of(0xE, Some(0)), Outcome::Unknown as u32);
        assert_eq!(of(2, None), Outcome::Unknown as u32);
        assert_eq!(of(2, Some(0x2185)), Outcome::Unknown as u32);
        // Three bits of the sent word 430BH, and with the parity bit four.
        assert_eq!(of(0x4300, Some(0x2185)), Outcome::OnlyTheirsOther as u32);
        assert_eq!(of(0x4301, Some(0x2185)), Outcome::BothOther as u32);
    }
}
