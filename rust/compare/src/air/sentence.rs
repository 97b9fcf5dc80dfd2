//! Demand 3, in its own words: every text that is handed out for the sender's address and
//! message number is the sender's, and at least one is handed out exactly if the first
//! fragment arrives good and, after its last good arrival, the later ones arrive good in
//! order, each once, the last at least once.

use crate::texts::shown;

use super::seen::Seen;

/// Says how a run breaks the sentence, if it does.
pub fn judge(run: &Seen) -> Result<(), String> {
    let text = &run.sender.text;
    let broken = |how: &str| {
        let quoted = |text: &Vec<u8>| format!("\"{}\"", shown(text));
        let handed_out: Vec<String> = run.handed_out.iter().map(quoted).collect();
        Err(format!(
            "{how}\n  text {} in {} fragments, {:?}\n  good arrivals {:?}\n  handed out: {}",
            quoted(text),
            run.sender.fragments.len(),
            run.sender.key,
            run.good,
            handed_out.join(", ")
        ))
    };
    if run.handed_out.iter().any(|other| other != text) {
        return broken("a text that is not the sender's is handed out");
    }
    let is_due = is_due(run.sender.fragments.len(), &run.good);
    match (is_due, run.handed_out.is_empty()) {
        (true, true) => broken("no text is handed out though one is due"),
        (false, false) => broken("a text is handed out though none is due"),
        _ => Ok(()),
    }
}

/// Whether a text of so many fragments is handed out when these arrive good, in this
/// order.
pub fn is_due(fragments: usize, good: &[usize]) -> bool {
    let Some(place) = good.iter().rposition(|fragment| *fragment == 0) else {
        return false;
    };
    let later = &good[place + 1..];
    let times = |fragment| later.iter().filter(|other| **other == fragment).count();
    let last = fragments - 1;
    later.is_sorted()
        && (1..last).all(|fragment| times(fragment) == 1)
        && (last == 0 || times(last) >= 1)
}

#[cfg(test)]
mod tests {
    use super::*;

    #[test]
    fn what_is_due() {
        for (fragments, good) in [
            (1, &[0][..]),
            (1, &[0, 0, 0]),
            (2, &[0, 1]),
            (2, &[0, 0, 1, 1]),
            (3, &[0, 1, 2]),
            (3, &[0, 0, 1, 2, 2, 2]),
            (3, &[0, 1, 0, 1, 2]),
        ] {
            assert!(is_due(fragments, good), "{fragments} {good:?}");
        }
        for (fragments, good) in [
            (1, &[][..]),
            (2, &[]),
            (2, &[0]),
            (2, &[0, 0]),
            (2, &[1, 1]),
            (2, &[1, 0]),
            (3, &[1, 2]),
            (3, &[0, 2]),
            (3, &[0, 1]),
            (3, &[0, 1, 1, 2]),
            (3, &[0, 2, 1]),
            (3, &[0, 1, 0, 2]),
        ] {
            assert!(!is_due(fragments, good), "{fragments} {good:?}");
        }
    }
}
