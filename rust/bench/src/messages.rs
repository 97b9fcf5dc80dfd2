//! Texts and their fragments, from the second program; and how rows are named.

use second::fragment::{self, Marks, ETX, LONGEST_TEXT};

/// A text of that many characters, of all that a text can have.
pub fn text(characters: usize) -> Vec<u8> {
    let all = (0..=0x7F).rev().filter(|character| *character != ETX);
    all.cycle().take(characters).collect()
}

pub const MESSAGE_NUMBER: u32 = 5;

/// The words of each fragment.
pub fn fragments_of(text: &[u8], largest: usize) -> Vec<Vec<u32>> {
    numbered_fragments_of(text, largest, MESSAGE_NUMBER)
}

pub fn numbered_fragments_of(text: &[u8], largest: usize, message_number: u32) -> Vec<Vec<u32>> {
    let marks = Marks {
        message_number,
        retrieval: 1,
        mail_drop: 0,
    };
    let mut words = vec![0; 2 * (LONGEST_TEXT / 3 + 1)];
    let cut = fragment::cut(text, marks, largest, &mut words).expect("the text can be cut");
    words[..cut.words]
        .chunks(largest)
        .map(<[u32]>::to_vec)
        .collect()
}

/// So many of a thing.
pub fn counted(number: u32, thing: &str) -> String {
    match number {
        1 => format!("1 {thing}"),
        _ => format!("{number} {thing}s"),
    }
}
