//! Answers as numbers, so that those of the two programs can be held against each other.

use std::mem::{align_of, size_of};
use std::slice;

use second::numbers::Numbers;
use second::refusal::Refusal;

use crate::measure::Told;

/// A struct of the library that is made of 32-bit numbers alone.
pub fn words_of<T: Copy>(structure: &T) -> Vec<u32> {
    assert_eq!(align_of::<T>(), align_of::<u32>());
    let words = size_of::<T>() / size_of::<u32>();
    // SAFETY: the structs of the exports are in C's layout; with this alignment and 32-bit fields there is no padding.
    unsafe { slice::from_raw_parts((structure as *const T).cast::<u32>(), words) }.to_vec()
}

/// A struct of 32-bit fields from its numbers: the way back from `words_of`.
pub fn from_words<T: Copy>(words: &[u32]) -> T {
    assert_eq!(align_of::<T>(), align_of::<u32>());
    assert_eq!(size_of::<T>(), size_of_val(words));
    // SAFETY: as above, and every number is a field's.
    unsafe { words.as_ptr().cast::<T>().read() }
}

pub fn told(words: &[u32]) -> Told {
    words.iter().copied().map(u64::from).collect()
}

/// The number of the refusal or 0, and after it what is told where nothing is refused. Every export answers so.
pub fn answer<T>(answer: &Result<T, Refusal>, tell: impl Fn(&T) -> Told, nothing: usize) -> Told {
    match answer {
        Ok(value) => [vec![0], tell(value)].concat(),
        Err(refusal) => [vec![u64::from(refusal.number())], vec![0; nothing]].concat(),
    }
}

pub fn answer_of_numbers<N: Numbers>(told_of: &Result<N, Refusal>) -> Told {
    answer(told_of, |value| told(&value.numbers()), N::COUNT)
}

pub fn bytes(row: &[u8]) -> Told {
    row.iter().copied().map(u64::from).collect()
}
