//! The sound of a transmission as multimon-ng takes it: one channel of signed numbers of 16 bits,
//! 22,050 of them a second. A bit is a level for as long as it lasts, below zero for a 1.

const SAMPLES_A_SECOND: u64 = 22_050;
const LEVEL: i16 = 8_000;

/// A transmission begins with at least 576 bits in turn 1 and 0.
const PREAMBLE_BITS: usize = 576;
/// A few of them after the last word, so that its last bit is taken.
const TAIL_BITS: usize = 8;

/// The samples of the words at so many bits a second, as the bytes of this machine.
pub fn sound(words: &[u32], rate: u32) -> Vec<u8> {
    let bits = bits_of(words);
    let rate = u64::from(rate);
    let samples = bits.len() as u64 * SAMPLES_A_SECOND / rate;
    let bit_at = |sample: u64| bits[(sample * rate / SAMPLES_A_SECOND) as usize];
    (0..samples)
        .flat_map(|sample| level(bit_at(sample)).to_ne_bytes())
        .collect()
}

fn level(bit: bool) -> i16 {
    match bit {
        true => -LEVEL,
        false => LEVEL,
    }
}

/// "Bit 31 is sent first."
fn bits_of(words: &[u32]) -> Vec<bool> {
    let in_turn = |count| (0..count).map(|place| place % 2 == 0);
    let of_word = |word: u32| (0..32).rev().map(move |place| word >> place & 1 == 1);
    let words = words.iter().flat_map(|word| of_word(*word));
    in_turn(PREAMBLE_BITS)
        .chain(words)
        .chain(in_turn(TAIL_BITS))
        .collect()
}

#[cfg(test)]
mod tests {
    use super::*;

    #[test]
    fn preamble_words_and_tail() {
        let bits = bits_of(&[0xC000_0001]);
        assert_eq!(bits.len(), 576 + 32 + 8);
        assert_eq!(bits[..4], [true, false, true, false]);
        assert_eq!(bits[575..580], [false, true, true, false, false]);
        assert_eq!(bits[606..610], [false, true, true, false]);
    }

    /// At 1,200 bits a second a bit has 18.375 samples, so that 8 of them have 147.
    #[test]
    fn samples_of_bits() {
        let sound = sound(&[u32::MAX], 1200);
        assert_eq!(sound.len(), 2 * 616 * 147 / 8);
        let samples: Vec<i16> = sound
            .chunks_exact(2)
            .map(|bytes| i16::from_ne_bytes([bytes[0], bytes[1]]))
            .collect();
        assert_eq!(samples[..19], [-LEVEL; 19]);
        assert_eq!(samples[19..37], [LEVEL; 18]);
        let word = 576 * 147 / 8;
        assert_eq!(samples[word..word + 588], [-LEVEL; 588]);
    }
}
