//! A word: "Bit 31 is sent first. Bits 31 to 1 are the 31 code bits, bit 0 is the
//! even parity bit of all 32."

/// 02, item 5: "sync word 7CD215D8, idle word 7A89C197".
pub const SYNC: u32 = 0x7CD2_15D8;
pub const IDLE: u32 = 0x7A89_C197;

/// The places of the code bits in a word; the parity bit has place 0.
pub const FIRST_PLACE: u32 = 1;
pub const LAST_PLACE: u32 = 31;

/// "The code's generator is x^10 + x^9 + x^8 + x^6 + x^5 + x^3 + 1": the powers of x
/// that it is the sum of.
const GENERATOR: [usize; 7] = [10, 9, 8, 6, 5, 3, 0];
const DEGREE: usize = 10;

/// As a polynomial the code bits have the powers x^30 to x^0.
const CODE_BITS: usize = 31;

/// Where a message word has its 20 message bits, of which bit 30 is sent first, and
/// an address word its 18 address bits and 2 function bits.
const MESSAGE: u32 = 31;
const INFORMATION_END: u32 = 11;
pub const MESSAGE_BITS: u32 = 20;
pub const FUNCTION_BITS: u32 = 2;
pub const ADDRESS_BITS: u32 = 18;

/// What a word's code bits leave after division by the generator, a number below
/// 1024: "As a polynomial, the code bits are the number word/2 (bit 30 of it is the
/// coefficient of x^30)."
pub fn remainder(word: u32) -> u32 {
    let mut coefficients = [false; CODE_BITS];
    for (power, coefficient) in coefficients.iter_mut().enumerate() {
        *coefficient = (word / 2) >> power & 1 == 1;
    }
    for power in (DEGREE..CODE_BITS).rev() {
        if coefficients[power] {
            for term in GENERATOR {
                coefficients[power - DEGREE + term] ^= true;
            }
        }
    }
    let left = coefficients[..DEGREE].iter().rev();
    left.fold(0, |number, bit| 2 * number + u32::from(*bit))
}

/// Whether all 32 bits have an even number of ones.
pub fn has_even_parity(word: u32) -> bool {
    word.count_ones() & 1 == 0
}

/// "A sent word has remainder 0 and an even number of ones."
pub fn is_sent(word: u32) -> bool {
    remainder(word) == 0 && has_even_parity(word)
}

/// What a sent word says.
#[derive(Clone, Copy, Debug, PartialEq, Eq)]
pub enum Meaning {
    Sync,
    Idle,
    Address {
        /// The upper 18 bits of the 21-bit address.
        upper: u32,
        function: u32,
    },
    Message {
        /// The 20 message bits, turned: "the first sent bit is the lowest bit of the
        /// number".
        bits: u32,
    },
}

impl Meaning {
    /// "Bit 31 is 0 for an address word, 1 for a message word."
    pub fn of(word: u32) -> Meaning {
        let information = word >> INFORMATION_END;
        match word {
            SYNC => Meaning::Sync,
            IDLE => Meaning::Idle,
            _ if word >> MESSAGE == 1 => Meaning::Message {
                bits: turned(information),
            },
            _ => Meaning::Address {
                upper: information >> FUNCTION_BITS,
                function: information % (1 << FUNCTION_BITS),
            },
        }
    }
}

/// The 20 lowest bits of a number in the other order.
pub fn turned(number: u32) -> u32 {
    (0..MESSAGE_BITS).fold(0, |turned, place| turned * 2 + (number >> place & 1))
}

/// The word that is sent with these 21 information bits, which are bits 31 to 11 of
/// it: the other code bits are what makes the remainder 0, and the parity bit what
/// makes the number of ones even.
pub fn sent_word(information: u32) -> u32 {
    let information = information << INFORMATION_END;
    let code_bits = information | remainder(information) << FIRST_PLACE;
    code_bits | u32::from(!has_even_parity(code_bits))
}

#[cfg(test)]
mod tests {
    use super::*;

    /// What x^10 to x^30 leave, each from the one before: doubled and, where that has
    /// an x^10, less the generator, 769H. x^10 leaves 369H. x^11: 6D2H less 769H is
    /// 1BBH. x^12: 376H, which has no x^10. After x^30, 3B4H, comes 768H less 769H:
    /// x^31 leaves 1, as x^0 does.
    const POWERS: [u32; 21] = [
        0x369, 0x1BB, 0x376, 0x185, 0x30A, 0x17D, 0x2FA, 0x29D, 0x253, 0x3CF, 0x0F7, 0x1EE, 0x3DC,
        0x0D1, 0x1A2, 0x344, 0x1E1, 0x3C2, 0x0ED, 0x1DA, 0x3B4,
    ];

    #[test]
    fn remainders_of_single_bits() {
        for power in 0..10 {
            assert_eq!(remainder(2 << power), 1 << power);
        }
        for (power, left) in (10..).zip(POWERS) {
            assert_eq!(remainder(2 << power), left, "x^{power}");
        }
    }

    /// The parity bit is no code bit, so it is not divided.
    #[test]
    fn remainders_of_several_bits() {
        assert_eq!(remainder(0), 0);
        assert_eq!(remainder(1), 0);
        assert_eq!(remainder(0x769 << 1), 0);
        assert_eq!(remainder(0x769 << 1 | 1), 0);
        assert_eq!(remainder(0x769 << 21), 0);
        assert_eq!(remainder(2 << 30 | 2 << 10 | 2), 0x3B4 ^ 0x369 ^ 1);
        // Of all 31 powers together nothing is left: x^31 less 1 is x less 1 times them.
        assert_eq!(remainder(u32::MAX), 0);
    }

    #[test]
    fn sync_and_idle_words_are_sent_words() {
        for word in [SYNC, IDLE] {
            assert_eq!(remainder(word), 0);
            assert!(has_even_parity(word));
            assert!(is_sent(word));
            assert!(!is_sent(word ^ 1));
            assert!(!is_sent(word ^ 2));
            assert_eq!(sent_word(word >> 11), word);
        }
        assert_eq!(Meaning::of(SYNC), Meaning::Sync);
        assert_eq!(Meaning::of(IDLE), Meaning::Idle);
    }

    /// The address 1234567 is 154320 times 8 and 7, so that it stands in frame 7, and its
    /// upper bits are 25AD0H. With function 3 and no check bits the word is 4B5A1800H,
    /// which is x^29, x^26, x^24, x^23, x^21, x^19, x^18, x^16, x^11 and x^10. These
    /// leave 1DA, 1E1, 1A2, 0D1, 1EE, 3CF, 253, 2FA, 1BB and 369, together 112H. Moved by
    /// a bit it is 224H, and of 4B5A1A24H 13 bits are ones.
    #[test]
    fn an_address_word_by_hand() {
        let word = 0x4B5A_1A25;
        assert_eq!(sent_word(0x25AD0 << 2 | 3), word);
        let address = Meaning::Address {
            upper: 154_320,
            function: 3,
        };
        assert_eq!(Meaning::of(word), address);
    }

    /// The numeric page 0417 and a space: the codes 0, 4, 1, 7 and C, each with its
    /// lowest bit first, are 0000 0010 1000 1110 0011, which is 028E3H. After the 1 of
    /// a message word and without check bits the word is 81471800H, which is x^30, x^23,
    /// x^21, x^17, x^16, x^15, x^11 and x^10. These leave 3B4, 0D1, 1EE, 29D, 2FA, 17D,
    /// 1BB and 369, together 143H. Moved by a bit it is 286H, and of 81471A86H 12 bits
    /// are ones.
    #[test]
    fn a_message_word_by_hand() {
        let word = 0x8147_1A86;
        assert_eq!(sent_word(1 << 20 | 0x0_28E3), word);
        assert_eq!(Meaning::of(word), Meaning::Message { bits: 0xC_7140 });
    }

    #[test]
    fn bits_turned() {
        assert_eq!(turned(1), 1 << 19);
        assert_eq!(turned(1 << 19), 1);
        assert_eq!(turned(0xF_FFFF), 0xF_FFFF);
        assert_eq!(turned(0x0_28E3), 0xC_7140);
        // The 1 before the message bits is none of them.
        assert_eq!(turned(1 << 20), 0);
    }

    #[test]
    fn every_information_gives_a_sent_word() {
        for information in (0..1 << 21).step_by(97) {
            let word = sent_word(information);
            assert!(is_sent(word));
            assert_eq!(word >> 11, information);
        }
    }
}
