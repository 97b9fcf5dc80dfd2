//! Addresses: their classes, and the words that the decoder's packets take (S8.6.3, S8.6.4).
//!
//! ```
//! use mortisevane::address::{self, Class, Words};
//! use mortisevane::Refusal;
//!
//! assert_eq!(address::words(1), Ok(Words::Short(0x008001)));
//! assert_eq!(address::words(2101249), Ok(Words::Long(0x000001, 0x1FFFFE)));
//! assert_eq!(Words::Long(0x1F8001, 0x1E0001).address(), Ok(3223326721));
//! assert_eq!(address::class(2101249), Ok(Class::Set12));
//! assert_eq!(address::class(0), Err(Refusal::Range));
//! ```

use crate::exports;
use crate::refusal::{told, Refusal};

/// The class of an address, by 01's rows of accepted ranges (Table 22).
#[derive(Clone, Copy, Debug, PartialEq, Eq, PartialOrd, Ord, Hash)]
#[repr(u32)]
pub enum Class {
    /// A short address.
    Short = exports::CLASS_SHORT,
    /// A short address of an information service.
    InformationService = exports::CLASS_INFORMATION_SERVICE,
    /// A network address.
    Network = exports::CLASS_NETWORK,
    /// An operator messaging address.
    Operator = exports::CLASS_OPERATOR,
    /// A long address of set 1-2.
    Set12 = exports::CLASS_SET_12,
    /// A long address of set 1-3.
    Set13 = exports::CLASS_SET_13,
    /// A long address of set 1-4.
    Set14 = exports::CLASS_SET_14,
    /// A long address of set 2-3, agreed on within a country.
    Set23Country = exports::CLASS_SET_23_COUNTRY,
    /// A long address of set 2-3, of an information service.
    Set23InformationService = exports::CLASS_SET_23_INFORMATION_SERVICE,
}

impl Class {
    /// All of them, in the order of their numbers.
    pub const ALL: [Class; 9] = [
        Class::Short,
        Class::InformationService,
        Class::Network,
        Class::Operator,
        Class::Set12,
        Class::Set13,
        Class::Set14,
        Class::Set23Country,
        Class::Set23InformationService,
    ];

    /// The place of the class in 01's rows, 1 to 9.
    pub const fn number(self) -> u32 {
        self as u32
    }
}

/// The words of an address, 21 bits each.
#[derive(Clone, Copy, Debug, PartialEq, Eq, Hash)]
pub enum Words {
    /// The one word of a short address.
    Short(u32),
    /// The two words of a long address, the first one first.
    Long(u32, u32),
}

impl Words {
    /// The address that has these words.
    ///
    /// Refuses [`Refusal::Range`]: words of no accepted address.
    pub fn address(self) -> Result<u64, Refusal> {
        let found = match self {
            Words::Short(word) => ask!(mortisevane_word_address(word)),
            Words::Long(first, second) => ask!(mortisevane_pair_address(first, second)),
        };
        told(found.number, found.address)
    }
}

/// The class of an address.
///
/// Refuses [`Refusal::Range`].
pub fn class(address: u64) -> Result<Class, Refusal> {
    let answer = ask!(mortisevane_address_class(address));
    told(answer.number, ())?;
    let class = Class::ALL.into_iter().find(|class| class.number() == answer.class);
    Ok(class.expect("an accepted address has a class"))
}

/// The words of an address (Table 24).
///
/// Refuses [`Refusal::Range`].
pub fn words(address: u64) -> Result<Words, Refusal> {
    let words = ask!(mortisevane_address_words(address));
    let long = words.count == 2;
    told(words.number, if long { Words::Long(words.first, words.second) } else { Words::Short(words.first) })
}
