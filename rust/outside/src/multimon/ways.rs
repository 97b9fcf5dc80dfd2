//! The ways in which multimon-ng is known to read otherwise, each of which can be taken alone.
//!
//! The reader here is the second program's where no way is taken, and multimon-ng's where all
//! are. So whatever multimon-ng shows is foretold, and a page that it shows otherwise than the
//! second program is laid to the fewest ways that make the difference.

use std::collections::HashMap;
use std::sync::OnceLock;

use second::pocsag::mending::choices;
use second::pocsag::word::{has_even_parity, remainder, Meaning, SYNC};

use super::pages::Page;

/// Something that multimon-ng does otherwise.
#[derive(Clone, Copy, Debug, PartialEq, Eq, PartialOrd, Ord)]
pub enum Way {
    /// One or two wrong bits are mended among all 32, the parity bit with them.
    MendsParity,
    /// From the sync word by which it began it counts the words by seventeens, whether other sync
    /// words come in their places or not. One that comes elsewhere begins no batch and ends no
    /// page, and an address word in the place of one is taken as if it stood in frame 0.
    CountsOn,
    /// After two words in succession that are beyond repair it waits for a sync word.
    GivesUp,
    /// A page ends with its 204th message word, whatever comes after that.
    Cuts,
}

pub const WAYS: [Way; 4] = [Way::MendsParity, Way::CountsOn, Way::GivesUp, Way::Cuts];

impl Way {
    pub fn sentence(self) -> &'static str {
        match self {
            Way::MendsParity => "it mends a wrong parity bit",
            Way::CountsOn => "it counts on where a sync word is missing or comes elsewhere",
            Way::GivesUp => "it waits for a sync word after two words beyond repair in succession",
            Way::Cuts => "it shows no more than 204 words of a page",
        }
    }
}

/// The places of a batch: 16 words, and the sync word of the next.
const PLACES: usize = 17;
const SYNC_PLACE: usize = 16;
const FRAME: usize = 2;
const FRAMES: u32 = 8;
/// How many message words multimon-ng has room for.
pub const LONGEST: usize = 204;

/// The pages that are handed out where these ways are taken.
pub fn read(words: &[u32], ways: &[Way]) -> Vec<Page> {
    let mut reader = Reader::new(ways);
    for (at, word) in words.iter().enumerate() {
        reader.take(at, *word);
    }
    reader.pages
}

/// The sets of ways, those of fewer ways first.
pub fn sets() -> Vec<Vec<Way>> {
    let mut sets: Vec<Vec<Way>> = (0_u32..1 << WAYS.len())
        .map(|chosen| {
            let ways = WAYS.iter().enumerate();
            let ways = ways.filter(|(place, _)| chosen >> place & 1 == 1);
            ways.map(|(_, way)| *way).collect()
        })
        .collect();
    sets.sort_by_key(Vec::len);
    sets
}

struct Reader<'a> {
    ways: &'a [Way],
    /// Whether a sync word came and was not lost again.
    is_in_step: bool,
    /// The place of the next word in its batch.
    place: usize,
    /// Whether the word before was beyond repair.
    was_beyond_repair: bool,
    open: Option<Open>,
    pages: Vec<Page>,
}

struct Open {
    page: Page,
    is_whole: bool,
}

impl Reader<'_> {
    fn new(ways: &[Way]) -> Reader<'_> {
        Reader {
            ways,
            is_in_step: false,
            place: 0,
            was_beyond_repair: false,
            open: None,
            pages: Vec::new(),
        }
    }

    fn has(&self, way: Way) -> bool {
        self.ways.contains(&way)
    }

    fn take(&mut self, at: usize, word: u32) {
        let mended = self.mend(word);
        if !self.is_in_step {
            self.is_in_step = mended == Some(SYNC);
            self.place = 0;
            self.was_beyond_repair = false;
            return;
        }
        let place = self.place;
        self.place = (place + 1) % PLACES;
        let lacks_sync = place == SYNC_PLACE && mended != Some(SYNC);
        let Some(word) = mended.filter(|_| !lacks_sync || self.has(Way::CountsOn)) else {
            self.take_unmended(lacks_sync);
            return;
        };
        self.was_beyond_repair = false;
        match Meaning::of(word) {
            Meaning::Sync if place == SYNC_PLACE || self.has(Way::CountsOn) => {}
            Meaning::Sync => {
                self.open = None;
                self.place = 0;
            }
            Meaning::Idle => self.end(),
            Meaning::Address { upper, function } => {
                self.end();
                let frame = (place / FRAME) as u32 % FRAMES;
                let page = Page {
                    place: at,
                    address: FRAMES * upper + frame,
                    function,
                    words: Vec::new(),
                };
                self.open = Some(Open {
                    page,
                    is_whole: true,
                });
            }
            Meaning::Message { bits } => self.take_message(bits),
        }
    }

    fn take_message(&mut self, bits: u32) {
        let cuts = self.has(Way::Cuts);
        match &mut self.open {
            Some(open) if cuts && open.page.words.len() == LONGEST => self.end(),
            Some(open) => open.page.words.push(bits),
            None => {}
        }
    }

    /// A word that is beyond repair, or that is no sync word where one must come.
    fn take_unmended(&mut self, lacks_sync: bool) {
        if let Some(open) = &mut self.open {
            open.is_whole = false;
        }
        let gives_up = self.was_beyond_repair && self.has(Way::GivesUp);
        self.was_beyond_repair = true;
        if gives_up || lacks_sync && !self.has(Way::CountsOn) {
            self.is_in_step = false;
            self.open = None;
        }
    }

    /// The open page ends and, if it is whole, is handed out.
    fn end(&mut self) {
        if let Some(open) = self.open.take().filter(|open| open.is_whole) {
            self.pages.push(open.page);
        }
    }

    fn mend(&self, word: u32) -> Option<u32> {
        let by_syndrome = match self.has(Way::MendsParity) {
            true => of_all_bits(),
            false => of_code_bits(),
        };
        by_syndrome.get(&syndrome(word)).map(|bits| word ^ bits)
    }
}

/// What is wrong with a word: the remainder of its code bits, and whether its parity is odd.
fn syndrome(word: u32) -> (u32, bool) {
    (remainder(word), !has_even_parity(word))
}

type Map = HashMap<(u32, bool), u32>;

/// The wrong bits of each syndrome that at most two code bits have.
fn of_code_bits() -> &'static Map {
    static MAP: OnceLock<Map> = OnceLock::new();
    MAP.get_or_init(|| choices().map(|bits| (syndrome(bits), bits)).collect())
}

/// The wrong bits of each syndrome that at most two of all 32 bits have. The parity bit is one
/// of them, alone or with a code bit.
fn of_all_bits() -> &'static Map {
    static MAP: OnceLock<Map> = OnceLock::new();
    MAP.get_or_init(|| {
        let with_parity = choices()
            .filter(|bits| bits.count_ones() < 2)
            .map(|bits| bits | 1);
        let all = choices().chain(with_parity);
        all.map(|bits| (syndrome(bits), bits)).collect()
    })
}

#[cfg(test)]
mod tests {
    use second::pocsag::mending::mend;
    use second::pocsag::sender::{address_word, message_word};
    use second::pocsag::word::IDLE;

    use super::super::drawing::Transmission;
    use super::super::pages::told_by_second;
    use super::*;
    use crate::random::Random;

    #[test]
    fn every_choice_has_a_syndrome_of_its_own() {
        assert_eq!(of_code_bits().len(), 1 + 31 + 31 * 30 / 2);
        assert_eq!(of_all_bits().len(), 1 + 32 + 32 * 31 / 2);
    }

    #[test]
    fn without_a_way_words_are_mended_as_by_the_second_program() {
        let mut random = Random::new(1);
        let reader = Reader::new(&[]);
        for _ in 0..2_000 {
            let word = random.number() as u32;
            let mended = mend(word).ok().map(|mended| mended.word);
            assert_eq!(reader.mend(word), mended);
        }
    }

    #[test]
    fn without_a_way_pages_are_those_of_the_second_program() {
        let mut random = Random::new(1);
        let mut handed_out = 0;
        for number in 0..300 {
            let words = Transmission::drawn(&mut random, number).words;
            let pages = read(&words, &[]);
            assert_eq!(pages, told_by_second(&words).handed_out());
            handed_out += pages.len();
        }
        assert!(handed_out > 300);
    }

    #[test]
    fn sets_begin_with_none_and_end_with_all() {
        let sets = sets();
        assert_eq!(sets.len(), 16);
        assert_eq!(sets[0], []);
        assert_eq!(sets[1], [Way::MendsParity]);
        assert_eq!(sets[15], WAYS);
    }

    /// How many words each page has that is handed out.
    fn lengths(words: &[u32], ways: &[Way]) -> Vec<usize> {
        let pages = read(words, ways);
        pages.iter().map(|page| page.words.len()).collect()
    }

    const MESSAGE: fn() -> u32 = || message_word(0xC_7140);
    const ADDRESS: fn() -> u32 = || address_word(8, 0);

    #[test]
    fn a_wrong_parity_bit() {
        let mut words = [SYNC, ADDRESS(), MESSAGE(), IDLE];
        for wrong in [1, 3, 0x8000_0001] {
            words[2] = MESSAGE() ^ wrong;
            assert_eq!(lengths(&words, &[]), [0; 0]);
            assert_eq!(lengths(&words, &[Way::MendsParity]), [1]);
        }
        for wrong in [7, 0xE] {
            words[2] = MESSAGE() ^ wrong;
            assert_eq!(lengths(&words, &WAYS), [0; 0]);
        }
    }

    /// After a batch with a page over its end.
    #[test]
    fn a_missing_sync_word() {
        let mut words = vec![SYNC];
        words.extend([IDLE; 14]);
        words.extend([ADDRESS(), MESSAGE(), SYNC ^ 0xE, MESSAGE(), IDLE]);
        words.extend([ADDRESS(), MESSAGE(), IDLE]);
        assert_eq!(lengths(&words, &[]), [0; 0]);
        assert_eq!(lengths(&words, &[Way::CountsOn]), [1]);
        words[17] = ADDRESS();
        assert_eq!(lengths(&words, &[]), [0; 0]);
        assert_eq!(lengths(&words, &[Way::CountsOn]), [1, 1, 1]);
        words[17] = SYNC;
        assert_eq!(lengths(&words, &[]), [2, 1]);
        assert_eq!(lengths(&words, &WAYS), [2, 1]);
    }

    /// The word after it has the place after its own.
    #[test]
    fn a_sync_word_too_early() {
        let words = [SYNC, ADDRESS(), MESSAGE(), SYNC, MESSAGE(), ADDRESS(), IDLE];
        let ours = read(&words, &[]);
        assert_eq!((ours.len(), ours[0].address), (1, 8));
        let other = read(&words, &[Way::CountsOn]);
        assert_eq!(other[0].words.len(), 2);
        assert_eq!((other.len(), other[1].address), (2, 8 + 2));
    }

    #[test]
    fn two_words_beyond_repair() {
        let page = [ADDRESS(), MESSAGE(), IDLE];
        let wrong = IDLE ^ 0xE;
        let one = [&[SYNC, wrong, IDLE, wrong], &page[..]].concat();
        assert_eq!(lengths(&one, &[]), [1]);
        assert_eq!(lengths(&one, &[Way::GivesUp]), [1]);
        let two = [&[SYNC, wrong, wrong], &page[..], &[SYNC], &page[..]].concat();
        assert_eq!(lengths(&two, &[]), [1, 1]);
        assert_eq!(lengths(&two, &[Way::GivesUp]), [1]);
    }

    #[test]
    fn a_page_of_over_204_words() {
        for (length, shown) in [(204, 204), (205, 204), (230, 204)] {
            let mut words = vec![SYNC, ADDRESS()];
            for _ in 0..length {
                if words.len() % PLACES == 0 {
                    words.push(SYNC);
                }
                words.push(MESSAGE());
            }
            words.push(IDLE);
            assert_eq!(lengths(&words, &[]), [length]);
            assert_eq!(lengths(&words, &[Way::Cuts]), [shown]);
        }
    }
}
