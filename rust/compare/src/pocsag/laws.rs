//! What must be so of a whole stream of words: however it is divided the same comes of it,
//! and where every word can be mended the pages that are handed out are those that were sent.

use second::pocsag::reader::{Ended, Reader, Told};
use second::pocsag::sender::SentPage;

use super::map;

/// A stream of words, and what came of it.
pub struct Stream {
    /// The pages that were sent.
    pub sent: Vec<SentPage>,
    /// Whether every word arrived with at most two wrong code bits, and no other word.
    pub is_mendable: bool,
    /// The words as they arrived.
    pub words: Vec<u32>,
    /// The reader and the memory before the first word.
    pub start: Reader,
    pub lent: Vec<u32>,
    /// Whether these were handed on from each portion to the next as they were.
    pub is_undisturbed: bool,
    /// What was told, and how both stood after the last word.
    pub tellings: Vec<Telling>,
    pub end: Reader,
    pub lent_at_end: Vec<u32>,
}

/// What was told of a word.
#[derive(Clone, Debug, PartialEq, Eq)]
pub struct Telling {
    /// The place of the word in the stream.
    pub place: usize,
    pub told: Told,
    /// The words of the page that was handed out with it.
    pub page: Vec<u32>,
}

impl Telling {
    pub fn new(place: usize, told: Told, lent: &[u32]) -> Telling {
        let handed_out = told.ended.filter(|ended| ended.refusal.is_none());
        let words = handed_out.map_or(0, |ended| ended.words);
        Telling {
            place,
            told,
            page: lent[..words].to_vec(),
        }
    }

    fn is_of(&self, page: &SentPage) -> bool {
        let Told { refusal, ended } = self.told;
        let is_it = |ended: Ended| {
            ended.refusal.is_none()
                && (ended.address, ended.function) == (page.address, page.function)
        };
        refusal.is_none() && ended.is_some_and(is_it) && self.page == page.words
    }
}

/// Says which law a stream breaks, if it does.
pub fn judge(stream: &Stream) -> Result<(), String> {
    if !stream.is_undisturbed {
        return Ok(());
    }
    if !stream.is_the_same_undivided() {
        return stream.broken("the stream tells other things when it is not divided");
    }
    if stream.has_its_pages_due() && !stream.hands_out_its_pages() {
        return stream.broken("the pages are not those that were sent");
    }
    Ok(())
}

impl Stream {
    fn is_the_same_undivided(&self) -> bool {
        let (mut reader, mut lent) = (self.start, self.lent.clone());
        let mut tellings = Vec::new();
        let mut place = 0;
        while place < self.words.len() {
            let heard = reader.hear_mended(map::mend, &self.words[place..], &mut lent);
            place += heard.taken;
            if heard.told != Told::default() {
                tellings.push(Telling::new(place - 1, heard.told, &lent));
            }
        }
        (tellings, reader, lent) == (self.tellings.clone(), self.end, self.lent_at_end.clone())
    }

    /// Whether every page that was sent is to be handed out, and nothing else to be told.
    pub fn has_its_pages_due(&self) -> bool {
        let longest = self.sent.iter().map(|page| page.words.len()).max();
        let has_room = longest.unwrap_or(0) <= self.lent.len();
        self.is_undisturbed && self.is_mendable && self.start == Reader::default() && has_room
    }

    fn hands_out_its_pages(&self) -> bool {
        let pairs = self.tellings.iter().zip(&self.sent);
        self.tellings.len() == self.sent.len() && { pairs }
            .all(|(telling, page)| telling.is_of(page))
    }

    fn broken(&self, how: &str) -> Result<(), String> {
        Err(format!(
            "{how}\n  sent {:X?}\n  words {:X?}\n  from {:?}, lent {:X?}\n  told {:X?}\n  at the end {:?}",
            self.sent, self.words, self.start, self.lent, self.tellings, self.end
        ))
    }
}
