//! Pages as a reader hands them out, and as the second program hands them out.

use second::pocsag::reader::{Ended, Reader};
use second::refusal::Refusal;

/// A page that a reader handed out.
#[derive(Clone, Debug, PartialEq, Eq)]
pub struct Page {
    /// The place of its address word among the received words.
    pub place: usize,
    pub address: u32,
    pub function: u32,
    /// The message bits of each word, the first sent bit the lowest.
    pub words: Vec<u32>,
}

/// What the second program tells of the words of a transmission.
#[derive(Debug, Default, PartialEq, Eq)]
pub struct Told {
    /// The pages in the order in which they ended.
    pub ended: Vec<EndedPage>,
    /// The place and the number of each refused word.
    pub refused: Vec<(usize, u32)>,
}

#[derive(Debug, PartialEq, Eq)]
pub struct EndedPage {
    pub page: Page,
    pub mended: u32,
    /// None where it was handed out.
    pub refusal: Option<Refusal>,
}

impl Told {
    pub fn handed_out(&self) -> Vec<Page> {
        let whole = self.ended.iter().filter(|ended| ended.refusal.is_none());
        whole.map(|ended| ended.page.clone()).collect()
    }
}

/// The reading of the second program: the words one by one from a fresh start, and the close.
/// As many words are lent as came, so that no page is too long.
pub fn told_by_second(words: &[u32]) -> Told {
    let mut reader = Reader::default();
    let mut lent = vec![0; words.len()];
    let mut told = Told::default();
    let mut opened = 0;
    for (place, word) in words.iter().enumerate() {
        let was_open = reader.page.is_open != 0;
        let heard = reader.hear(&[*word], &mut lent).told;
        if let Some(refusal) = heard.refusal {
            told.refused.push((place, refusal.number()));
        }
        if let Some(ended) = heard.ended {
            told.ended.push(ended_page(ended, opened, &lent));
        }
        if reader.page.is_open != 0 && (!was_open || heard.ended.is_some()) {
            opened = place;
        }
    }
    if let Some(ended) = reader.close() {
        told.ended.push(ended_page(ended, opened, &lent));
    }
    told
}

fn ended_page(ended: Ended, place: usize, lent: &[u32]) -> EndedPage {
    EndedPage {
        page: Page {
            place,
            address: ended.address,
            function: ended.function,
            words: lent[..ended.words].to_vec(),
        },
        mended: ended.mended,
        refusal: ended.refusal,
    }
}

#[cfg(test)]
mod tests {
    use second::pocsag::sender::{address_word, message_word};
    use second::pocsag::word::{IDLE, SYNC};

    use super::*;

    /// Two pages at once after each other, a page with a word beyond repair, and one that is
    /// open at the close.
    #[test]
    fn pages_with_their_places() {
        let words = [
            SYNC,
            address_word(8, 0),
            message_word(5) ^ 6,
            address_word(8, 3),
            IDLE,
            address_word(16, 1),
            message_word(5),
            message_word(7) ^ 1,
            IDLE,
            address_word(4, 2),
        ];
        let told = told_by_second(&words);
        let page = |place, address, function, words: &[u32]| Page {
            place,
            address,
            function,
            words: words.to_vec(),
        };
        let handed_out = [page(1, 8, 0, &[5]), page(3, 9, 3, &[])];
        assert_eq!(told.handed_out(), handed_out);
        assert_eq!(told.refused, [(7, 25)]);
        let refused: Vec<_> = told.ended[2..]
            .iter()
            .map(|ended| (ended.page.clone(), ended.refusal))
            .collect();
        let damaged = (page(5, 18, 1, &[5]), Some(Refusal::BeyondRepair));
        let unheard = (page(9, 4, 2, &[]), Some(Refusal::NoSync));
        assert_eq!(refused, [damaged, unheard]);
        assert_eq!(told.ended[0].mended, 2);
    }
}
