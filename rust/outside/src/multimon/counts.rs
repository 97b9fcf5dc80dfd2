//! What was compared, and how it came out.

use std::collections::BTreeMap;
use std::fmt::{self, Write};

use super::drawing::Transmission;
use super::pages::Page;
use super::shown::{manners, Manner};
use super::trouble::{Trouble, TROUBLES};
use super::ways::Way;

/// How the second program and multimon-ng read one page.
pub enum Held {
    Alike(Page),
    OnlyOurs(Page),
    OnlyTheirs(Page),
    /// Both, but with another address, function or message.
    NotTheSame {
        ours: Page,
        theirs: Page,
    },
}

/// On which side a page differs.
#[derive(Clone, Copy, PartialEq, Eq, PartialOrd, Ord)]
enum Side {
    OnlyTheirs,
    OnlyOurs,
    NotTheSame,
}

/// How many pages, and how many of them were read as they were sent: by whoever handed them out,
/// and by the second program where the two differ in a page.
#[derive(Clone, Copy, Default)]
struct Count {
    pages: usize,
    as_sent: usize,
}

impl Count {
    fn add(&mut self, is_as_sent: bool) {
        self.pages += 1;
        self.as_sent += usize::from(is_as_sent);
    }
}

/// Of one trouble.
#[derive(Clone, Copy, Default)]
struct Row {
    transmissions: usize,
    words: usize,
    sent: usize,
    alike: Count,
    only_ours: Count,
    only_theirs: Count,
    not_the_same: Count,
}

const FRAMES: usize = 8;
const PLACES: usize = 16;

#[derive(Default)]
pub struct Counts {
    rows: BTreeMap<Trouble, Row>,
    rates: BTreeMap<u32, usize>,
    differences: BTreeMap<(Vec<Way>, Side), Count>,
    /// How many of the pages that the two read differently multimon-ng reads as they were sent.
    theirs_as_sent: usize,
    manners: BTreeMap<Manner, usize>,
    reached: Reached,
}

/// What the pages that were read alike reach.
struct Reached {
    by_frame: [usize; FRAMES],
    lowest: u32,
    highest: u32,
    numeric: usize,
    texts: usize,
    tones: usize,
    over_an_end: usize,
    longest: usize,
}

impl Default for Reached {
    fn default() -> Reached {
        Reached {
            by_frame: [0; FRAMES],
            lowest: u32::MAX,
            highest: 0,
            numeric: 0,
            texts: 0,
            tones: 0,
            over_an_end: 0,
            longest: 0,
        }
    }
}

impl Reached {
    fn add(&mut self, page: &Page) {
        let frame = page.address as usize % FRAMES;
        self.by_frame[frame] += 1;
        self.lowest = self.lowest.min(page.address);
        self.highest = self.highest.max(page.address);
        match (page.words.is_empty(), page.function) {
            (true, _) => self.tones += 1,
            (_, 0) => self.numeric += 1,
            _ => self.texts += 1,
        }
        // However it stands in its frame.
        let first_place = 2 * frame + 1;
        if first_place + page.words.len() > PLACES {
            self.over_an_end += 1;
        }
        self.longest = self.longest.max(page.words.len());
    }

    /// Each number must be more than none, and the addresses be of both halves of the range.
    fn is_enough(&self) -> bool {
        let counts = [self.numeric, self.texts, self.tones, self.over_an_end];
        let is_some = counts.iter().chain(&self.by_frame).all(|count| *count > 0);
        is_some && self.lowest < 1 << 20 && self.highest >= 1 << 20
    }
}

impl Counts {
    pub fn add_transmission(&mut self, sent: &Transmission) {
        let row = self.rows.entry(sent.trouble).or_default();
        row.transmissions += 1;
        row.words += sent.words.len();
        row.sent += sent.sent();
        *self.rates.entry(sent.rate).or_default() += 1;
    }

    /// A page, with the fewest ways that make the difference.
    pub fn add(&mut self, sent: &Transmission, held: &Held, ways: &[Way]) {
        let row = self.rows.entry(sent.trouble).or_default();
        let (side, is_as_sent) = match held {
            Held::Alike(page) => {
                row.alike.add(sent.is_as_sent(page));
                self.reached.add(page);
                for manner in manners(page) {
                    *self.manners.entry(manner).or_default() += 1;
                }
                return;
            }
            Held::OnlyOurs(page) => {
                let is_as_sent = sent.is_as_sent(page);
                row.only_ours.add(is_as_sent);
                (Side::OnlyOurs, is_as_sent)
            }
            Held::OnlyTheirs(page) => {
                let is_as_sent = sent.is_as_sent(page);
                row.only_theirs.add(is_as_sent);
                (Side::OnlyTheirs, is_as_sent)
            }
            Held::NotTheSame { ours, theirs } => {
                let is_as_sent = sent.is_as_sent(ours);
                row.not_the_same.add(is_as_sent);
                self.theirs_as_sent += usize::from(sent.is_as_sent(theirs));
                (Side::NotTheSame, is_as_sent)
            }
        };
        let difference = self.differences.entry((ways.to_vec(), side));
        difference.or_default().add(is_as_sent);
    }

    /// Whether pages of every sort were read alike.
    pub fn is_enough(&self) -> bool {
        self.reached.is_enough()
    }

    pub fn report(&self) -> String {
        let mut report = String::new();
        self.write(&mut report)
            .expect("a string takes all that is written");
        report
    }

    fn write(&self, report: &mut String) -> fmt::Result {
        self.write_rows(report)?;
        self.write_reached(report)?;
        self.write_differences(report)?;
        self.write_manners(report)
    }

    fn write_rows(&self, report: &mut String) -> fmt::Result {
        let total = self.total();
        let rates = self.rates.iter();
        let rates = rates.map(|(rate, count)| format!("{count} at {rate}"));
        let rates = rates.collect::<Vec<String>>().join(", ");
        let Row {
            transmissions,
            words,
            sent,
            ..
        } = total;
        writeln!(
            report,
            "{transmissions} transmissions ({rates} bits a second), {words} words, {sent} pages"
        )?;
        write!(report, "\n{:<28}", "what arrived")?;
        for column in ["trans.", "words", "pages"] {
            write!(report, " {column:>7}")?;
        }
        for column in ["read alike", "only ours", "only theirs", "not the same"] {
            write!(report, " {column:>14}")?;
        }
        writeln!(report)?;
        for trouble in TROUBLES {
            let row = self.rows.get(&trouble).copied().unwrap_or_default();
            write_row(report, trouble.sentence(), &row)?;
        }
        write_row(report, "in all", &total)?;
        writeln!(
            report,
            "(in brackets: how many are as they were sent; of those not the same, by the second\n\
             program, and {} of them by multimon-ng)",
            self.theirs_as_sent
        )
    }

    fn write_differences(&self, report: &mut String) -> fmt::Result {
        writeln!(
            report,
            "\npages that differ, by what multimon-ng does otherwise:"
        )?;
        for ((ways, side), count) in &self.differences {
            let ways: Vec<&str> = ways.iter().map(|way| way.sentence()).collect();
            let ways = ways.join("; ");
            let side = match side {
                Side::OnlyTheirs => "it alone shows a page",
                Side::OnlyOurs => "the second program alone hands out a page",
                Side::NotTheSame => "both show a page, and not the same",
            };
            let Count { pages, as_sent } = count;
            writeln!(
                report,
                "  {pages:>6} ({as_sent} as sent): {side}, since {ways}"
            )?;
        }
        Ok(())
    }

    fn write_manners(&self, report: &mut String) -> fmt::Result {
        writeln!(report, "\npages that are read alike and written otherwise:")?;
        for (manner, count) in &self.manners {
            writeln!(report, "  {count:>6}: {}", manner.sentence())?;
        }
        Ok(())
    }

    fn write_reached(&self, report: &mut String) -> fmt::Result {
        let reached = &self.reached;
        let frames: Vec<String> = reached.by_frame.iter().map(usize::to_string).collect();
        writeln!(
            report,
            "\npages read alike: {} numeric, {} texts, {} tones, {} over the end of a batch; \
             addresses {} to {}, by frame {}; up to {} words",
            reached.numeric,
            reached.texts,
            reached.tones,
            reached.over_an_end,
            reached.lowest,
            reached.highest,
            frames.join(" "),
            reached.longest
        )
    }

    fn total(&self) -> Row {
        let mut total = Row::default();
        for row in self.rows.values() {
            total.transmissions += row.transmissions;
            total.words += row.words;
            total.sent += row.sent;
            for (sum, count) in [
                (&mut total.alike, row.alike),
                (&mut total.only_ours, row.only_ours),
                (&mut total.only_theirs, row.only_theirs),
                (&mut total.not_the_same, row.not_the_same),
            ] {
                sum.pages += count.pages;
                sum.as_sent += count.as_sent;
            }
        }
        total
    }
}

fn write_row(report: &mut String, name: &str, row: &Row) -> fmt::Result {
    write!(
        report,
        "{name:<28} {:>7} {:>7} {:>7}",
        row.transmissions, row.words, row.sent
    )?;
    for count in [row.alike, row.only_ours, row.only_theirs, row.not_the_same] {
        let count = format!("{} ({})", count.pages, count.as_sent);
        write!(report, " {count:>14}")?;
    }
    writeln!(report)
}
