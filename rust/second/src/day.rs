//! A day of a pager, from a file of packets: what the host makes of each.
//!
//! A line of the file is a comment (`#` first), has nothing on it, or is one of
//! these, where HHHHHHHH are eight upper-case hexadecimal digits. After a space a
//! remark may follow.
//!
//! - `reset HHHHHHHH`: the host reset the decoder, which told this part ID;
//! - `to HHHHHHHH`: the host sends it;
//! - `from HHHHHHHH`: the decoder sends it;
//! - `set standard`, `set chinese`: the pager is set to read numeric pages by this
//!   set of characters.

use std::collections::BTreeMap;
use std::fmt;
use std::io::{self, BufRead, Write};

use crate::call::{self, Call, Calls, Heard};
use crate::chain::{self, Chains, Complete, Joined};
use crate::fragment;
use crate::frames::frames_wait;
use crate::heard::{read_status, Status, ADDRESS, STATUS};
use crate::layout::id_of;
use crate::listing::append_shown;
use crate::mirror::{self, Mirror};
use crate::numeric::{self, PageRead, CHINESE_SET, STANDARD_SET};
use crate::packet::{may_send, PART_ID};
use crate::refusal::Refusal;
use crate::vector::{
    read_vector, ALPHANUMERIC, NUMBERED_NUMERIC, SHORT_INSTRUCTION, SPECIAL_NUMERIC,
    STANDARD_NUMERIC, TEMPORARY_ADDRESS, VECTOR_WORDS,
};

const DIGITS: usize = 8;
/// Of the largest numeric page (Table 41).
const PAGE_CHARACTERS: usize = 41;

#[derive(Clone, Copy, Debug, PartialEq, Eq)]
pub enum Line {
    /// A comment, or nothing.
    Nothing,
    Reset(u32),
    To(u32),
    From(u32),
    Set(Set),
}

/// A set of characters of numeric pages. No packet tells which one a sender uses.
#[derive(Clone, Copy, Debug, PartialEq, Eq)]
pub enum Set {
    Standard,
    Chinese,
}

impl Set {
    /// As the reader of pages takes it.
    fn number(self) -> u32 {
        match self {
            Set::Standard => STANDARD_SET,
            Set::Chinese => CHINESE_SET,
        }
    }

    fn name(self) -> &'static str {
        match self {
            Set::Standard => "standard",
            Set::Chinese => "chinese",
        }
    }
}

/// What a line without its end says; none if it is none of the file's lines.
pub fn read_line(line: &[u8]) -> Option<Line> {
    if line.is_empty() || line.starts_with(b"#") {
        return Some(Line::Nothing);
    }
    if let Some(rest) = line.strip_prefix(b"reset ") {
        return read_packet(rest).map(Line::Reset);
    }
    if let Some(rest) = line.strip_prefix(b"to ") {
        return read_packet(rest).map(Line::To);
    }
    if let Some(rest) = line.strip_prefix(b"set ") {
        return read_set(rest).map(Line::Set);
    }
    let rest = line.strip_prefix(b"from ")?;
    read_packet(rest).map(Line::From)
}

/// The digits are followed by the line's end, or by a space and a remark.
fn read_packet(text: &[u8]) -> Option<u32> {
    let (digits, remark) = text.split_at_checked(DIGITS)?;
    if !remark.is_empty() && !remark.starts_with(b" ") {
        return None;
    }
    digits.iter().try_fold(0, |packet, digit| {
        let value = match digit {
            b'0'..=b'9' => digit - b'0',
            b'A'..=b'F' => digit - b'A' + 10,
            _ => return None,
        };
        Some(packet << 4 | u32::from(value))
    })
}

/// The name goes to the line's end, or to the space before a remark.
fn read_set(text: &[u8]) -> Option<Set> {
    let name = text.split(|byte| *byte == b' ').next()?;
    let sets = [Set::Standard, Set::Chinese];
    sets.into_iter().find(|set| set.name().as_bytes() == name)
}

/// Why a file was not worked to its end.
#[derive(Debug)]
pub enum Trouble {
    /// The number of a line that is none of the file's lines, from 1 on.
    Line(usize),
    Io(io::Error),
}

impl From<io::Error> for Trouble {
    fn from(error: io::Error) -> Trouble {
        Trouble::Io(error)
    }
}

impl fmt::Display for Trouble {
    fn fmt(&self, to: &mut fmt::Formatter) -> fmt::Result {
        match self {
            Trouble::Line(number) => write!(
                to,
                "line {number} is no comment, no packet with its way and no set by its name"
            ),
            Trouble::Io(error) => error.fmt(to),
        }
    }
}

/// Works a file, line by line, and writes what is told of each.
pub fn work(input: impl BufRead, mut output: impl Write) -> Result<(), Trouble> {
    let mut pager = Pager::fresh();
    for (place, line) in input.split(b'\n').enumerate() {
        let line = read_line(&line?).ok_or(Trouble::Line(place + 1))?;
        write_lines(&mut output, pager.take(line))?;
    }
    write_lines(&mut output, pager.open_chains())?;
    Ok(output.flush()?)
}

fn write_lines(output: &mut impl Write, lines: Vec<String>) -> io::Result<()> {
    lines.iter().try_for_each(|line| writeln!(output, "{line}"))
}

/// What a host remembers, and the memory that it lends.
pub struct Pager {
    mirror: Mirror,
    calls: Calls,
    words: Vec<u32>,
    chains: Chains,
    texts: Vec<u8>,
    /// The temporary addresses that were assigned in the present frame, each with
    /// its designated frame.
    assigned: BTreeMap<u32, u32>,
    /// The set by which numeric pages are read.
    set: Set,
}

/// The lines that are told of a packet, or its refusal.
type Told = Result<Vec<String>, Refusal>;

impl Pager {
    /// Before the first reset: silent, so nothing that comes is believed.
    pub fn fresh() -> Pager {
        Pager {
            mirror: Mirror::default(),
            calls: Calls::default(),
            words: vec![0; call::MEMORY],
            chains: Chains::default(),
            texts: vec![0; chain::BUFFER],
            assigned: BTreeMap::new(),
            set: Set::Standard,
        }
    }

    /// What is told of a line of the file.
    pub fn take(&mut self, line: Line) -> Vec<String> {
        let (packet, told) = match line {
            Line::Nothing => return Vec::new(),
            Line::Set(set) => {
                self.set = set;
                return vec![format!("set: {}", set.name())];
            }
            Line::Reset(packet) => (packet, self.reset(packet)),
            Line::To(packet) => (packet, self.send(packet)),
            Line::From(packet) => (packet, self.hear(packet)),
        };
        told.unwrap_or_else(|refusal| {
            let number = refusal.number();
            vec![format!("refused {number}: {packet:08X}")]
        })
    }

    /// The decoder was reset whatever it told, so after a refusal too nothing of
    /// before holds. The set is not the decoder's: it stays.
    fn reset(&mut self, packet: u32) -> Told {
        *self = Pager {
            set: self.set,
            ..Pager::fresh()
        };
        self.mirror = mirror::reset(packet)?;
        Ok(vec![format!("reset: part ID {packet:08X}")])
    }

    /// A packet that may not be sent is not, so the mirror does not see it.
    fn send(&mut self, packet: u32) -> Told {
        if let Err(refusal) = may_send(packet) {
            let number = refusal.number();
            return Ok(vec![format!("not sent, {number}: {packet:08X}")]);
        }
        let was_talking = self.is_talking();
        self.mirror = mirror::step(self.mirror, packet)?;
        let told = match (was_talking, self.is_talking()) {
            (false, true) => vec!["talking".to_string()],
            (true, false) => vec!["silent".to_string()],
            _ => Vec::new(),
        };
        Ok(told)
    }

    /// A silent decoder tells its part ID over and over and nothing else (S8.4.2):
    /// what seems to come from one is not believed.
    fn hear(&mut self, packet: u32) -> Told {
        match id_of(packet) {
            PART_ID if !self.is_talking() => Ok(Vec::new()),
            _ if !self.is_talking() => Ok(vec![format!(
                "left aside, the decoder is not talking: {packet:08X}"
            )]),
            ADDRESS => self.hear_address(packet),
            STATUS => self.hear_status(packet),
            id if VECTOR_WORDS.contains(&id) => self.hear_word(packet),
            _ => Err(Refusal::Packet),
        }
    }

    fn is_talking(&self) -> bool {
        self.mirror.talking != 0
    }

    fn hear_address(&mut self, packet: u32) -> Told {
        let opened = self.calls.open(packet)?;
        let told = match opened.call {
            Some(_) => Vec::new(),
            None => vec![format!("address {}: tone", opened.fields.address)],
        };
        Ok(told)
    }

    fn hear_status(&mut self, packet: u32) -> Told {
        let status = read_status(packet)?;
        if status.end_of_frame == 0 {
            return Ok(Vec::new());
        }
        let incomplete = self.calls.end_frame(&self.words)?;
        let mut told: Vec<String> = incomplete.open_calls().iter().map(lacking).collect();
        for (address, designated) in std::mem::take(&mut self.assigned) {
            let wait = wait_told(&status, designated)?;
            told.push(format!(
                "address {address}: awaits frame {designated}, {wait}"
            ));
        }
        Ok(told)
    }

    /// Each call that the packet completes is paged, in the order opened.
    fn hear_word(&mut self, packet: u32) -> Told {
        let completed = match self.calls.hear(&mut self.words, packet)? {
            Heard::Vector {
                call, is_complete, ..
            } => u32::from(is_complete) << call,
            Heard::Word { completed } => completed,
        };
        let calls = self.calls.open_calls().to_vec();
        let is_paged = |place: usize| completed >> place & 1 == 1;
        let paged = (0..calls.len()).filter(|place| is_paged(*place));
        paged
            .map(|place| self.page(&calls[place], packet))
            .collect()
    }

    /// A call that the packet completes.
    fn page(&mut self, call: &Call, packet: u32) -> Result<String, Refusal> {
        if call.kind == SHORT_INSTRUCTION {
            return self.follow_instruction(call.address, packet);
        }
        let words = &self.words[call.place()..][..call.words as usize];
        Ok(match call.kind {
            STANDARD_NUMERIC | SPECIAL_NUMERIC | NUMBERED_NUMERIC => {
                numeric_page(self.set, call, words)
            }
            ALPHANUMERIC => join(&mut self.chains, &mut self.texts, call.address, words),
            kind => format!("address {}: vector type {kind}, not read", call.address),
        })
    }

    /// A short instruction is whole in its vector (Table 37). Which frame is the
    /// present one is told at its end, and the wait then (S8.8.4).
    fn follow_instruction(&mut self, address: u32, vector: u32) -> Result<String, Refusal> {
        let instruction = read_vector(vector)?.instruction;
        if instruction.kind != TEMPORARY_ADDRESS {
            let kind = instruction.kind;
            return Ok(format!(
                "address {address}: instruction type {kind}, not read"
            ));
        }
        let (temporary, frame) = (instruction.address, instruction.frame);
        self.assigned.insert(temporary, frame);
        Ok(format!(
            "address {address}: temporary address {temporary} in frame {frame}"
        ))
    }

    /// What is told at the end of the file.
    pub fn open_chains(&self) -> Vec<String> {
        let open = self.chains.slots.iter().filter(|slot| slot.is_open());
        open.map(|slot| {
            format!(
                "open: address {}, message {}, awaits {}",
                slot.key.address, slot.key.message_number, slot.next_fragment
            )
        })
        .collect()
    }
}

/// How long it is from a frame that has ended to the designated one. Without FIV
/// the frame number of a status is not guaranteed (S8.4.9).
fn wait_told(ended: &Status, designated: u32) -> Result<String, Refusal> {
    if ended.frame_valid == 0 {
        return Ok("from a frame that is not known".to_string());
    }
    Ok(format!("{} frames", frames_wait(ended.frame, designated)?))
}

/// A call that the end of its frame found incomplete.
fn lacking(call: &Call) -> String {
    let address = call.address;
    match call.has_vector() {
        true => format!("incomplete: address {address}, {} words", call.words),
        false => format!("incomplete: address {address}, no vector"),
    }
}

fn numeric_page(set: Set, call: &Call, words: &[u32]) -> String {
    let address = call.address;
    let mut text = [0; PAGE_CHARACTERS];
    match numeric::read(set.number(), call.kind, call.check, words, &mut text) {
        Ok(page) => format!("address {address}: numeric {}", displayed(&text, page)),
        Err(refusal) => format!(
            "address {address}: numeric page refused {}",
            refusal.number()
        ),
    }
}

/// A display leaves the spaces at the end of a page out, for they may be filling;
/// here they are told by their number (02, item 6).
fn displayed(text: &[u8], page: PageRead) -> String {
    let text = shown(&text[..page.characters - page.spaces_at_end]);
    match page.spaces_at_end {
        0 => format!("[{text}]"),
        1 => format!("[{text}], 1 space at the end"),
        spaces => format!("[{text}], {spaces} spaces at the end"),
    }
}

fn join(chains: &mut Chains, texts: &mut [u8], address: u32, words: &[u32]) -> String {
    let (told, lost) = match chains.step(texts, address, words) {
        Ok(joined) => (joined_told(&joined, texts, address, words), joined.lost),
        Err(not_joined) => (
            format!(
                "address {address}: fragment refused {}",
                not_joined.refusal.number()
            ),
            not_joined.lost,
        ),
    };
    match lost {
        true => told + ", an open chain is lost",
        false => told,
    }
}

fn joined_told(joined: &Joined, texts: &[u8], address: u32, words: &[u32]) -> String {
    let heading = fragment::heading(words).expect("it was joined").heading;
    let message = heading.message_number;
    match joined.complete {
        Some(Complete {
            place, characters, ..
        }) => {
            let text = shown(&texts[place..][..characters]);
            format!("address {address}, message {message}: [{text}]")
        }
        None => format!("address {address}, message {message}: fragment taken"),
    }
}

/// As a terminal can take it, and nothing hidden.
fn shown(text: &[u8]) -> String {
    let mut shown = Vec::new();
    for byte in text {
        append_shown(*byte, &mut shown);
    }
    String::from_utf8(shown).expect("it is ASCII")
}

#[cfg(test)]
mod tests {
    use super::*;
    use crate::fragment::{build, Heading};

    /// A decoder that talks: its register is 000106 after the reset.
    fn talking() -> Pager {
        let mut pager = Pager::fresh();
        pager.told("reset FF000106", &["reset: part ID FF000106"]);
        pager.told("to 00000106", &["talking"]);
        pager
    }

    impl Pager {
        /// What is told of a line must be just this.
        #[track_caller]
        fn told(&mut self, line: &str, told: &[&str]) {
            let line = read_line(line.as_bytes()).expect("a line");
            assert_eq!(self.take(line), told);
        }

        /// As `told`, of a packet of the decoder.
        #[track_caller]
        fn heard(&mut self, packet: u32, told: &[&str]) {
            assert_eq!(self.take(Line::From(packet)), told);
        }

        /// Of the words of a fragment to address 2, as a call of its own frame.
        #[track_caller]
        fn fragment(&mut self, words: &[u32], told: &str) {
            self.heard(0x0100_0202, &[]);
            self.heard(0x0205_0003 | (words.len() as u32) << 7, &[]);
            let last = words.len() - 1;
            for (place, bits) in words[..last].iter().enumerate() {
                self.heard((3 + place as u32) << 24 | bits, &[]);
            }
            self.heard((3 + last as u32) << 24 | words[last], &[told]);
            self.heard(0x7F00_0004, &[]);
        }

        /// Of a numeric page to address 3, the K of its vector and its one word, as a
        /// call of its own frame.
        #[track_caller]
        fn paged(&mut self, (check, word): (u32, u32), told: &str) {
            self.heard(0x0100_0302, &[]);
            self.heard(0x0203_0003 | check << 10, &[]);
            self.heard(0x0300_0000 | word, &[told]);
            self.heard(0x7F00_0004, &[]);
        }
    }

    #[test]
    fn lines() {
        let lines: [(&[u8], Line); 12] = [
            (b"", Line::Nothing),
            (b"#", Line::Nothing),
            (b"# to 00000106", Line::Nothing),
            (b"reset FF000106", Line::Reset(0xFF00_0106)),
            (b"to 0123ABCD", Line::To(0x0123_ABCD)),
            (b"from 89EF0000 ", Line::From(0x89EF_0000)),
            (b"to 00000106 a remark", Line::To(0x106)),
            (b"to 00000106 \xFF\t", Line::To(0x106)),
            (b"set standard", Line::Set(Set::Standard)),
            (b"set chinese", Line::Set(Set::Chinese)),
            (b"set standard ", Line::Set(Set::Standard)),
            (b"set chinese standard\t", Line::Set(Set::Chinese)),
        ];
        for (text, line) in lines {
            assert_eq!(read_line(text), Some(line));
        }
        let wrong: [&[u8]; 24] = [
            b" ",
            b" # no comment",
            b" to 00000106",
            b"to  00000106",
            b"to\t00000106",
            b"to 0000106",
            b"to 000000106",
            b"to 0000010g",
            b"to 0000abcd",
            b"to +0000106",
            b"to 00000106\r",
            b"at 00000106",
            b"set",
            b"set ",
            b" set chinese",
            b"set  chinese",
            b"set\tchinese",
            b"set Chinese",
            b"set chines",
            b"set chinesex",
            b"set chinese\r",
            b"set standard\ta remark",
            b"setchinese",
            b"set 00000001",
        ];
        for text in wrong {
            assert_eq!(read_line(text), None);
        }
    }

    #[test]
    fn a_bad_line_is_told_by_its_number() {
        let mut output = Vec::new();
        let input: &[u8] = b"# A day\n\nreset FF000106 told\nto 106\nto 00000106\n";
        let trouble = work(input, &mut output).unwrap_err();
        assert!(trouble.to_string().starts_with("line 4 "));
        assert_eq!(output, b"reset: part ID FF000106\n");
    }

    #[test]
    fn the_last_line_may_have_no_end() {
        let mut output = Vec::new();
        let input: &[u8] = b"reset FF000106\nto 00000106";
        work(input, &mut output).unwrap();
        assert_eq!(output, b"reset: part ID FF000106\ntalking\n");
    }

    #[test]
    fn a_silent_decoder_is_not_believed() {
        let mut pager = Pager::fresh();
        let aside = "left aside, the decoder is not talking: 7F000004";
        pager.told("from 7F000004", &[aside]);
        pager.told("from FF000106", &[]);
        let mut pager = talking();
        pager.told("to 02000001", &["silent"]);
        pager.told("from 7F000004", &[aside]);
        pager.told("to 00000106", &[]);
        pager.told("to 00000107", &["talking"]);
        pager.told("from 7F000004", &[]);
    }

    /// The register is that of the packets that were sent.
    #[test]
    fn what_may_not_be_sent() {
        let mut pager = talking();
        pager.told("to 1C000000", &["not sent, 7: 1C000000"]);
        pager.told("to 04000001", &["not sent, 7: 04000001"]);
        pager.told("to 00000000", &[]);
        pager.told("to 03400000", &["silent"]);
        pager.told("to 00400106", &["talking"]);
    }

    /// A refused one too ends what was open.
    #[test]
    fn resets() {
        for (reset, told) in [
            ("reset FF000106", "reset: part ID FF000106"),
            ("reset FE000106", "refused 7: FE000106"),
        ] {
            let mut pager = talking();
            pager.fragment(&first("AB", 1), "address 2, message 9: fragment taken");
            pager.heard(0x0100_0002, &[]);
            pager.told(reset, &[told]);
            assert!(!pager.is_talking());
            assert_eq!(pager.open_chains(), Vec::<String>::new());
            assert_eq!(pager.calls, Calls::default());
        }
    }

    /// A block information word, reserved IDs and a part ID; a vector of no call;
    /// addresses of no index and of no word.
    #[test]
    fn refused_packets() {
        let mut pager = talking();
        for packet in ["00000000", "58000000", "7E000004", "80000000", "FF000106"] {
            let told = format!("refused 7: {packet}");
            pager.told(&format!("from {packet}"), &[&told]);
        }
        pager.told("from 02030003", &["refused 17: 02030003"]);
        pager.told("from 57000000", &["refused 17: 57000000"]);
        pager.told("from 01001002", &["refused 8: 01001002"]);
        pager.told("from 01000058", &["refused 7: 01000058"]);
    }

    #[test]
    fn tones() {
        talking().told("from 01008580", &["address 21: tone"]);
    }

    /// 0417 in the vector and the word. The codes stand from bit 2 on: 4 at bit 6, 1
    /// at bit 10 and 7 at bit 14 are 01C500, and 00 + C5 + 01 = C6. Its bits 7 and 6
    /// are 3, and 3 + 06 = 09, so K is 36: 6 in the vector, 3 in the word.
    const CHECK_OF_0417: u32 = 6 << 10;
    const WORD_OF_0417: u32 = 0x01_C503;

    #[test]
    fn numeric_pages() {
        let mut pager = talking();
        pager.heard(0x0100_0302, &[]);
        pager.heard(0x0203_0003 | CHECK_OF_0417, &[]);
        pager.heard(0x0300_0000 | WORD_OF_0417, &["address 3: numeric [0417]"]);
        pager.heard(0x0300_0000, &["refused 14: 03000000"]);
        pager.heard(0x7F00_0004, &[]);
        pager.heard(0x0100_0302, &[]);
        pager.heard(0x0203_0003 | CHECK_OF_0417 ^ 1 << 10, &[]);
        let refused = "address 3: numeric page refused 11";
        pager.heard(0x0300_0000 | WORD_OF_0417, &[refused]);
    }

    /// The codes 0, B, 1 and 7 from bit 2 on are 01C6C0, and C0 + C6 + 01 = 187, of
    /// which 87 = 10 000111; 2 + 7 = 001001; K = 11 0110.
    const PAGE_OF_0B17: (u32, u32) = (0b0110, 0x01_C6C0 | 0b11);
    const READ_AS_STANDARD: &str = "address 3: numeric [0U17]";
    const READ_AS_CHINESE: &str = "address 3: numeric [0B17]";

    /// The set is the pager's: no reset changes it, a refused one neither.
    #[test]
    fn sets() {
        let mut pager = talking();
        pager.paged(PAGE_OF_0B17, READ_AS_STANDARD);
        pager.told("set chinese", &["set: chinese"]);
        pager.paged(PAGE_OF_0B17, READ_AS_CHINESE);
        pager.told("reset FE000106", &["refused 7: FE000106"]);
        pager.told("reset FF000106", &["reset: part ID FF000106"]);
        pager.told("to 00000106", &["talking"]);
        pager.paged(PAGE_OF_0B17, READ_AS_CHINESE);
        pager.told("set standard", &["set: standard"]);
        pager.paged(PAGE_OF_0B17, READ_AS_STANDARD);
    }

    /// The set that holds when the last word has come decides, whatever held when
    /// the call was opened. A decoder need not be talking for a set to be chosen.
    #[test]
    fn a_set_between_the_packets_of_a_page() {
        let mut pager = Pager::fresh();
        let (check, word) = PAGE_OF_0B17;
        pager.told("set chinese", &["set: chinese"]);
        pager.told("reset FF000106", &["reset: part ID FF000106"]);
        pager.told("to 00000106", &["talking"]);
        pager.heard(0x0100_0302, &[]);
        pager.told("set standard", &["set: standard"]);
        pager.heard(0x0203_0003 | check << 10, &[]);
        pager.told("set chinese", &["set: chinese"]);
        pager.heard(0x0300_0000 | word, &[READ_AS_CHINESE]);
    }

    /// By hand, the codes from bit 2 on. A space, 1, a space, 7: 01F070; 70 + F0 + 01
    /// = 161, of which 61 = 01 100001; 1 + 21 = 100010; K = 01 1101. 4, 1, 7 and a
    /// space: 031C50; 50 + 1C + 03 = 6F = 01 101111; 1 + 2F = 110000; K = 00 1111.
    /// 4 and three spaces: 033310; 10 + 33 + 03 = 46 = 01 000110; 1 + 06 = 000111;
    /// K = 11 1000. Four spaces: 033330; 30 + 33 + 03 = 66 = 01 100110; 1 + 26 =
    /// 100111; K = 01 1000.
    #[test]
    fn spaces_at_the_end() {
        for (page, told) in [
            ((0b1101, 0x01_F070 | 0b01), "[ 1 7]"),
            ((0b1111, 0x03_1C50), "[417], 1 space at the end"),
            ((0b1000, 0x03_3310 | 0b11), "[4], 3 spaces at the end"),
            ((0b1000, 0x03_3330 | 0b01), "[], 4 spaces at the end"),
        ] {
            let mut pager = talking();
            let told = format!("address 3: numeric {told}");
            pager.paged(page, &told);
            pager.told("set chinese", &["set: chinese"]);
            pager.paged(page, &told);
        }
    }

    /// One word for two calls, paged in the order opened and not in that of their
    /// words.
    #[test]
    fn group_pages() {
        let mut pager = talking();
        pager.heard(0x0100_0903, &[]);
        pager.heard(0x0100_0402, &[]);
        pager.heard(0x0203_0004 | CHECK_OF_0417, &[]);
        pager.heard(0x0303_0004 | CHECK_OF_0417, &[]);
        let told = ["address 9: numeric [0417]", "address 4: numeric [0417]"];
        pager.heard(0x0400_0000 | WORD_OF_0417, &told);
    }

    /// A short message at once, hex and secure messages when their words came.
    #[test]
    fn kinds_that_are_not_read() {
        let mut pager = talking();
        for index in 2..5 {
            pager.heard(0x0100_0500 | index, &[]);
        }
        pager.heard(0x0202_0000, &["address 5: vector type 2, not read"]);
        pager.heard(0x0306_0085, &[]);
        pager.heard(0x0400_0086, &[]);
        pager.heard(0x0500_0000, &["address 5: vector type 6, not read"]);
        pager.heard(0x0600_0000, &["address 5: vector type 0, not read"]);
        pager.heard(0x7F00_0004, &[]);
    }

    /// Address 16 is assigned in frame 13 for frame 13 itself, address 31 for frame 12.
    /// Addresses are told in their order, and only by the end of the frame.
    #[test]
    fn temporary_addresses() {
        let mut pager = talking();
        pager.heard(0x0100_0002, &[]);
        pager.heard(0x0100_0003, &[]);
        // 15 in d10 to d7 and 12 in d6 to d0 stand from bit 3 on: 3C60H. 13 there: 68H.
        let last = "address 0: temporary address 31 in frame 12";
        pager.heard(0x0201_3C60, &[last]);
        let first = "address 0: temporary address 16 in frame 13";
        pager.heard(0x0301_0068, &[first]);
        pager.heard(0x7F8D_8400, &[]);
        let waits = [
            "address 16: awaits frame 13, 128 frames",
            "address 31: awaits frame 12, 127 frames",
        ];
        pager.heard(0x7F8D_8404, &waits);
        pager.heard(0x7F8D_8504, &[]);
        // AI 80H is address 16.
        pager.heard(0x0100_8002, &[]);
        pager.heard(0x0203_0003 | CHECK_OF_0417, &[]);
        pager.heard(0x0300_0000 | WORD_OF_0417, &["address 16: numeric [0417]"]);
    }

    /// FIV is clear; a reset forgets; an instruction of a reserved type assigns nothing.
    #[test]
    fn waits_that_cannot_be_told() {
        let mut pager = talking();
        pager.heard(0x0100_0002, &[]);
        pager.heard(
            0x0201_0068,
            &["address 0: temporary address 16 in frame 13"],
        );
        let unknown = "address 16: awaits frame 13, from a frame that is not known";
        pager.heard(0x7F0D_8404, &[unknown]);
        pager.heard(0x0100_0002, &[]);
        pager.heard(
            0x0201_0068,
            &["address 0: temporary address 16 in frame 13"],
        );
        pager.told("reset FF000106", &["reset: part ID FF000106"]);
        pager.told("to 00000106", &["talking"]);
        pager.heard(0x7F8D_8404, &[]);
        pager.heard(0x0100_0002, &[]);
        pager.heard(0x0201_006F, &["address 0: instruction type 7, not read"]);
        pager.heard(0x7F8D_8404, &[]);
    }

    #[test]
    fn ends_of_frames() {
        let mut pager = talking();
        pager.heard(0x0100_0702, &[]);
        pager.heard(0x0100_0603, &[]);
        pager.heard(0x0205_0185, &[]);
        pager.heard(0x0580_0000, &["refused 10: 05800000"]);
        // No end of a frame.
        pager.heard(0x7FFF_FFFB, &[]);
        let told = [
            "incomplete: address 7, 3 words",
            "incomplete: address 6, no vector",
        ];
        pager.heard(0x7F00_0004, &told);
        pager.heard(0x7F00_0004, &[]);
    }

    /// A first fragment of message 9 by itself.
    fn first(text: &str, signature: u32) -> Vec<u32> {
        fragment(3, 1, signature, text)
    }

    fn fragment(fragment_number: u32, continued: u32, signature: u32, text: &str) -> Vec<u32> {
        let heading = Heading {
            continued,
            fragment_number,
            message_number: 9,
            signature,
            ..Heading::default()
        };
        build(&heading, text.as_bytes())
    }

    /// S of "AB\\": 41 + 42 + 5C, and five times 03 as fill, are EE, whose seven bits
    /// are 6E: so 11.
    #[test]
    fn texts() {
        let mut pager = talking();
        let taken = "address 2, message 9: fragment taken";
        pager.fragment(&first("AB", 0x11), taken);
        let last = fragment(0, 0, 0, "\\\x03\x03\x03\x03\x03");
        pager.fragment(&last, r"address 2, message 9: [AB\\]");
        assert_eq!(pager.open_chains(), Vec::<String>::new());
        // 07 + 7F = 86, whose seven bits are 06: so 79.
        let signs = fragment(3, 0, 0x79, "\x07\x7F");
        pager.fragment(&signs, r"address 2, message 9: [\x07\x7F]");
    }

    #[test]
    fn chains_that_are_lost() {
        let mut pager = talking();
        let taken = "address 2, message 9: fragment taken";
        pager.fragment(&first("AB", 1), taken);
        let open = "open: address 2, message 9, awaits 0";
        assert_eq!(pager.open_chains(), [open]);
        let again = format!("{taken}, an open chain is lost");
        pager.fragment(&first("AB", 1), &again);
        let skipped = fragment(1, 1, 0, "C");
        let refused = "address 2: fragment refused 14, an open chain is lost";
        pager.fragment(&skipped, refused);
        pager.fragment(&skipped, "address 2: fragment refused 13");
        let mut wrong = first("AB", 1);
        wrong[0] ^= 1;
        pager.fragment(&wrong, "address 2: fragment refused 11");
    }
}
