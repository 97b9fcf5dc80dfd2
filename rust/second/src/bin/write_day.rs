//! Writes samples/day.packets, a sample day of a pager, to standard output: every
//! packet with its remark, in the order of the air. What the sender says stands
//! here as texts and numbers; the words are those of the second program's cutting.

use second::address::{address_words, Words};
use second::capcode::read_with_place;
use second::fragment::{cut, Marks};
use second::frames::{frames_listened, Listener, MASKS, MOST_LISTENERS};
use second::heard::{AddressPacket, Message, Status, FIRST_TEMPORARY};
use second::layout::{build, Kind};
use second::mirror::{self, Mirror};
use second::numeric::{write, Numbering, CHINESE_SET, MOST_WORDS, STANDARD_SET};
use second::packet::{
    may_send, AddressEnable, AllFrameMode, Configuration, Control, FrameAssignment, PartId,
    UserAddress,
};
use second::vector::{
    VectorHead, ALPHANUMERIC, NUMBERED_NUMERIC, SHORT_INSTRUCTION, STANDARD_NUMERIC,
};

/// The picker's own address and the one of the group. Both have the frames 13, 45,
/// 77 and 109; the first is any-phase and short, the second of phase A and long.
const PICKER: &[u8] = b"5E0001234";
const GROUP: &[u8] = b"5A0002101457";
/// The location of the picker's address, and those of the group's: a long address
/// is told by its second (S8.7.2).
const PICKER_ADDRESS: u32 = 0;
const GROUP_LOCATIONS: [u32; 2] = [2, 3];
const GROUP_ADDRESS: u32 = GROUP_LOCATIONS[1];
/// Two groups that are formed for a page each (S8.8.4): temporary addresses.
const NEXT_CYCLE_GROUP: u32 = FIRST_TEMPORARY;
const LATER_FRAME_GROUP: u32 = FIRST_TEMPORARY + 1;

/// Enough for every list here.
const MOST_CUT_WORDS: usize = 16;

/// Phases.
const A: u32 = 0;
const C: u32 = 2;

/// A message, and how many words its fragments have at most.
struct List {
    name: &'static str,
    address: u32,
    text: &'static [u8],
    message_number: u32,
    retrieval: u32,
    largest: usize,
}

const LONG_LIST: List = List {
    name: "list 4",
    address: PICKER_ADDRESS,
    text: b"A04 EMMA 2, B17 KIM 10",
    message_number: 4,
    retrieval: 1,
    largest: 4,
};
const FIRST_SHORT_LIST: List = List {
    name: "list 5",
    address: PICKER_ADDRESS,
    text: b"C03 IT 2",
    message_number: 5,
    retrieval: 1,
    largest: 3,
};
const SECOND_SHORT_LIST: List = List {
    name: "list 6",
    address: PICKER_ADDRESS,
    text: b"D09 IF 4",
    message_number: 6,
    retrieval: 1,
    largest: 3,
};
/// To a temporary address, with which message numbers are not used: R is clear
/// (chapter 15.3.1).
const GROUP_TEXT: List = List {
    name: "the group's text",
    address: LATER_FRAME_GROUP,
    text: b"ALL TO DOCK 3",
    message_number: 0,
    retrieval: 0,
    largest: 6,
};

const HEAD: &str = "\
# A sample day of a pager. A line has a packet's way and its eight digits, or the name of a set, and then a remark:
#   reset  the host reset the decoder, which told this part ID;
#   to     the host sends it;
#   from   the decoder sends it;
#   set    the pager is set to read numeric pages by this set of characters, standard or chinese.
# What the host makes of them stands in day.expected.
";

fn main() {
    let mut day = Day {
        mirror: Mirror::default(),
    };
    print!("{HEAD}");
    day.reset();
    day.set_up();
    day.numeric_pages();
    day.short_instructions();
    day.page_in_a_later_frame();
    day.page_in_the_next_cycle();
    day.noon();
    day.pages_at_the_customer();
    day.page_after_the_customer();
    day.first_frame_of_lists();
    day.second_frame_of_lists();
    day.third_frame_of_lists();
}

/// A call in a frame: its phase, its address number and the word of its vector.
#[derive(Clone, Copy)]
struct Call {
    phase: u32,
    address: u32,
    vector: u32,
}

impl Call {
    fn is_long(self) -> bool {
        self.address == GROUP_ADDRESS
    }

    /// AI: that of a temporary address counts from 80H (S8.7.2).
    fn index(self) -> u32 {
        match self.address.checked_sub(FIRST_TEMPORARY) {
            Some(temporary) => 0x80 + temporary,
            None => self.address,
        }
    }
}

/// What a call is sent: a numeric page or a fragment.
#[derive(Clone)]
struct Sent {
    call: Call,
    /// V.
    kind: u32,
    /// K of a numeric page.
    check: u32,
    /// b.
    start: u32,
    name: String,
    words: Vec<u32>,
    /// What is remarked of each word.
    remarks: Vec<String>,
    /// The place of a word that is marked in error.
    in_error: Option<usize>,
}

/// What was written so far, as far as the rest depends on it.
struct Day {
    mirror: Mirror,
}

impl Day {
    fn part(&self, what: &str) {
        println!("\n# {what}");
    }

    fn to(&mut self, packet: u32, remark: &str) {
        println!("to {packet:08X} {remark}");
        if may_send(packet).is_ok() {
            self.mirror = mirror::step(self.mirror, packet).expect("24 bits");
        }
    }

    fn from(&self, packet: u32, remark: &str) {
        println!("from {packet:08X} {remark}");
    }

    fn set(&self, name: &str, remark: &str) {
        println!("set {name} {remark}");
    }

    fn reset(&mut self) {
        self.part(
            "The set-up, as in docs/start-up.md; ranges without a frame are clear since the reset",
        );
        let part_id = part_id();
        println!("reset {part_id:08X} the PCD5008: model 0, compatibility 1, revision 6");
        self.mirror = mirror::reset(part_id).expect("a part ID");
        let early = AddressPacket {
            word: 2,
            ..AddressPacket::default()
        };
        self.from(
            packet(&early),
            "an address, left in the line from before the reset: nobody may believe it",
        );
    }

    fn set_up(&mut self) {
        let configuration = Configuration {
            oscillator: 1,
            synchronous_mode: 1,
            minute_timer: 1,
            ..Configuration::default()
        };
        self.to(
            packet(&configuration),
            "configuration: oscillator within 150 ppm, status at each change of synchronous mode, minute timer",
        );
        self.assign_frames();
        self.assign_addresses();
        let every_frame = AllFrameMode {
            force: 1,
            ..AllFrameMode::default()
        };
        self.to(
            packet(&every_frame),
            "all frame mode: every frame is decoded, and its end is told",
        );
        let on = Control {
            on: 1,
            ..Control::default()
        };
        self.to(packet(&on), "control: decoder on, all phases");
        self.close("checksum: the closing one");
    }

    fn close(&mut self, remark: &str) {
        let closing = mirror::closing(self.mirror).expect("24 bits");
        self.to(closing, remark);
    }

    /// Only the packets that mark a frame: all others are clear after a reset.
    fn assign_frames(&mut self) {
        for (range, mask) in masks().into_iter().enumerate() {
            let first = 16 * (MASKS - 1 - range);
            for bit in (0..16).filter(|bit| mask >> bit & 1 == 1) {
                let assignment = FrameAssignment {
                    range: range as u32,
                    frames: u32::from(mask),
                };
                self.to(
                    packet(&assignment),
                    &format!(
                        "frame assignment, frames {first} to {}: frame {}",
                        first + 15,
                        first + bit
                    ),
                );
            }
        }
        self.to(
            0x2800_2000,
            "one range too many: 28H is reserved and may not be sent",
        );
    }

    fn assign_addresses(&mut self) {
        let Words::Short(word) = words_of(PICKER) else {
            unreachable!("the picker's address is short")
        };
        let Words::Long { first, second } = words_of(GROUP) else {
            unreachable!("the group's address is long")
        };
        self.assign(
            PICKER_ADDRESS,
            0,
            word,
            "the picker's, short, CAPCODE 5E0001234",
        );
        let [first_location, second_location] = GROUP_LOCATIONS;
        self.assign(
            first_location,
            1,
            first,
            "the group's first word, CAPCODE 5A0002101457",
        );
        self.assign(second_location, 1, second, "the group's second word");
        let enabled = 1 << PICKER_ADDRESS | 1 << first_location | 1 << second_location;
        self.to(
            packet(&AddressEnable { enabled }),
            "user address enable: locations 0, 2 and 3",
        );
    }

    fn assign(&mut self, location: u32, long_address: u32, word: u32, whose: &str) {
        let address = UserAddress {
            location,
            long_address,
            tone_only: 0,
            word,
        };
        self.to(
            packet(&address),
            &format!("user address at location {location}: {whose}"),
        );
    }

    /// Words 1 to 4 of the frame are addresses, 5 to 7 their vectors. What comes first
    /// of the words are those that the last two calls share.
    fn numeric_pages(&self) {
        self.part("Frame 13 of cycle 4: a bin number, and a page to the picker and the group in shared words");
        let [bin, own, group] = bin_and_group_pages();
        for page in [&bin, &own, &group] {
            self.open(page.call);
        }
        for page in [&bin, &own, &group] {
            self.announce(page);
        }
        self.words(&own);
        self.words(&bin);
        self.end_frame(13, 4);
    }

    /// The picker's address comes at words 1 and 2, once for each group. The first
    /// is paged in the frame in which it is formed: that of the next cycle is meant.
    fn short_instructions(&self) {
        self.part(
            "Frame 13 of cycle 5: two groups are formed, one for this same frame and one for frame 45",
        );
        let call = |vector| Call {
            phase: A,
            address: PICKER_ADDRESS,
            vector,
        };
        for vector in [3, 4] {
            self.open(call(vector));
        }
        self.instruct(call(3), NEXT_CYCLE_GROUP, 13);
        self.instruct(call(4), LATER_FRAME_GROUP, 45);
        self.end_frame(13, 5);
    }

    fn page_in_a_later_frame(&mut self) {
        self.part("Frame 45 of cycle 5, 32 frames on: a text to the second group");
        self.send(&[sent(&GROUP_TEXT, 0, A, 2, 3)]);
        self.end_frame(45, 5);
        let ended = AllFrameMode {
            decrement: 1,
            force: 1,
            decrement_temporary: 1 << (LATER_FRAME_GROUP - FIRST_TEMPORARY),
        };
        self.to(
            packet(&ended),
            "all frame mode: one off the fragmented messages and one off address 17, for the text is whole",
        );
        self.close("checksum: the register");
    }

    fn page_in_the_next_cycle(&mut self) {
        self.part(
            "Frame 13 of cycle 6, 128 frames after its group was formed: a page to the first group",
        );
        let call = Call {
            phase: A,
            address: NEXT_CYCLE_GROUP,
            vector: 2,
        };
        self.send(&[standard("0945-07-12", call, 3)]);
        self.end_frame(13, 6);
        let ended = AllFrameMode {
            force: 1,
            decrement_temporary: 1 << (NEXT_CYCLE_GROUP - FIRST_TEMPORARY),
            ..AllFrameMode::default()
        };
        self.to(
            packet(&ended),
            "all frame mode: one off address 16, whose page has come",
        );
        self.close("checksum: the register");
    }

    fn noon(&mut self) {
        self.part("At noon the picker leaves the group");
        self.to(
            packet(&AddressEnable { enabled: 1 }),
            "user address enable: location 0 alone; no checksum, so it ends the talking",
        );
        self.from(
            part_id(),
            "part ID: nothing else comes until a checksum does",
        );
        self.close("checksum: the register, which makes the decoder talk again");
    }

    /// The picker's address comes at words 1 to 3, its vectors at words 4 to 6. A bay,
    /// which fills its words up with spaces; a lot, which has as many characters as its
    /// words have room for; and a bay with the number of pieces, two spaces between.
    fn pages_at_the_customer(&self) {
        self.part(
            "Frame 45 of cycle 7: the picker helps out at a customer whose sender has the option of Table 39 on",
        );
        self.set(
            "chinese",
            "the pager reads A to E where the standard set has ?, U, -, ] and [",
        );
        let call = |vector| Call {
            phase: A,
            address: PICKER_ADDRESS,
            vector,
        };
        let unnumbered = Numbering::default();
        let numbered = Numbering {
            message_number: 1,
            retrieval: 1,
            special_format: 0,
        };
        let page = |text, kind, numbering, vector, start| {
            numeric(CHINESE_SET, text, kind, numbering, call(vector), start)
        };
        self.send(&[
            page("0B17 E2", STANDARD_NUMERIC, unnumbered, 4, 7),
            page("0C41BADE07", STANDARD_NUMERIC, unnumbered, 5, 9),
            page("A04  02", NUMBERED_NUMERIC, numbered, 6, 11),
        ]);
        self.end_frame(45, 7);
    }

    fn page_after_the_customer(&self) {
        self.part(
            "Frame 13 of cycle 9: the picker is back, and gets a bin number with the number of pieces",
        );
        self.set("standard", "the pager reads as before");
        let call = Call {
            phase: A,
            address: PICKER_ADDRESS,
            vector: 2,
        };
        self.send(&[standard("0417-3", call, 3)]);
        self.end_frame(13, 9);
    }

    /// The picker's address is any-phase: calls come on phase A and on phase C,
    /// and words of both have the same numbers.
    fn first_frame_of_lists(&self) {
        self.part(
            "Frame 77 of cycle 9: a long pick list begins on phase A, two short ones on phase C",
        );
        self.send(&[sent(&LONG_LIST, 0, A, 2, 3)]);
        self.send(&[
            sent(&FIRST_SHORT_LIST, 0, C, 3, 5),
            sent(&SECOND_SHORT_LIST, 0, C, 4, 8),
        ]);
        self.end_frame(77, 9);
    }

    fn second_frame_of_lists(&self) {
        self.part(
            "Frame 78 of cycle 9: the long list goes on; the tail of list 5 has a word in error",
        );
        self.send(&[sent(&LONG_LIST, 1, A, 2, 3)]);
        let mut tail = sent(&FIRST_SHORT_LIST, 1, C, 2, 3);
        tail.in_error = Some(1);
        tail.remarks[1] += ", marked in error";
        self.send(&[tail]);
        self.end_frame(78, 9);
    }

    /// The tail of list 5 is sent once more. Of its last character, the count, one
    /// bit is another: a 2 would be read as a 3, but for K.
    fn third_frame_of_lists(&self) {
        self.part("Frame 79 of cycle 9: the ends of lists 4 and 6; the tail of list 5 again, a 3 for its 2");
        self.send(&[sent(&LONG_LIST, 2, A, 2, 3)]);
        let good = sent(&SECOND_SHORT_LIST, 1, C, 3, 5);
        let mut wrong = sent(&FIRST_SHORT_LIST, 1, C, 4, 7);
        wrong.words[1] ^= 1 << 14;
        wrong.remarks[1] += ", which comes as [T 3]: K is not the sum";
        self.send(&[good, wrong]);
        self.end_frame(79, 9);
    }

    /// Calls of one phase: the addresses, then the vectors, then the words.
    fn send(&self, pages: &[Sent]) {
        for page in pages {
            self.open(page.call);
        }
        for page in pages {
            self.announce(page);
        }
        for page in pages {
            self.words(page);
        }
    }

    fn open(&self, call: Call) {
        let address = AddressPacket {
            phase: call.phase,
            long_address: u32::from(call.is_long()),
            index: call.index(),
            word: call.vector,
            ..AddressPacket::default()
        };
        let phase = ['A', 'B', 'C', 'D'][call.phase as usize];
        self.from(
            packet(&address),
            &format!(
                "address {} on phase {phase}, its vector at word {}",
                call.address, call.vector
            ),
        );
    }

    /// Tables 37 and 38: i is 0, then the frame from bit 3 on and the temporary address
    /// from bit 10 on.
    fn instruct(&self, call: Call, temporary: u32, frame: u32) {
        let head = VectorHead {
            word: call.vector,
            damaged: 0,
            phase: call.phase,
            kind: SHORT_INSTRUCTION,
        };
        let assigned = (temporary - FIRST_TEMPORARY) << 10 | frame << 3;
        self.from(
            packet(&head) | assigned,
            &format!("short instruction: temporary address {temporary} in frame {frame}"),
        );
    }

    fn announce(&self, page: &Sent) {
        let count = page.words.len() as u32;
        let Call { phase, vector, .. } = page.call;
        let kind = VectorHead {
            word: vector,
            damaged: 0,
            phase,
            kind: page.kind,
        };
        // Table 31: K, and n is one less; Table 36: n.
        let span = match page.kind {
            ALPHANUMERIC => count << 7 | page.start,
            _ => page.check << 10 | (count - 1) << 7 | page.start,
        };
        let start = match page.call.is_long() {
            true => "the second at word",
            false => "from word",
        };
        let words = match count {
            1 => "1 word".to_string(),
            _ => format!("{count} words"),
        };
        self.from(
            packet(&kind) | span,
            &format!("vector of {}: {words}, {start} {}", page.name, page.start),
        );
    }

    fn words(&self, page: &Sent) {
        for (place, bits) in page.words.iter().enumerate() {
            let word = Message {
                word: page.start + place as u32,
                damaged: u32::from(page.in_error == Some(place)),
                phase: page.call.phase,
                bits: *bits,
            };
            let remark = format!("{}, {}", page.name, page.remarks[place]);
            self.from(packet(&word), &remark);
        }
    }

    fn end_frame(&self, frame: u32, cycle: u32) {
        let status = Status {
            frame_valid: 1,
            frame,
            synchronous: 1,
            cycle,
            end_of_frame: 1,
            ..Status::default()
        };
        self.from(
            packet(&status),
            &format!("status: in step, frame {frame} of cycle {cycle} has ended"),
        );
    }
}

/// Every field here is one that its packet holds.
fn packet(fields: &impl Kind) -> u32 {
    build(fields).expect("fields that fit")
}

fn part_id() -> u32 {
    packet(&PartId {
        model: 0,
        compatibility: 1,
        revision: 6,
    })
}

fn words_of(capcode: &[u8]) -> Words {
    let (capcode, _) = read_with_place(capcode).expect("a CAPCODE");
    address_words(capcode.address).expect("an accepted address")
}

/// The frames of both addresses, by packets 20H to 27H.
fn masks() -> [u16; MASKS] {
    let mut listeners = [Listener::default(); MOST_LISTENERS];
    for (listener, capcode) in listeners.iter_mut().zip([PICKER, GROUP]) {
        let (capcode, place) = read_with_place(capcode).expect("a CAPCODE");
        *listener = Listener {
            frame: place.base_frame,
            collapse: capcode.collapse,
        };
    }
    frames_listened(&listeners, 2).expect("two listeners").masks
}

/// A bin number for the picker. A page to the group, at 09.30 to dock 003, goes to the
/// picker's own address too, and both calls share its words: that of the long address
/// has its first word right after its vector, and names the place of the second.
fn bin_and_group_pages() -> [Sent; 3] {
    let call = |address, vector| Call {
        phase: A,
        address,
        vector,
    };
    let numbering = Numbering {
        message_number: 7,
        retrieval: 1,
        special_format: 0,
    };
    let bin = standard("0417", call(PICKER_ADDRESS, 5), 10);
    let own_call = call(PICKER_ADDRESS, 6);
    let own = numeric(
        STANDARD_SET,
        "0930-003",
        NUMBERED_NUMERIC,
        numbering,
        own_call,
        8,
    );
    let group = Sent {
        call: call(GROUP_ADDRESS, 7),
        start: 9,
        ..own.clone()
    };
    [bin, own, group]
}

/// A standard numeric page in characters of the standard set.
fn standard(text: &str, call: Call, start: u32) -> Sent {
    let unnumbered = Numbering::default();
    numeric(
        STANDARD_SET,
        text,
        STANDARD_NUMERIC,
        unnumbered,
        call,
        start,
    )
}

/// A numeric page to an address: its vector and where its words begin. K of it
/// and its words are those of the text in the set that its sender uses.
fn numeric(set: u32, text: &str, kind: u32, numbering: Numbering, call: Call, start: u32) -> Sent {
    let mut words = [0; MOST_WORDS];
    let written = write(set, text.as_bytes(), kind, numbering, &mut words).expect("a page");
    let words = &words[..written.words];
    Sent {
        call,
        kind,
        check: written.check,
        start,
        name: format!("numeric page {text}"),
        words: words.to_vec(),
        remarks: (1..=words.len())
            .map(|word| format!("word {word}"))
            .collect(),
        in_error: None,
    }
}

/// A fragment of a list, counted from 0.
fn sent(list: &List, place: usize, phase: u32, vector: u32, start: u32) -> Sent {
    let marks = Marks {
        message_number: list.message_number,
        retrieval: list.retrieval,
        mail_drop: 0,
    };
    let mut words = [0; MOST_CUT_WORDS];
    let told = cut(list.text, marks, list.largest, &mut words).expect("a text");
    let mut fragments = words[..told.words].chunks(list.largest);
    let words = fragments.nth(place).expect("a fragment of the list");
    let before = place * (list.largest - 1);
    Sent {
        call: Call {
            phase,
            address: list.address,
            vector,
        },
        kind: ALPHANUMERIC,
        check: 0,
        start,
        name: format!("{}, fragment {}", list.name, place + 1),
        words: words.to_vec(),
        remarks: (0..words.len())
            .map(|word| remark(list, before, word))
            .collect(),
        in_error: None,
    }
}

/// Of a word of a fragment: the first has no text (Tables 44 and 45), and the words
/// after it, of all fragments, have S and the text, three cells each.
fn remark(list: &List, before: usize, word: usize) -> String {
    if word == 0 {
        return "word 1: K, C, F and N".to_string();
    }
    let cell = 3 * (before + word - 1);
    let end = list.text.len().min(cell + 2);
    let text = String::from_utf8_lossy(&list.text[cell.saturating_sub(1)..end]);
    let signature = if cell == 0 { "S and " } else { "" };
    format!("word {}: {signature}[{text}]", word + 1)
}
