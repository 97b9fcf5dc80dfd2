//! The exports as they are linked, with the structs and constants that they share with C.
//!
//! Written by `tools/write-exports` from the Rattle source, in which every function is proved; the tests fail where the
//! two differ.

// What a struct's comment says, it says of its fields, by their names or in their order.
#![allow(missing_docs)]

use core::mem::{offset_of, size_of};

/// A length, a count or a place in a struct. It is as wide on a board of 32 bits as anywhere else.
pub type Size = u64;

// The refusals, by their numbers: 1 to 18 are the paper's, and those from 19 on came with later requests. A `number` of 0 says that nothing was refused.
/// A lent buffer is too short for what is to stand in it.
pub const REFUSED_ROOM: u32 = 1;
/// A register or a record that was handed back is outside its limits.
pub const REFUSED_STATE: u32 = 2;
/// A CAPCODE text that is not in the form, and the byte where it goes wrong is no digit; a letter that no CAPCODE has.
pub const REFUSED_TEXT: u32 = 3;
/// A CAPCODE of an all-phase letter, I to L or Z.
pub const REFUSED_TYPE: u32 = 4;
/// An address, or words, of no accepted range.
pub const REFUSED_RANGE: u32 = 5;
/// An address below the offset of its letter.
pub const REFUSED_OFFSET: u32 = 6;
/// A packet that is not to be sent or of another kind, a field too large, a bit set that is printed as 0.
pub const REFUSED_PACKET: u32 = 7;
/// An address number over 31.
pub const REFUSED_ADDRESS: u32 = 8;
/// Too few or too many words, too many addresses, or a span outside the limits.
pub const REFUSED_SIZE: u32 = 9;
/// A word in error.
pub const REFUSED_DAMAGED: u32 = 10;
/// K is not the sum of the words.
pub const REFUSED_CHECKSUM: u32 = 11;
/// No slot or no call is free.
pub const REFUSED_FULL: u32 = 12;
/// A later fragment, or a drop, where no chain of its key is open.
pub const REFUSED_NO_CHAIN: u32 = 13;
/// A fragment that is not the next one; an address, a vector or a word of a call that has it.
pub const REFUSED_OUT_OF_TURN: u32 = 14;
/// A text that is longer than the room for it.
pub const REFUSED_TOO_LONG: u32 = 15;
/// The last fragment came, and the total is not that of the message.
pub const REFUSED_SIGNATURE: u32 = 16;
/// A vector or a word of no open call.
pub const REFUSED_NO_CALL: u32 = 17;
/// A character that is not in the set or is over 7FH, or ETX in a text to write.
pub const REFUSED_CHARACTER: u32 = 18;
/// A CAPCODE text that goes wrong at a digit before its letter.
pub const REFUSED_DIGIT_BEFORE_LETTER: u32 = 19;
/// A CAPCODE text that begins with a 4, which no CAPCODE does: no digit means 4.
pub const REFUSED_LEADING_FOUR: u32 = 20;
/// A CAPCODE text that goes wrong at a digit after its letter, or stops too soon.
pub const REFUSED_DIGIT_AFTER_LETTER: u32 = 21;
/// A POCSAG word with more wrong bits than can be mended; a page with such a word in it.
pub const REFUSED_BEYOND_REPAIR: u32 = 25;
/// A POCSAG word that does not follow a sync word; a page whose end was not heard.
pub const REFUSED_NO_SYNC: u32 = 26;

// The classes of addresses.
/// The classes of addresses: short.
pub const CLASS_SHORT: u32 = 1;
/// The classes of addresses: information service.
pub const CLASS_INFORMATION_SERVICE: u32 = 2;
/// The classes of addresses: network.
pub const CLASS_NETWORK: u32 = 3;
/// The classes of addresses: operator.
pub const CLASS_OPERATOR: u32 = 4;
/// The classes of addresses: set 12.
pub const CLASS_SET_12: u32 = 5;
/// The classes of addresses: set 13.
pub const CLASS_SET_13: u32 = 6;
/// The classes of addresses: set 14.
pub const CLASS_SET_14: u32 = 7;
/// The classes of addresses: set 23 country.
pub const CLASS_SET_23_COUNTRY: u32 = 8;
/// The classes of addresses: set 23 information service.
pub const CLASS_SET_23_INFORMATION_SERVICE: u32 = 9;

// The IDs of packets, the highest byte of their 32 bits. The same ID means one thing to the decoder and another from it.
// What the host sends (Table 2).
/// What the host sends (Table 2): checksum, 00H.
pub const PACKET_CHECKSUM: u32 = 0x00;
/// What the host sends (Table 2): configuration, 01H.
pub const PACKET_CONFIGURATION: u32 = 0x01;
/// What the host sends (Table 2): control, 02H.
pub const PACKET_CONTROL: u32 = 0x02;
/// What the host sends (Table 2): all frame mode, 03H.
pub const PACKET_ALL_FRAME_MODE: u32 = 0x03;
/// What the host sends (Table 2): receiver lines, 0FH.
pub const PACKET_RECEIVER_LINES: u32 = 0x0F;
/// What the host sends (Table 2): receiver off, 10H.
pub const PACKET_RECEIVER_OFF: u32 = 0x10;
/// What the host sends (Table 2): warm up 1, 11H.
pub const PACKET_WARM_UP_1: u32 = 0x11;
/// What the host sends (Table 2): warm up 2, 12H.
pub const PACKET_WARM_UP_2: u32 = 0x12;
/// What the host sends (Table 2): warm up 3, 13H.
pub const PACKET_WARM_UP_3: u32 = 0x13;
/// What the host sends (Table 2): warm up 4, 14H.
pub const PACKET_WARM_UP_4: u32 = 0x14;
/// What the host sends (Table 2): warm up 5, 15H.
pub const PACKET_WARM_UP_5: u32 = 0x15;
/// What the host sends (Table 2): sync 3200, 16H.
pub const PACKET_SYNC_3200: u32 = 0x16;
/// What the host sends (Table 2): sync 1600, 17H.
pub const PACKET_SYNC_1600: u32 = 0x17;
/// What the host sends (Table 2): data 3200, 18H.
pub const PACKET_DATA_3200: u32 = 0x18;
/// What the host sends (Table 2): data 1600, 19H.
pub const PACKET_DATA_1600: u32 = 0x19;
/// What the host sends (Table 2): shut down 1, 1AH.
pub const PACKET_SHUT_DOWN_1: u32 = 0x1A;
/// What the host sends (Table 2): shut down 2, 1BH.
pub const PACKET_SHUT_DOWN_2: u32 = 0x1B;
/// What the host sends (Table 2): first special, 1CH.
pub const PACKET_FIRST_SPECIAL: u32 = 0x1C;
/// What the host sends (Table 2): last special, 1FH.
pub const PACKET_LAST_SPECIAL: u32 = 0x1F;
/// What the host sends (Table 2): first frames, 20H.
pub const PACKET_FIRST_FRAMES: u32 = 0x20;
/// What the host sends (Table 2): last frames, 27H.
pub const PACKET_LAST_FRAMES: u32 = 0x27;
/// What the host sends (Table 2): address enable, 78H.
pub const PACKET_ADDRESS_ENABLE: u32 = 0x78;
/// What the host sends (Table 2): first user address, 80H.
pub const PACKET_FIRST_USER_ADDRESS: u32 = 0x80;
/// What the host sends (Table 2): last user address, 8FH.
pub const PACKET_LAST_USER_ADDRESS: u32 = 0x8F;
// What the decoder sends (Table 3). A vector's or message word's ID is its word number.
/// What the decoder sends (Table 3): address, 01H.
pub const PACKET_ADDRESS: u32 = 0x01;
/// What the decoder sends (Table 3): first vector, 02H.
pub const PACKET_FIRST_VECTOR: u32 = 0x02;
/// What the decoder sends (Table 3): first message, 03H.
pub const PACKET_FIRST_MESSAGE: u32 = 0x03;
/// What the decoder sends (Table 3): last word, 57H.
pub const PACKET_LAST_WORD: u32 = 0x57;
/// What the decoder sends (Table 3): status, 7FH.
pub const PACKET_STATUS: u32 = 0x7F;
/// What the decoder sends (Table 3): part id, FFH.
pub const PACKET_PART_ID: u32 = 0xFF;

// The types of vectors.
// The vector types V (Tables 32, 33 and 35, S8.7.7).
/// The vector types V (Tables 32, 33 and 35, S8.7.7): secure.
pub const VECTOR_SECURE: u32 = 0;
/// The vector types V (Tables 32, 33 and 35, S8.7.7): instruction.
pub const VECTOR_INSTRUCTION: u32 = 1;
/// The vector types V (Tables 32, 33 and 35, S8.7.7): short.
pub const VECTOR_SHORT: u32 = 2;
/// The vector types V (Tables 32, 33 and 35, S8.7.7): standard.
pub const VECTOR_STANDARD: u32 = 3;
/// The vector types V (Tables 32, 33 and 35, S8.7.7): special.
pub const VECTOR_SPECIAL: u32 = 4;
/// The vector types V (Tables 32, 33 and 35, S8.7.7): alphanumeric.
pub const VECTOR_ALPHANUMERIC: u32 = 5;
/// The vector types V (Tables 32, 33 and 35, S8.7.7): hex.
pub const VECTOR_HEX: u32 = 6;
/// The vector types V (Tables 32, 33 and 35, S8.7.7): numbered.
pub const VECTOR_NUMBERED: u32 = 7;

// The types of short messages.
// The message types t (Table 34).
/// The message types t (Table 34): characters.
pub const SHORT_MESSAGE_CHARACTERS: u32 = 0;
/// The message types t (Table 34): source.
pub const SHORT_MESSAGE_SOURCE: u32 = 1;
/// The message types t (Table 34): numbered.
pub const SHORT_MESSAGE_NUMBERED: u32 = 2;
/// The message types t (Table 34): spare.
pub const SHORT_MESSAGE_SPARE: u32 = 3;

// The types of short instructions.
/// The instruction type i (Table 38) that assigns a temporary address.
pub const INSTRUCTION_TEMPORARY: u32 = 0;

// The sets of characters of numeric pages, the two columns of Table 39. Nothing in a page says by which its sender wrote it.
/// Table 39 with the option off: digits, `?` for the spare code, `U`, space, `-`, `\]`, `\[`.
pub const SET_STANDARD: u32 = 0;
/// Table 39 with the option of the People's Republic of China on: A to E for `?`, `U`, `-`, `\]`, `\[`.
pub const SET_CHINESE: u32 = 1;

// The two words of POCSAG that are no page's.
/// 02, item 5: "sync word 7CD215D8": it stands before each batch.
pub const POCSAG_SYNC: u32 = 2094142936;
/// 02, item 5: "idle word 7A89C197": it stands where there is nothing to send, and ends a page.
pub const POCSAG_IDLE: u32 = 2055848343;

// How the text of a POCSAG page is read. Nothing in a page says how its sender wrote it.
/// Four bits a character, the set of Table 39 with the option off.
pub const POCSAG_TEXT_NUMERIC: u32 = 0;
/// Four bits a character, the set of Table 39 with the option on.
pub const POCSAG_TEXT_NUMERIC_CHINESE: u32 = 1;
/// Seven bits a character.
pub const POCSAG_TEXT_SEVEN_BIT: u32 = 2;

/// What each refusal means, in a sentence for people, at the place of its number. The one at place 0, where nothing was
/// refused, is empty.
pub const SENTENCES: [&str; 27] = [
    "",
    "the lent memory is too short",
    "the state that was handed back is outside its limits",
    "the text is not in the form of a CAPCODE",
    "the letter is all-phase, which the decoder does not support",
    "the address is in no accepted range",
    "the address is below the offset of its letter",
    "the packet or a field is not as its table says",
    "the address number is over 31",
    "the count or the span is outside the limits",
    "a word is in error",
    "K is not the sum of the words",
    "no slot or call is free",
    "no chain of this key is open",
    "it is not the next one, or came before",
    "the text is longer than the room for it",
    "the text's total is not that of its message",
    "no open call awaits it",
    "a character is not in the set",
    "a digit that cannot stand here: A to L take one digit or none, U to Z 000 to 127 and one more",
    "a 4 at the start: no digit means 4, so leave it out",
    "the text stops too soon, or has a digit too many after the letter",
    "",
    "",
    "",
    "beyond repair: more bits are wrong than can be mended",
    "no sync word stood where one had to",
];

// Limits, and how much memory is to be lent.
/// Chains that can be open at a time.
pub const SLOTS: usize = 8;
/// The longest text.
pub const TEXT_CHARACTERS: usize = 1008;
/// The most words of a fragment.
pub const FRAGMENT_WORDS: usize = 85;
/// The most words of a numeric page.
pub const PAGE_WORDS: usize = 8;
/// Calls that can be open at a time.
pub const CALLS: usize = 8;
/// The memory that calls are lent, in words.
pub const CALL_WORDS: usize = 680;
/// The memory that chains are lent, in bytes.
pub const CHAIN_BYTES: usize = SLOTS * TEXT_CHARACTERS;
/// The most characters of a fragment.
pub const FRAGMENT_CHARACTERS: usize = 3 * (FRAGMENT_WORDS - 1);
/// The most words of a text that is cut.
pub const CUT_WORDS: usize = 2 * (TEXT_CHARACTERS / 3 + 1);
/// The most characters of a numeric page.
pub const PAGE_CHARACTERS: usize = (21 * PAGE_WORDS - 2) / 4;
/// The longest CAPCODE: frame and collapse, the letter, ten digits.
pub const CAPCODE_BYTES: usize = 3 + 1 + 1 + 10;

// Addresses and their words, as C and Rust link them: numbers and structs by value. Every function takes any input.
// `number` is 0, or 01's number of the refusal; every other field is then 0.

/// The class of an address, 1 to 9 by 01's rows.
#[repr(C)]
#[derive(Clone, Copy, Debug, Default, PartialEq, Eq)]
pub struct Class {
    pub number: u32,
    pub class: u32,
}

/// One word or two; `second` is 0 where there is none.
#[repr(C)]
#[derive(Clone, Copy, Debug, Default, PartialEq, Eq)]
pub struct Words {
    pub number: u32,
    pub count: u32,
    pub first: u32,
    pub second: u32,
}

/// An address.
#[repr(C)]
#[derive(Clone, Copy, Debug, Default, PartialEq, Eq)]
pub struct Found {
    pub number: u32,
    pub address: u64,
}

extern "C" {
    /// The class of an address.
    ///
    /// Takes an address, any number.
    ///
    /// Answers its class, one of CLASS_..
    ///
    /// Refuses 5.
    pub fn mortisevane_address_class(address: u64) -> Class;

    /// The words of an address, for the decoder's address packets (Table 24).
    ///
    /// Takes an address, any number.
    ///
    /// Answers how many words there are, 1 for a short address and 2 for a long one, and the words.
    ///
    /// Refuses 5.
    pub fn mortisevane_address_words(address: u64) -> Words;

    /// The address that one word belongs to.
    ///
    /// Takes a word, any number.
    ///
    /// Answers the short address.
    ///
    /// Refuses 5: a word of no accepted address.
    pub fn mortisevane_word_address(word: u32) -> Found;

    /// The address that two words belong to.
    ///
    /// Takes the first and the second word, any numbers.
    ///
    /// Answers the long address.
    ///
    /// Refuses 5: words of no accepted address.
    pub fn mortisevane_pair_address(first: u32, second: u32) -> Found;
}

// CAPCODEs, as C and Rust link them: numbers, slices and structs by value. Every function takes any input. `number` is 0,
// or the number of the refusal; every other field is then 0, but for the place where a text goes wrong.

/// A CAPCODE: its letter, the three frame digits of U to Y (0 with A to H), its collapse and address; and
/// the phase (0 to 3 for A to D, 4 for any-phase) and base frame that it assigns. With a `number` of 3 or 19 to 21 `place` is
/// that of the first byte, counted from 0, at which no correct text could go on: the text's length where it only stops too
/// soon, and 15 at most. Else it is 0.
#[repr(C)]
#[derive(Clone, Copy, Debug, Default, PartialEq, Eq)]
pub struct Capcode {
    pub number: u32,
    pub letter: u8,
    pub frame: u32,
    pub collapse: u32,
    pub phase: u8,
    pub base: u8,
    pub place: u8,
    pub address: u64,
}

/// A phase (0 to 3 for A to D, 4 for any-phase) and a base frame.
#[repr(C)]
#[derive(Clone, Copy, Debug, Default, PartialEq, Eq)]
pub struct Assignment {
    pub number: u32,
    pub phase: u8,
    pub base: u8,
}

/// How many bytes of a lent buffer were written.
#[repr(C)]
#[derive(Clone, Copy, Debug, Default, PartialEq, Eq)]
pub struct Length {
    pub number: u32,
    pub length: Size,
}

extern "C" {
    /// What a CAPCODE text says.
    ///
    /// Takes the text, without a line's end.
    ///
    /// Answers its letter, frame digits, collapse and address, and the phase and base frame that it assigns.
    ///
    /// Refuses 3, 19, 20, 21, with the place at which the text goes wrong, then 4, 5, 6, the first that applies. By the byte at
    /// that place 20 is a 4 at the start, 19 any other digit before the letter, 21 a digit after the letter, 3 any other byte; a
    /// text that only stops too soon is 21.
    pub fn mortisevane_capcode_read(text: *const u8, text_length: usize) -> Capcode;

    /// The phase and base frame of a CAPCODE.
    ///
    /// Takes the letter as a character, the frame (0 with A to H), the collapse and the address.
    ///
    /// Answers the phase (0 to 3 for A to D, 4 for any-phase) and the base frame.
    ///
    /// Refuses 3, 4, 5, 6, 7, the first that applies. Here 3 is a letter that no CAPCODE has; 7 is a collapse over 5, a frame
    /// over 127, or a frame that is not 0 with A to H.
    pub fn mortisevane_capcode_assign(letter: u8, frame: u32, collapse: u32, address: u64) -> Assignment;

    /// The text of a CAPCODE, written at the start of a lent buffer.
    ///
    /// Takes the letter as a character, the frame (0 with A to H), the collapse, the address and the buffer, for which
    /// CAPCODE_BYTES are always enough.
    ///
    /// Answers how many bytes were written; no zero byte stands after them.
    ///
    /// Refuses 3, 4, 5, 6, 7, as mortisevane_capcode_assign does, and last 1; the buffer is then as it was.
    pub fn mortisevane_capcode_print(letter: u8, frame: u32, collapse: u32, address: u64, out: *mut u8, out_length: usize) -> Length;
}

// Frames listened to and the wait for a temporary address, as C and Rust link them: numbers and structs by value. Every
// function takes any input. `number` is 0, or 01's number of the refusal; every other field is then 0.

/// A wait in frames.
#[repr(C)]
#[derive(Clone, Copy, Debug, Default, PartialEq, Eq)]
pub struct Wait {
    pub number: u32,
    pub frames: u32,
}

/// One address as far as frames go: its base frame and its collapse, wider than any that is accepted, so that one too
/// large is refused and not cut.
#[repr(C)]
#[derive(Clone, Copy, Debug, Default, PartialEq, Eq)]
pub struct Listener {
    pub frame: u32,
    pub collapse: u32,
}

/// The addresses of a pager: of sixteen places the first `count` are looked at.
#[repr(C)]
#[derive(Clone, Copy, Debug, Default, PartialEq, Eq)]
pub struct Listeners {
    pub listeners: [Listener; 16],
    pub count: u32,
}

/// The number of frames listened to, and the masks of packets 20H to 27H.
#[repr(C)]
#[derive(Clone, Copy, Debug, Default, PartialEq, Eq)]
pub struct Frames {
    pub number: u32,
    pub count: u32,
    pub masks: [u16; 8],
}

extern "C" {
    /// The wait until the designated frame of a temporary address comes next (S8.8.4).
    ///
    /// Takes the present frame and the designated one, 0 to 127.
    ///
    /// Answers the wait, 1 to 128 frames. To the present frame it is 128: its next coming, in the following cycle.
    ///
    /// Refuses 7: a frame over 127.
    pub fn mortisevane_frames_wait(from: u32, to: u32) -> Wait;

    /// The frames that a pager with these addresses listens to.
    ///
    /// Takes the base frame and the collapse of each address, and how many there are.
    ///
    /// Answers the number of frames, and masks\[i\], the frame bits of packet 20H + i.
    ///
    /// Refuses 7 and then 9: a frame over 127 or a collapse over 5; over 16 addresses.
    pub fn mortisevane_frames_listened(listeners: Listeners) -> Frames;
}

// Packets, as C and Rust link them: building, reading, and what may be sent. Every function takes any
// input, and its contract is that of the function it calls: `number` is 0, or 01's number of the
// refusal, and every other field is then 0.

/// The checksum packet (Table 9): CV, 24 bits.
#[repr(C)]
#[derive(Clone, Copy, Debug, Default, PartialEq, Eq)]
pub struct Checksum {
    pub value: u32,
}

/// 32 bits: the ID in the highest byte, 24 data bits after it (Table 1).
#[repr(C)]
#[derive(Clone, Copy, Debug, Default, PartialEq, Eq)]
pub struct Packet {
    pub bits: u32,
}

/// The packet that was built; `number` is 0, or 7 and the packet's bits are 0.
#[repr(C)]
#[derive(Clone, Copy, Debug, Default, PartialEq, Eq)]
pub struct Built {
    pub number: u32,
    pub packet: Packet,
}

/// The configuration packet (Table 5): OFD (Table 4) and SP (Table 6), 0 to 3; SME, MOT, COD, MTE and LBP.
#[repr(C)]
#[derive(Clone, Copy, Debug, Default, PartialEq, Eq)]
pub struct Configuration {
    pub oscillator: u32,
    pub polarity: u32,
    pub synchronous_mode: u32,
    pub maximum_off_time: u32,
    pub clock_output_disable: u32,
    pub minute_timer: u32,
    pub low_battery_polarity: u32,
}

/// The control packet (Table 11): FF, a bit for each of frames 0 to 7; SPM; PS (Table 10), 0 to 3; SBI, MTC and ON.
#[repr(C)]
#[derive(Clone, Copy, Debug, Default, PartialEq, Eq)]
pub struct Control {
    pub forced_frames: u32,
    pub single_phase: u32,
    pub phase: u32,
    pub block_information: u32,
    pub minute_timer_clear: u32,
    pub on: u32,
}

/// The all frame mode packet (Table 56): DAF; FAF; DTA, a bit for each temporary address.
#[repr(C)]
#[derive(Clone, Copy, Debug, Default, PartialEq, Eq)]
pub struct AllFrameMode {
    pub decrement: u32,
    pub force: u32,
    pub decrement_temporary: u32,
}

/// The receiver line control packet (Table 19): FRS and CLS, a bit for each of lines S0 to S7.
#[repr(C)]
#[derive(Clone, Copy, Debug, Default, PartialEq, Eq)]
pub struct ReceiverLines {
    pub forced: u32,
    pub settings: u32,
}

/// A receiver shut-down packet (Tables 20 and 21): s, 0 for shut-down 1 and 1 for shut-down 2; SE; LBC; CLS,
/// a bit for each line; ST, in steps of 625 microseconds.
#[repr(C)]
#[derive(Clone, Copy, Debug, Default, PartialEq, Eq)]
pub struct ShutDown {
    pub setting: u32,
    pub enable: u32,
    pub low_battery_check: u32,
    pub lines: u32,
    pub time: u32,
}

/// A frame assignment packet (Tables 28 and 29): f, 0 to 7; AF, a bit for each of its sixteen frames.
#[repr(C)]
#[derive(Clone, Copy, Debug, Default, PartialEq, Eq)]
pub struct FrameAssignment {
    pub range: u32,
    pub frames: u32,
}

/// A user address assignment packet (Table 26): a, 0 to 15; LA; TOA; A, an address word of 21 bits.
#[repr(C)]
#[derive(Clone, Copy, Debug, Default, PartialEq, Eq)]
pub struct UserAddress {
    pub location: u32,
    pub long_address: u32,
    pub tone_only: u32,
    pub word: u32,
}

/// The user address enable packet (Table 27): UAE, a bit for each location.
#[repr(C)]
#[derive(Clone, Copy, Debug, Default, PartialEq, Eq)]
pub struct AddressEnable {
    pub enabled: u32,
}

/// The part ID packet (Table 8): MDL, CID and REV.
#[repr(C)]
#[derive(Clone, Copy, Debug, Default, PartialEq, Eq)]
pub struct PartId {
    pub model: u32,
    pub compatibility: u32,
    pub revision: u32,
}

/// The fields of a checksum packet (Table 9), or its refusal.
#[repr(C)]
#[derive(Clone, Copy, Debug, Default, PartialEq, Eq)]
pub struct ChecksumRead {
    pub number: u32,
    pub fields: Checksum,
}

/// The fields of a configuration packet (Table 5), or its refusal.
#[repr(C)]
#[derive(Clone, Copy, Debug, Default, PartialEq, Eq)]
pub struct ConfigurationRead {
    pub number: u32,
    pub fields: Configuration,
}

/// The fields of a control packet (Table 11), or its refusal.
#[repr(C)]
#[derive(Clone, Copy, Debug, Default, PartialEq, Eq)]
pub struct ControlRead {
    pub number: u32,
    pub fields: Control,
}

/// The fields of an all frame mode packet (Table 56), or its refusal.
#[repr(C)]
#[derive(Clone, Copy, Debug, Default, PartialEq, Eq)]
pub struct AllFrameModeRead {
    pub number: u32,
    pub fields: AllFrameMode,
}

/// The fields of a receiver line control packet (Table 19), or its refusal.
#[repr(C)]
#[derive(Clone, Copy, Debug, Default, PartialEq, Eq)]
pub struct ReceiverLinesRead {
    pub number: u32,
    pub fields: ReceiverLines,
}

/// The fields of a receiver shut-down packet (Table 21), or its refusal.
#[repr(C)]
#[derive(Clone, Copy, Debug, Default, PartialEq, Eq)]
pub struct ShutDownRead {
    pub number: u32,
    pub fields: ShutDown,
}

/// The fields of a frame assignment packet (Table 29), or its refusal.
#[repr(C)]
#[derive(Clone, Copy, Debug, Default, PartialEq, Eq)]
pub struct FrameAssignmentRead {
    pub number: u32,
    pub fields: FrameAssignment,
}

/// The fields of a user address assignment packet (Table 26), or its refusal.
#[repr(C)]
#[derive(Clone, Copy, Debug, Default, PartialEq, Eq)]
pub struct UserAddressRead {
    pub number: u32,
    pub fields: UserAddress,
}

/// The fields of the user address enable packet (Table 27), or its refusal.
#[repr(C)]
#[derive(Clone, Copy, Debug, Default, PartialEq, Eq)]
pub struct AddressEnableRead {
    pub number: u32,
    pub fields: AddressEnable,
}

/// The fields of the part ID packet (Table 8), or its refusal.
#[repr(C)]
#[derive(Clone, Copy, Debug, Default, PartialEq, Eq)]
pub struct PartIdRead {
    pub number: u32,
    pub fields: PartId,
}

/// The status packet (Table 12): FIV; f, the frame 0 to 127; SM; LB; c, the cycle 0 to 15; SMU; LBU; MT; EOF; BOE.
#[repr(C)]
#[derive(Clone, Copy, Debug, Default, PartialEq, Eq)]
pub struct Status {
    pub frame_valid: u32,
    pub frame: u32,
    pub synchronous: u32,
    pub low_battery: u32,
    pub cycle: u32,
    pub synchronous_update: u32,
    pub low_battery_update: u32,
    pub minute: u32,
    pub end_of_frame: u32,
    pub overflow: u32,
}

/// The fields of a status packet, or its refusal.
#[repr(C)]
#[derive(Clone, Copy, Debug, Default, PartialEq, Eq)]
pub struct StatusRead {
    pub number: u32,
    pub fields: Status,
}

/// The address packet (Table 30): PA; p, 0 to 3 for A to D; LA; the address number that AI stands for, 0 to
/// 31, the last 16 temporary; TOA; WN, the word number of the vector, 0 where none will come.
#[repr(C)]
#[derive(Clone, Copy, Debug, Default, PartialEq, Eq)]
pub struct Address {
    pub priority: u32,
    pub phase: u32,
    pub long_address: u32,
    pub address: u32,
    pub tone_only: u32,
    pub vector: u32,
}

/// The fields of an address packet, or its refusal.
#[repr(C)]
#[derive(Clone, Copy, Debug, Default, PartialEq, Eq)]
pub struct AddressRead {
    pub number: u32,
    pub fields: Address,
}

/// Where a vector's message words stand: K of a numeric one (Table 31), the number of words, and b. All 0 in
/// a vector that has no message words.
#[repr(C)]
#[derive(Clone, Copy, Debug, Default, PartialEq, Eq)]
pub struct Span {
    pub check: u32,
    pub words: u32,
    pub start: u32,
}

/// A short message or tone-only vector (Table 34): its message type t; with type 0 the codes of three numeric
/// characters; with 1 and 2 the source S; with 2 the flag R and the message number N; with the spare type 3
/// its twelve d bits.
#[repr(C)]
#[derive(Clone, Copy, Debug, Default, PartialEq, Eq)]
pub struct ShortMessage {
    pub kind: u32,
    pub first: u32,
    pub second: u32,
    pub third: u32,
    pub source: u32,
    pub retrieval: u32,
    pub message: u32,
    pub unread: u32,
}

/// A short instruction (Table 38): its type i; with type 0 the address number of the temporary address and
/// its frame; with a reserved type its eleven d bits.
#[repr(C)]
#[derive(Clone, Copy, Debug, Default, PartialEq, Eq)]
pub struct Instruction {
    pub kind: u32,
    pub address: u32,
    pub frame: u32,
    pub unread: u32,
}

/// A vector packet: WN; e; p; the vector type V; and what that type brings, the rest being 0.
#[repr(C)]
#[derive(Clone, Copy, Debug, Default, PartialEq, Eq)]
pub struct Vector {
    pub word: u32,
    pub damaged: u32,
    pub phase: u32,
    pub kind: u32,
    pub span: Span,
    pub short_message: ShortMessage,
    pub instruction: Instruction,
}

/// The fields of a vector packet, or its refusal.
#[repr(C)]
#[derive(Clone, Copy, Debug, Default, PartialEq, Eq)]
pub struct VectorRead {
    pub number: u32,
    pub fields: Vector,
}

/// A message packet (Table 40): WN; e; p; the 21 bits i.
#[repr(C)]
#[derive(Clone, Copy, Debug, Default, PartialEq, Eq)]
pub struct Message {
    pub word: u32,
    pub damaged: u32,
    pub phase: u32,
    pub bits: u32,
}

/// The fields of a message packet, or its refusal.
#[repr(C)]
#[derive(Clone, Copy, Debug, Default, PartialEq, Eq)]
pub struct MessageRead {
    pub number: u32,
    pub fields: Message,
}

extern "C" {
    /// Builds a checksum packet.
    ///
    /// Takes its fields.
    ///
    /// Answers the packet.
    ///
    /// Refuses 7: a field too large.
    pub fn mortisevane_build_checksum(fields: Checksum) -> Built;

    /// Builds a configuration packet.
    ///
    /// Takes its fields.
    ///
    /// Answers the packet.
    ///
    /// Refuses 7: a field too large.
    pub fn mortisevane_build_configuration(fields: Configuration) -> Built;

    /// Builds a control packet.
    ///
    /// Takes its fields.
    ///
    /// Answers the packet.
    ///
    /// Refuses 7: a field too large.
    pub fn mortisevane_build_control(fields: Control) -> Built;

    /// Builds an all frame mode packet.
    ///
    /// Takes its fields.
    ///
    /// Answers the packet.
    ///
    /// Refuses 7: a field too large.
    pub fn mortisevane_build_all_frame_mode(fields: AllFrameMode) -> Built;

    /// Builds a receiver line control packet.
    ///
    /// Takes its fields.
    ///
    /// Answers the packet.
    ///
    /// Refuses 7: a field too large.
    pub fn mortisevane_build_receiver_lines(fields: ReceiverLines) -> Built;

    /// Builds a receiver shut-down packet.
    ///
    /// Takes its fields.
    ///
    /// Answers the packet.
    ///
    /// Refuses 7: a field too large.
    pub fn mortisevane_build_shut_down(fields: ShutDown) -> Built;

    /// Builds a frame assignment packet.
    ///
    /// Takes its fields.
    ///
    /// Answers the packet.
    ///
    /// Refuses 7: a field too large.
    pub fn mortisevane_build_frame_assignment(fields: FrameAssignment) -> Built;

    /// Builds a user address assignment packet.
    ///
    /// Takes its fields.
    ///
    /// Answers the packet.
    ///
    /// Refuses 7: a field too large.
    pub fn mortisevane_build_user_address(fields: UserAddress) -> Built;

    /// Builds a user address enable packet.
    ///
    /// Takes its fields.
    ///
    /// Answers the packet.
    ///
    /// Refuses 7: a field too large.
    pub fn mortisevane_build_address_enable(fields: AddressEnable) -> Built;

    /// Builds a part ID packet.
    ///
    /// Takes its fields.
    ///
    /// Answers the packet.
    ///
    /// Refuses 7: a field too large.
    pub fn mortisevane_build_part_id(fields: PartId) -> Built;

    /// Reads a checksum packet.
    ///
    /// Takes the packet.
    ///
    /// Answers its fields.
    ///
    /// Refuses 7: another packet, or a bit set that its table prints as 0.
    pub fn mortisevane_read_checksum(packet: u32) -> ChecksumRead;

    /// Reads a configuration packet.
    ///
    /// Takes the packet.
    ///
    /// Answers its fields.
    ///
    /// Refuses 7: another packet, or a bit set that its table prints as 0.
    pub fn mortisevane_read_configuration(packet: u32) -> ConfigurationRead;

    /// Reads a control packet.
    ///
    /// Takes the packet.
    ///
    /// Answers its fields.
    ///
    /// Refuses 7: another packet, or a bit set that its table prints as 0.
    pub fn mortisevane_read_control(packet: u32) -> ControlRead;

    /// Reads an all frame mode packet.
    ///
    /// Takes the packet.
    ///
    /// Answers its fields.
    ///
    /// Refuses 7: another packet, or a bit set that its table prints as 0.
    pub fn mortisevane_read_all_frame_mode(packet: u32) -> AllFrameModeRead;

    /// Reads a receiver line control packet.
    ///
    /// Takes the packet.
    ///
    /// Answers its fields.
    ///
    /// Refuses 7: another packet, or a bit set that its table prints as 0.
    pub fn mortisevane_read_receiver_lines(packet: u32) -> ReceiverLinesRead;

    /// Reads a receiver shut-down packet.
    ///
    /// Takes the packet.
    ///
    /// Answers its fields.
    ///
    /// Refuses 7: another packet, or a bit set that its table prints as 0.
    pub fn mortisevane_read_shut_down(packet: u32) -> ShutDownRead;

    /// Reads a frame assignment packet.
    ///
    /// Takes the packet.
    ///
    /// Answers its fields.
    ///
    /// Refuses 7: another packet, or a bit set that its table prints as 0.
    pub fn mortisevane_read_frame_assignment(packet: u32) -> FrameAssignmentRead;

    /// Reads a user address assignment packet.
    ///
    /// Takes the packet.
    ///
    /// Answers its fields.
    ///
    /// Refuses 7: another packet, or a bit set that its table prints as 0.
    pub fn mortisevane_read_user_address(packet: u32) -> UserAddressRead;

    /// Reads a user address enable packet.
    ///
    /// Takes the packet.
    ///
    /// Answers its fields.
    ///
    /// Refuses 7: another packet, or a bit set that its table prints as 0.
    pub fn mortisevane_read_address_enable(packet: u32) -> AddressEnableRead;

    /// Reads a part ID packet.
    ///
    /// Takes the packet.
    ///
    /// Answers its fields.
    ///
    /// Refuses 7: another packet.
    pub fn mortisevane_read_part_id(packet: u32) -> PartIdRead;

    /// Reads a status packet.
    ///
    /// Takes the packet.
    ///
    /// Answers its fields.
    ///
    /// Refuses 7: another packet.
    pub fn mortisevane_read_status(packet: u32) -> StatusRead;

    /// Reads an address packet.
    ///
    /// Takes the packet.
    ///
    /// Answers its fields, the address number 0 to 31 among them.
    ///
    /// Refuses 7 and then 8: another packet or a vector's word number over 87; an index of no address.
    pub fn mortisevane_read_address(packet: u32) -> AddressRead;

    /// Reads a vector packet.
    ///
    /// Takes the packet.
    ///
    /// Answers its fields.
    ///
    /// Refuses 7: another packet.
    pub fn mortisevane_read_vector(packet: u32) -> VectorRead;

    /// Reads a message packet.
    ///
    /// Takes the packet.
    ///
    /// Answers its fields.
    ///
    /// Refuses 7: another packet.
    pub fn mortisevane_read_message(packet: u32) -> MessageRead;

    /// Whether the host may send a packet.
    ///
    /// Takes the packet.
    ///
    /// Answers 0 if it may.
    ///
    /// Refuses 7.
    pub fn mortisevane_may_send(packet: u32) -> u32;
}

// The mirror of the decoder, as C and Rust link it. Every function takes any input, and its contract is
// that of the function it calls: `number` is 0, or 01's number of the refusal.

/// The register, 24 bits; `talking` is 0 while the decoder sends nothing but its part ID.
#[repr(C)]
#[derive(Clone, Copy, Debug, Default, PartialEq, Eq)]
pub struct Mirror {
    pub register: u32,
    pub talking: u32,
}

/// The mirror after what was done; `number` is 0, or the refusal's. After a refusal the mirror is the one that was handed in;
/// `reset`, which is handed none, gives one of zeros.
#[repr(C)]
#[derive(Clone, Copy, Debug, Default, PartialEq, Eq)]
pub struct Mirrored {
    pub number: u32,
    pub mirror: Mirror,
}

extern "C" {
    /// The mirror of a decoder that was reset and told its part ID.
    ///
    /// Takes the part ID packet.
    ///
    /// Answers the mirror: the register is the packet's 24 data bits, and the decoder is not talking.
    ///
    /// Refuses 7: another packet.
    pub fn mortisevane_mirror_reset(packet: u32) -> Mirrored;

    /// The mirror after one packet that the host sent.
    ///
    /// Takes the mirror and the packet, any 32 bits.
    ///
    /// Answers the mirror then; after a checksum packet `talking` says whether the decoder talks.
    ///
    /// Refuses 2: a register over 24 bits.
    pub fn mortisevane_mirror_step(mirror: Mirror, packet: u32) -> Mirrored;

    /// The mirror after a run of packets that the host sent.
    ///
    /// Takes the mirror and the packets, any 32 bits each.
    ///
    /// Answers the mirror after the last of them.
    ///
    /// Refuses 2: a register over 24 bits.
    pub fn mortisevane_mirror_run(mirror: Mirror, packets: *const u32, packets_length: usize) -> Mirrored;

    /// The checksum packet that makes the decoder talk.
    ///
    /// Takes the mirror.
    ///
    /// Answers the packet, to be sent last of a set-up and run through the mirror as every other.
    ///
    /// Refuses 2: a register over 24 bits.
    pub fn mortisevane_mirror_closing(mirror: Mirror) -> Built;
}

// The sums of messages, as C and Rust link them. Every function takes any row, and its contract is that of the
// function it calls.

extern "C" {
    /// K of a numeric page, 0 to 63: K0 to K3 belong into the vector, K4 and K5 into the first word, whose two lowest bits
    /// are taken as 0.
    ///
    /// Takes the words of the page.
    ///
    /// Answers K.
    ///
    /// Refuses nothing.
    pub fn mortisevane_sum_six_bit(words: *const u32, words_length: usize) -> u32;

    /// K of a fragment, 0 to 1023: the ten lowest bits of its first word are taken as 0.
    ///
    /// Takes the words of the fragment.
    ///
    /// Answers K.
    ///
    /// Refuses nothing.
    pub fn mortisevane_sum_ten_bit(words: *const u32, words_length: usize) -> u32;

    /// The signature of a text with its fill, 0 to 127.
    ///
    /// Takes the characters, fill with them.
    ///
    /// Answers the signature.
    ///
    /// Refuses nothing.
    pub fn mortisevane_sum_signature(characters: *const u8, characters_length: usize) -> u32;
}

// Numeric pages, as C and Rust link them. Every function takes any input, and its contract is that of the function
// it calls: `number` is 0, or 01's number of the refusal, and what was lent is then as it was.

/// What the head of a numbered page says: N, the message number, 0 to 63; R, whether the pager expects its
/// messages to be numbered; S, whether a special format shows it. All 0 with the other kinds.
#[repr(C)]
#[derive(Clone, Copy, Debug, Default, PartialEq, Eq)]
pub struct Numbering {
    pub message_number: u32,
    pub retrieval: u32,
    pub special_format: u32,
}

/// A page written: K for its vector, and how many words. Both are 0 after a refusal.
#[repr(C)]
#[derive(Clone, Copy, Debug, Default, PartialEq, Eq)]
pub struct Written {
    pub number: u32,
    pub check: u32,
    pub words: Size,
}

/// A page read: what its head says, how many characters it has, and how many of them are spaces at its end. All are 0 after
/// a refusal.
#[repr(C)]
#[derive(Clone, Copy, Debug, Default, PartialEq, Eq)]
pub struct PageRead {
    pub number: u32,
    pub numbering: Numbering,
    pub characters: Size,
    pub spaces_at_end: Size,
}

extern "C" {
    /// A text as the words of a numeric page.
    ///
    /// Takes the set of characters, SET_STANDARD or _CHINESE; the text, characters of that set; the vector's type,
    /// VECTOR_STANDARD, _SPECIAL or _NUMBERED; what the head of a numbered page says, all 0 with the others; and
    /// memory for the words, for which PAGE_WORDS are always enough.
    ///
    /// Answers K for the vector and how many words were written, the fewest that hold the text.
    ///
    /// Refuses 7, 15, 18, the first that applies, and last 1; the memory is then as it was. Here 7 is a set that is neither, a
    /// type that is none of the three, or a number that the head has no room for: with a page that is not numbered, any but 0.
    pub fn mortisevane_numeric_write(set: u32, text: *const u8, text_length: usize, kind: u32, numbering: Numbering, words: *mut u32, words_length: usize) -> Written;

    /// The words of a numeric page as text, its zeros with it.
    ///
    /// Takes the set of characters, SET_STANDARD or _CHINESE; the type and the K of the vector; the words; and
    /// memory for the text, for which PAGE_CHARACTERS are always enough.
    ///
    /// Answers what the head of a numbered page says; how many characters were written, all that the words have room for; and
    /// how many of them are spaces at the end. A display has to show the characters before these: filling is spaces, and which
    /// of them the sender wrote nobody can tell.
    ///
    /// Refuses 7, 9, 10, 11, the first that applies, and last 1; the memory is then as it was. Here 7 is a set that is neither, a
    /// type that is no numeric page's, or a K over 15.
    pub fn mortisevane_numeric_read(set: u32, kind: u32, check: u32, words: *const u32, words_length: usize, text: *mut u8, text_length: usize) -> PageRead;
}

// Fragments of a text, as C and Rust link them. Every function takes any input, and its contract is that of the function
// it calls: `number` is 0, or 01's number of the refusal, and what was lent is then as it was.

/// What is told of a fragment: 01's number; C, 1 where more follows; F, 3 in a first fragment; N; R, M and the
/// signature of a first fragment, 0 of others; the sum modulo 128 of all its characters, fill and signature with
/// them; and how many characters its text has. All are 0 after a refusal.
#[repr(C)]
#[derive(Clone, Copy, Debug, Default, PartialEq, Eq)]
pub struct FragmentRead {
    pub number: u32,
    pub continued: u32,
    pub fragment_number: u32,
    pub message_number: u32,
    pub retrieval: u32,
    pub mail_drop: u32,
    pub signature: u32,
    pub sum: u32,
    pub characters: Size,
}

/// What the first fragment says of its message: N, the message number, 0 to 63; R, whether the pager expects its messages
/// to be numbered; M, whether it is a mail drop.
#[repr(C)]
#[derive(Clone, Copy, Debug, Default, PartialEq, Eq)]
pub struct Marks {
    pub message_number: u32,
    pub retrieval: u32,
    pub mail_drop: u32,
}

/// A text cut: how many fragments, and how many words they are together. Each but the last has the largest size. Both are 0
/// after a refusal.
#[repr(C)]
#[derive(Clone, Copy, Debug, Default, PartialEq, Eq)]
pub struct TextCut {
    pub number: u32,
    pub fragments: Size,
    pub words: Size,
}

extern "C" {
    /// What a fragment says of itself, without its text.
    ///
    /// Takes the words of the fragment, 2 to 85.
    ///
    /// Answers what its first word says, its signature, its sum and how many characters its text has.
    ///
    /// Refuses 9, 10, 11, the first that applies.
    pub fn mortisevane_fragment_heading(words: *const u32, words_length: usize) -> FragmentRead;

    /// A fragment, and its text.
    ///
    /// Takes the words of the fragment, 2 to 85, and memory for the text, for which FRAGMENT_CHARACTERS are
    /// always enough.
    ///
    /// Answers what mortisevane_fragment_heading answers; the text is written without its fill.
    ///
    /// Refuses 9, 10, 11, the first that applies, and last 1; the memory is then as it was.
    pub fn mortisevane_fragment_read(words: *const u32, words_length: usize, text: *mut u8, text_length: usize) -> FragmentRead;

    /// A text cut into fragments, one after the other.
    ///
    /// Takes the text, up to 1,008 characters; N, R and M of the message; how many words the largest fragment may have, 2 to
    /// 85; and memory for the words, for which CUT_WORDS are always enough.
    ///
    /// Answers how many fragments there are and how many words they have together. Each but the last has the largest size, so
    /// that fragment j begins at word j times it.
    ///
    /// Refuses 7, 9, 15, 18, the first that applies, and last 1; the memory is then as it was.
    pub fn mortisevane_text_cut(text: *const u8, text_length: usize, marks: Marks, largest: usize, words: *mut u32, words_length: usize) -> TextCut;
}

// Chains of fragments, as C and Rust link them. Every function takes any input, and its contract is that of the function
// it calls: `number` is 0, or 01's number of the refusal. The records go in and come back by value; the texts lie in the lent
// buffer of 8,064 bytes, where a text that is handed out is `characters` bytes from `place` on.

/// The record of one slot. Open is any number but 0; a closed slot's record is all zero. An open chain is known by its
/// address number and its message number; it awaits the next F; `sum` is the sum modulo 128 of what came, the signature
/// with it, and `characters` the length of its text so far.
#[repr(C)]
#[derive(Clone, Copy, Debug, Default, PartialEq, Eq)]
pub struct Chain {
    pub is_open: u32,
    pub address: u32,
    pub message_number: u32,
    pub next_fragment: u32,
    pub sum: u32,
    pub characters: Size,
}

/// The records of the eight slots. The text of slot i begins at byte 1,008 times i of the lent buffer.
#[repr(C)]
#[derive(Clone, Copy, Debug, Default, PartialEq, Eq)]
pub struct Chains {
    pub slots: [Chain; 8],
}

/// What is told of a fragment: 01's number; `lost`, 1 where it closed an open chain of its key whose text is not handed
/// out (a first fragment the older one, a later fragment with 14, 15 or 16 its own); `begun`, 1 where it is a first
/// fragment that was taken, with its R and M; `complete`, 1 where it hands out a text, with the slot, the place of the text in the
/// lent buffer and its length. What is not told is 0.
#[repr(C)]
#[derive(Clone, Copy, Debug, Default, PartialEq, Eq)]
pub struct ChainAnswer {
    pub number: u32,
    pub lost: u32,
    pub begun: u32,
    pub retrieval: u32,
    pub mail_drop: u32,
    pub complete: u32,
    pub slot: Size,
    pub place: Size,
    pub characters: Size,
}

/// The answer to a fragment, and the records then.
#[repr(C)]
#[derive(Clone, Copy, Debug, Default, PartialEq, Eq)]
pub struct ChainStep {
    pub answer: ChainAnswer,
    pub chains: Chains,
}

/// The answer to a drop, and the records then.
#[repr(C)]
#[derive(Clone, Copy, Debug, Default, PartialEq, Eq)]
pub struct ChainDrop {
    pub number: u32,
    pub chains: Chains,
}

extern "C" {
    /// The records after a reset: no chain is open. They are all zero.
    ///
    /// Takes nothing.
    ///
    /// Answers the records.
    ///
    /// Refuses nothing.
    pub fn mortisevane_chains_fresh() -> Chains;

    /// A fragment for an address number: it begins a chain, goes on with one, or hands out a text.
    ///
    /// Takes the records, as they were answered last; the buffer of the texts, CHAIN_BYTES or more, which is kept
    /// from fragment to fragment and may hold anything at first; the address number, 0 to 31; and the words of the fragment.
    ///
    /// Answers what became of it, and the records then. A text that is handed out is `characters` bytes of the buffer from
    /// `place` on, to be read before the next fragment.
    ///
    /// Refuses 1, 2, 8, 9, 10, 11, 13, 14, 15, 16, 12, the first that applies; the buffer is then as it was. After 14, 15 and
    /// 16 the key's chain is closed.
    pub fn mortisevane_chain_step(chains: Chains, buffer: *mut u8, buffer_length: usize, address: u32, words: *const u32, words_length: usize) -> ChainStep;

    /// The chain of an address number and a message number, closed at the caller's wish.
    ///
    /// Takes the records, the address number, 0 to 31, and the message number, 0 to 63.
    ///
    /// Answers the records then.
    ///
    /// Refuses 2, 7, 8, 13, the first that applies; the records are then as they were.
    pub fn mortisevane_chain_drop(chains: Chains, address: u32, message_number: u32) -> ChainDrop;
}

// Calls in a frame, as C and Rust link them. Every function takes any input, and its contract is that of the function it
// calls: `number` is 0, or 01's number of the refusal. The records go in and come back by value; the words lie in the
// lent memory of 680 words, where those of a call are `words` of them from its place on. A word that has not come is
// 200000H there, which is more than the 21 bits of a word. The caller keeps that memory and lends the same each time; it
// needs no initial value, since a vector that is taken sets each word of its call to 200000H. Calls stay open until
// mortisevane_call_end, which the caller calls at the end of each frame. The decoder tells that end, by EOF of a status
// packet, only in all frame mode (S8.8.3), which FAF of the all frame mode packet forces.

/// One call. Its phase and the word number of its vector, which are its key; its address number, and whether that came
/// as a priority address or is a long one. Once its vector has come `has_vector` is not 0, and then: the vector's kind
/// and K, the word number b where the message words begin (a long call's second), how many words there are (0 where
/// the vector brings none), and which area of the lent memory holds them.
#[repr(C)]
#[derive(Clone, Copy, Debug, Default, PartialEq, Eq)]
pub struct Call {
    pub phase: u32,
    pub vector: u32,
    pub address: u32,
    pub priority: u32,
    pub long_address: u32,
    pub has_vector: u32,
    pub kind: u32,
    pub check: u32,
    pub start: u32,
    pub words: u32,
    pub area: u32,
}

/// The records. The first `size` of them are the open calls, in the order opened; a size of 8 or more says that all are.
#[repr(C)]
#[derive(Clone, Copy, Debug, Default, PartialEq, Eq)]
pub struct Calls {
    pub size: Size,
    pub calls: [Call; 8],
}

/// What is told of an address packet: 01's number; `opened`, 1 where it opened a call, with the call's place among the
/// open ones (a tone-only address opens none); and what the packet says. What is not told is 0.
#[repr(C)]
#[derive(Clone, Copy, Debug, Default, PartialEq, Eq)]
pub struct CallOpened {
    pub number: u32,
    pub opened: u32,
    pub call: Size,
    pub fields: Address,
}

/// The answer to an address packet, and the records then.
#[repr(C)]
#[derive(Clone, Copy, Debug, Default, PartialEq, Eq)]
pub struct CallOpening {
    pub answer: CallOpened,
    pub calls: Calls,
}

/// What is told of a vector or message packet: 01's number; `is_vector`, 1 where it is the vector of a call, with the
/// call's place among the open ones, the vector's kind and its K; and `completed`, the calls that it completed: bit i
/// for the call at place i, so that the lowest bit is the one opened first. What is not told is 0.
#[repr(C)]
#[derive(Clone, Copy, Debug, Default, PartialEq, Eq)]
pub struct CallHeard {
    pub number: u32,
    pub is_vector: u32,
    pub call: Size,
    pub kind: u32,
    pub check: u32,
    pub completed: u32,
}

/// The answer to a vector or message packet, and the records then.
#[repr(C)]
#[derive(Clone, Copy, Debug, Default, PartialEq, Eq)]
pub struct CallHearing {
    pub answer: CallHeard,
    pub calls: Calls,
}

/// The answer to an end of frame: 01's number, the calls that were incomplete, in the order opened, and the records then.
#[repr(C)]
#[derive(Clone, Copy, Debug, Default, PartialEq, Eq)]
pub struct FrameEnd {
    pub number: u32,
    pub incomplete: Calls,
    pub calls: Calls,
}

extern "C" {
    /// The records with no call open: after a reset, and after an end of frame. They are all zero.
    ///
    /// Takes nothing.
    ///
    /// Answers the records.
    ///
    /// Refuses nothing.
    pub fn mortisevane_calls_fresh() -> Calls;

    /// An address packet, which opens a call.
    ///
    /// Takes the records, as they were answered last, and the packet.
    ///
    /// Answers what the packet says, the place of its call, and the records then. A tone-only address opens none.
    ///
    /// Refuses 2, 7, 8, 14, 12, the first that applies; the records are then as they were.
    pub fn mortisevane_call_open(calls: Calls, bits: u32) -> CallOpening;

    /// A vector or message packet.
    ///
    /// Takes the records, as they were answered last; the memory of the words, CALL_WORDS or more, as it was left
    /// last; and the packet.
    ///
    /// Answers what became of it, with a bit for each call that is complete by it, and the records then.
    ///
    /// Refuses 2, 7, 10, then of a vector 14 where its call has one already, whatever its span, and 9 where its call is still
    /// without one and its span is bad, of a word 14 where every call that holds its place has it, of either 17 where it is no
    /// call's, and last 1. The memory is then as it was. A span refused by 9 closes its call.
    pub fn mortisevane_call_hear(calls: Calls, memory: *mut u32, memory_length: usize, bits: u32) -> CallHearing;

    /// The end of a frame, which closes all calls.
    ///
    /// Takes the records, as they were answered last, and the memory of the words, as it was left last.
    ///
    /// Answers the records of the calls that were incomplete, in the order opened, and the records then.
    ///
    /// Refuses 2 and then 1; the records are then as they were.
    pub fn mortisevane_call_end(calls: Calls, memory: *const u32, memory_length: usize) -> FrameEnd;

    /// Where the words of a call begin in the lent memory.
    ///
    /// Takes the record of the call.
    ///
    /// Answers the place of its first word; the `words` of the record are from there on.
    ///
    /// Refuses nothing.
    pub fn mortisevane_call_place(call: Call) -> usize;
}

// POCSAG pages, as C and Rust link them. Every function takes any input, and its contract is that of the function it
// calls. Words come as they were received, 32 bits with the first that was sent the highest. The reader goes in and comes
// back by value; zeros are a fresh start, and whatever is handed back has a meaning. The message words of a page lie at the
// start of the lent memory, twenty bits each with the first that was sent the lowest, until the next message word.

/// Where the reading stands. Zeros are a fresh start, and whatever is handed back has a meaning.
/// 
/// `left` is how many words of the batch are still to come, 1 to 16; where it is 0, or larger, a sync word must come next.
/// `is_open` is not 0 while a page is open. Then there are: its address and function; how many of its message words have come
/// whole, which stand at the start of the lent memory; how many bits were mended in its words; and its fault: 0 for none, 15
/// where it became longer than the lent memory, and any other number, which is 25, where a word of it was beyond repair.
#[repr(C)]
#[derive(Clone, Copy, Debug, Default, PartialEq, Eq)]
pub struct PocsagReader {
    pub left: u32,
    pub is_open: u32,
    pub address: u32,
    pub function: u32,
    pub words: Size,
    pub mended: u32,
    pub fault: u32,
}

/// A page that has ended, where `is_ended` is 1: its number, address and function, how many of its message words came whole,
/// and how many bits were mended. With the number 0 it is handed out. Otherwise it went wrong at the word after those: 25
/// where that word was beyond repair, 26 where the sync was lost there, or the words ended, before the end of the page was
/// heard, 15 where there was no room for it.
#[repr(C)]
#[derive(Clone, Copy, Debug, Default, PartialEq, Eq)]
pub struct PocsagPage {
    pub is_ended: u32,
    pub number: u32,
    pub address: u32,
    pub function: u32,
    pub words: Size,
    pub mended: u32,
}

/// What a row of words did, up to the first that has something to tell: its number, how many words were taken, the page that
/// ended at it, and where the reading stands.
#[repr(C)]
#[derive(Clone, Copy, Debug, Default, PartialEq, Eq)]
pub struct PocsagHeard {
    pub number: u32,
    pub taken: Size,
    pub page: PocsagPage,
    pub reader: PocsagReader,
}

/// A text read: how many characters it has, and how many of them at the end are fill. Both are 0 after a refusal.
#[repr(C)]
#[derive(Clone, Copy, Debug, Default, PartialEq, Eq)]
pub struct PocsagText {
    pub number: u32,
    pub characters: Size,
    pub fill_at_end: Size,
}

extern "C" {
    /// Mends a row of received words where they stand.
    ///
    /// Takes the words, and memory for as many numbers.
    ///
    /// Answers 0; each word is then the one that was sent, if no more than two of its 31 code bits were wrong, and beside it stands
    /// how many were, 0 to 2, or 25 where the word is beyond repair. Such a word stays as it came.
    ///
    /// Refuses 1 where the memory is shorter than the row; the words and the memory are then as they were.
    pub fn mortisevane_pocsag_mend(words: *mut u32, words_length: usize, bits: *mut u32, bits_length: usize) -> u32;

    /// Received words, one after the other, up to and with the first that has something to tell.
    ///
    /// Takes the reader, as it was answered last; the words; and the memory for the message words of a page, of any length, as it
    /// was left last.
    ///
    /// Answers how many words were taken, the number of the last of them, the page that ended at it, and the reader. Where no word
    /// has anything to tell all are taken; otherwise the rest is to be given again. A page whose number is 0 is handed out, and
    /// its message words are the first of the memory. With another number it was not received as a whole: 25 where a word of it
    /// was beyond repair, 26 where its end was not heard, 15 where the memory was too short; its first words came whole.
    ///
    /// Refuses 25 for a word beyond repair, 26 for a word that does not follow a sync word, 17 for a message word of no page, the
    /// first that applies; such a word was taken, and a word beyond repair takes its place in the batch.
    pub fn mortisevane_pocsag_hear(reader: PocsagReader, words: *const u32, words_length: usize, lent: *mut u32, lent_length: usize) -> PocsagHeard;

    /// The close: no more words come.
    ///
    /// Takes the reader, as it was answered last. To go on after it, begin with zeros.
    ///
    /// Answers the page that was still open, whose end was not heard, or that there was none.
    ///
    /// Refuses a page by 25 where a word of it was beyond repair, else by 26; no page is handed out here.
    pub fn mortisevane_pocsag_close(reader: PocsagReader) -> PocsagPage;

    /// The message words of a page as text, its zeros with it.
    ///
    /// Takes the kind of text, POCSAG_TEXT_NUMERIC, _NUMERIC_CHINESE or _SEVEN_BIT, which nothing in a page tells; the
    /// words, as the lent memory has them; and memory for the text, five bytes a word for a numeric page and three for another.
    ///
    /// Answers how many characters were written, all that the words hold, and how many of them at the end are fill: spaces in a
    /// numeric page, the characters 00H, 03H and 04H in a text. A display has to show the characters before these.
    ///
    /// Refuses 7 for a kind that there is not, 10 for a word of more than twenty bits, the first that applies, and last 1; the
    /// memory is then as it was.
    pub fn mortisevane_pocsag_read(kind: u32, words: *const u32, words_length: usize, text: *mut u8, text_length: usize) -> PocsagText;
}

// The layout of every struct, in bytes: how large it is, and where each of its fields stands. The library was compiled
// for this one. A compiler that lays a struct out otherwise stops here.
const _: () = assert!(size_of::<Class>() == 8);
const _: () = assert!(offset_of!(Class, number) == 0);
const _: () = assert!(offset_of!(Class, class) == 4);
const _: () = assert!(size_of::<Words>() == 16);
const _: () = assert!(offset_of!(Words, number) == 0);
const _: () = assert!(offset_of!(Words, count) == 4);
const _: () = assert!(offset_of!(Words, first) == 8);
const _: () = assert!(offset_of!(Words, second) == 12);
const _: () = assert!(size_of::<Found>() == 16);
const _: () = assert!(offset_of!(Found, number) == 0);
const _: () = assert!(offset_of!(Found, address) == 8);
const _: () = assert!(size_of::<Capcode>() == 32);
const _: () = assert!(offset_of!(Capcode, number) == 0);
const _: () = assert!(offset_of!(Capcode, letter) == 4);
const _: () = assert!(offset_of!(Capcode, frame) == 8);
const _: () = assert!(offset_of!(Capcode, collapse) == 12);
const _: () = assert!(offset_of!(Capcode, phase) == 16);
const _: () = assert!(offset_of!(Capcode, base) == 17);
const _: () = assert!(offset_of!(Capcode, place) == 18);
const _: () = assert!(offset_of!(Capcode, address) == 24);
const _: () = assert!(size_of::<Assignment>() == 8);
const _: () = assert!(offset_of!(Assignment, number) == 0);
const _: () = assert!(offset_of!(Assignment, phase) == 4);
const _: () = assert!(offset_of!(Assignment, base) == 5);
const _: () = assert!(size_of::<Length>() == 16);
const _: () = assert!(offset_of!(Length, number) == 0);
const _: () = assert!(offset_of!(Length, length) == 8);
const _: () = assert!(size_of::<Wait>() == 8);
const _: () = assert!(offset_of!(Wait, number) == 0);
const _: () = assert!(offset_of!(Wait, frames) == 4);
const _: () = assert!(size_of::<Listener>() == 8);
const _: () = assert!(offset_of!(Listener, frame) == 0);
const _: () = assert!(offset_of!(Listener, collapse) == 4);
const _: () = assert!(size_of::<Listeners>() == 132);
const _: () = assert!(offset_of!(Listeners, listeners) == 0);
const _: () = assert!(offset_of!(Listeners, count) == 128);
const _: () = assert!(size_of::<Frames>() == 24);
const _: () = assert!(offset_of!(Frames, number) == 0);
const _: () = assert!(offset_of!(Frames, count) == 4);
const _: () = assert!(offset_of!(Frames, masks) == 8);
const _: () = assert!(size_of::<Checksum>() == 4);
const _: () = assert!(offset_of!(Checksum, value) == 0);
const _: () = assert!(size_of::<Packet>() == 4);
const _: () = assert!(offset_of!(Packet, bits) == 0);
const _: () = assert!(size_of::<Built>() == 8);
const _: () = assert!(offset_of!(Built, number) == 0);
const _: () = assert!(offset_of!(Built, packet) == 4);
const _: () = assert!(size_of::<Configuration>() == 28);
const _: () = assert!(offset_of!(Configuration, oscillator) == 0);
const _: () = assert!(offset_of!(Configuration, polarity) == 4);
const _: () = assert!(offset_of!(Configuration, synchronous_mode) == 8);
const _: () = assert!(offset_of!(Configuration, maximum_off_time) == 12);
const _: () = assert!(offset_of!(Configuration, clock_output_disable) == 16);
const _: () = assert!(offset_of!(Configuration, minute_timer) == 20);
const _: () = assert!(offset_of!(Configuration, low_battery_polarity) == 24);
const _: () = assert!(size_of::<Control>() == 24);
const _: () = assert!(offset_of!(Control, forced_frames) == 0);
const _: () = assert!(offset_of!(Control, single_phase) == 4);
const _: () = assert!(offset_of!(Control, phase) == 8);
const _: () = assert!(offset_of!(Control, block_information) == 12);
const _: () = assert!(offset_of!(Control, minute_timer_clear) == 16);
const _: () = assert!(offset_of!(Control, on) == 20);
const _: () = assert!(size_of::<AllFrameMode>() == 12);
const _: () = assert!(offset_of!(AllFrameMode, decrement) == 0);
const _: () = assert!(offset_of!(AllFrameMode, force) == 4);
const _: () = assert!(offset_of!(AllFrameMode, decrement_temporary) == 8);
const _: () = assert!(size_of::<ReceiverLines>() == 8);
const _: () = assert!(offset_of!(ReceiverLines, forced) == 0);
const _: () = assert!(offset_of!(ReceiverLines, settings) == 4);
const _: () = assert!(size_of::<ShutDown>() == 20);
const _: () = assert!(offset_of!(ShutDown, setting) == 0);
const _: () = assert!(offset_of!(ShutDown, enable) == 4);
const _: () = assert!(offset_of!(ShutDown, low_battery_check) == 8);
const _: () = assert!(offset_of!(ShutDown, lines) == 12);
const _: () = assert!(offset_of!(ShutDown, time) == 16);
const _: () = assert!(size_of::<FrameAssignment>() == 8);
const _: () = assert!(offset_of!(FrameAssignment, range) == 0);
const _: () = assert!(offset_of!(FrameAssignment, frames) == 4);
const _: () = assert!(size_of::<UserAddress>() == 16);
const _: () = assert!(offset_of!(UserAddress, location) == 0);
const _: () = assert!(offset_of!(UserAddress, long_address) == 4);
const _: () = assert!(offset_of!(UserAddress, tone_only) == 8);
const _: () = assert!(offset_of!(UserAddress, word) == 12);
const _: () = assert!(size_of::<AddressEnable>() == 4);
const _: () = assert!(offset_of!(AddressEnable, enabled) == 0);
const _: () = assert!(size_of::<PartId>() == 12);
const _: () = assert!(offset_of!(PartId, model) == 0);
const _: () = assert!(offset_of!(PartId, compatibility) == 4);
const _: () = assert!(offset_of!(PartId, revision) == 8);
const _: () = assert!(size_of::<ChecksumRead>() == 8);
const _: () = assert!(offset_of!(ChecksumRead, number) == 0);
const _: () = assert!(offset_of!(ChecksumRead, fields) == 4);
const _: () = assert!(size_of::<ConfigurationRead>() == 32);
const _: () = assert!(offset_of!(ConfigurationRead, number) == 0);
const _: () = assert!(offset_of!(ConfigurationRead, fields) == 4);
const _: () = assert!(size_of::<ControlRead>() == 28);
const _: () = assert!(offset_of!(ControlRead, number) == 0);
const _: () = assert!(offset_of!(ControlRead, fields) == 4);
const _: () = assert!(size_of::<AllFrameModeRead>() == 16);
const _: () = assert!(offset_of!(AllFrameModeRead, number) == 0);
const _: () = assert!(offset_of!(AllFrameModeRead, fields) == 4);
const _: () = assert!(size_of::<ReceiverLinesRead>() == 12);
const _: () = assert!(offset_of!(ReceiverLinesRead, number) == 0);
const _: () = assert!(offset_of!(ReceiverLinesRead, fields) == 4);
const _: () = assert!(size_of::<ShutDownRead>() == 24);
const _: () = assert!(offset_of!(ShutDownRead, number) == 0);
const _: () = assert!(offset_of!(ShutDownRead, fields) == 4);
const _: () = assert!(size_of::<FrameAssignmentRead>() == 12);
const _: () = assert!(offset_of!(FrameAssignmentRead, number) == 0);
const _: () = assert!(offset_of!(FrameAssignmentRead, fields) == 4);
const _: () = assert!(size_of::<UserAddressRead>() == 20);
const _: () = assert!(offset_of!(UserAddressRead, number) == 0);
const _: () = assert!(offset_of!(UserAddressRead, fields) == 4);
const _: () = assert!(size_of::<AddressEnableRead>() == 8);
const _: () = assert!(offset_of!(AddressEnableRead, number) == 0);
const _: () = assert!(offset_of!(AddressEnableRead, fields) == 4);
const _: () = assert!(size_of::<PartIdRead>() == 16);
const _: () = assert!(offset_of!(PartIdRead, number) == 0);
const _: () = assert!(offset_of!(PartIdRead, fields) == 4);
const _: () = assert!(size_of::<Status>() == 40);
const _: () = assert!(offset_of!(Status, frame_valid) == 0);
const _: () = assert!(offset_of!(Status, frame) == 4);
const _: () = assert!(offset_of!(Status, synchronous) == 8);
const _: () = assert!(offset_of!(Status, low_battery) == 12);
const _: () = assert!(offset_of!(Status, cycle) == 16);
const _: () = assert!(offset_of!(Status, synchronous_update) == 20);
const _: () = assert!(offset_of!(Status, low_battery_update) == 24);
const _: () = assert!(offset_of!(Status, minute) == 28);
const _: () = assert!(offset_of!(Status, end_of_frame) == 32);
const _: () = assert!(offset_of!(Status, overflow) == 36);
const _: () = assert!(size_of::<StatusRead>() == 44);
const _: () = assert!(offset_of!(StatusRead, number) == 0);
const _: () = assert!(offset_of!(StatusRead, fields) == 4);
const _: () = assert!(size_of::<Address>() == 24);
const _: () = assert!(offset_of!(Address, priority) == 0);
const _: () = assert!(offset_of!(Address, phase) == 4);
const _: () = assert!(offset_of!(Address, long_address) == 8);
const _: () = assert!(offset_of!(Address, address) == 12);
const _: () = assert!(offset_of!(Address, tone_only) == 16);
const _: () = assert!(offset_of!(Address, vector) == 20);
const _: () = assert!(size_of::<AddressRead>() == 28);
const _: () = assert!(offset_of!(AddressRead, number) == 0);
const _: () = assert!(offset_of!(AddressRead, fields) == 4);
const _: () = assert!(size_of::<Span>() == 12);
const _: () = assert!(offset_of!(Span, check) == 0);
const _: () = assert!(offset_of!(Span, words) == 4);
const _: () = assert!(offset_of!(Span, start) == 8);
const _: () = assert!(size_of::<ShortMessage>() == 32);
const _: () = assert!(offset_of!(ShortMessage, kind) == 0);
const _: () = assert!(offset_of!(ShortMessage, first) == 4);
const _: () = assert!(offset_of!(ShortMessage, second) == 8);
const _: () = assert!(offset_of!(ShortMessage, third) == 12);
const _: () = assert!(offset_of!(ShortMessage, source) == 16);
const _: () = assert!(offset_of!(ShortMessage, retrieval) == 20);
const _: () = assert!(offset_of!(ShortMessage, message) == 24);
const _: () = assert!(offset_of!(ShortMessage, unread) == 28);
const _: () = assert!(size_of::<Instruction>() == 16);
const _: () = assert!(offset_of!(Instruction, kind) == 0);
const _: () = assert!(offset_of!(Instruction, address) == 4);
const _: () = assert!(offset_of!(Instruction, frame) == 8);
const _: () = assert!(offset_of!(Instruction, unread) == 12);
const _: () = assert!(size_of::<Vector>() == 76);
const _: () = assert!(offset_of!(Vector, word) == 0);
const _: () = assert!(offset_of!(Vector, damaged) == 4);
const _: () = assert!(offset_of!(Vector, phase) == 8);
const _: () = assert!(offset_of!(Vector, kind) == 12);
const _: () = assert!(offset_of!(Vector, span) == 16);
const _: () = assert!(offset_of!(Vector, short_message) == 28);
const _: () = assert!(offset_of!(Vector, instruction) == 60);
const _: () = assert!(size_of::<VectorRead>() == 80);
const _: () = assert!(offset_of!(VectorRead, number) == 0);
const _: () = assert!(offset_of!(VectorRead, fields) == 4);
const _: () = assert!(size_of::<Message>() == 16);
const _: () = assert!(offset_of!(Message, word) == 0);
const _: () = assert!(offset_of!(Message, damaged) == 4);
const _: () = assert!(offset_of!(Message, phase) == 8);
const _: () = assert!(offset_of!(Message, bits) == 12);
const _: () = assert!(size_of::<MessageRead>() == 20);
const _: () = assert!(offset_of!(MessageRead, number) == 0);
const _: () = assert!(offset_of!(MessageRead, fields) == 4);
const _: () = assert!(size_of::<Mirror>() == 8);
const _: () = assert!(offset_of!(Mirror, register) == 0);
const _: () = assert!(offset_of!(Mirror, talking) == 4);
const _: () = assert!(size_of::<Mirrored>() == 12);
const _: () = assert!(offset_of!(Mirrored, number) == 0);
const _: () = assert!(offset_of!(Mirrored, mirror) == 4);
const _: () = assert!(size_of::<Numbering>() == 12);
const _: () = assert!(offset_of!(Numbering, message_number) == 0);
const _: () = assert!(offset_of!(Numbering, retrieval) == 4);
const _: () = assert!(offset_of!(Numbering, special_format) == 8);
const _: () = assert!(size_of::<Written>() == 16);
const _: () = assert!(offset_of!(Written, number) == 0);
const _: () = assert!(offset_of!(Written, check) == 4);
const _: () = assert!(offset_of!(Written, words) == 8);
const _: () = assert!(size_of::<PageRead>() == 32);
const _: () = assert!(offset_of!(PageRead, number) == 0);
const _: () = assert!(offset_of!(PageRead, numbering) == 4);
const _: () = assert!(offset_of!(PageRead, characters) == 16);
const _: () = assert!(offset_of!(PageRead, spaces_at_end) == 24);
const _: () = assert!(size_of::<FragmentRead>() == 40);
const _: () = assert!(offset_of!(FragmentRead, number) == 0);
const _: () = assert!(offset_of!(FragmentRead, continued) == 4);
const _: () = assert!(offset_of!(FragmentRead, fragment_number) == 8);
const _: () = assert!(offset_of!(FragmentRead, message_number) == 12);
const _: () = assert!(offset_of!(FragmentRead, retrieval) == 16);
const _: () = assert!(offset_of!(FragmentRead, mail_drop) == 20);
const _: () = assert!(offset_of!(FragmentRead, signature) == 24);
const _: () = assert!(offset_of!(FragmentRead, sum) == 28);
const _: () = assert!(offset_of!(FragmentRead, characters) == 32);
const _: () = assert!(size_of::<Marks>() == 12);
const _: () = assert!(offset_of!(Marks, message_number) == 0);
const _: () = assert!(offset_of!(Marks, retrieval) == 4);
const _: () = assert!(offset_of!(Marks, mail_drop) == 8);
const _: () = assert!(size_of::<TextCut>() == 24);
const _: () = assert!(offset_of!(TextCut, number) == 0);
const _: () = assert!(offset_of!(TextCut, fragments) == 8);
const _: () = assert!(offset_of!(TextCut, words) == 16);
const _: () = assert!(size_of::<Chain>() == 32);
const _: () = assert!(offset_of!(Chain, is_open) == 0);
const _: () = assert!(offset_of!(Chain, address) == 4);
const _: () = assert!(offset_of!(Chain, message_number) == 8);
const _: () = assert!(offset_of!(Chain, next_fragment) == 12);
const _: () = assert!(offset_of!(Chain, sum) == 16);
const _: () = assert!(offset_of!(Chain, characters) == 24);
const _: () = assert!(size_of::<Chains>() == 256);
const _: () = assert!(offset_of!(Chains, slots) == 0);
const _: () = assert!(size_of::<ChainAnswer>() == 48);
const _: () = assert!(offset_of!(ChainAnswer, number) == 0);
const _: () = assert!(offset_of!(ChainAnswer, lost) == 4);
const _: () = assert!(offset_of!(ChainAnswer, begun) == 8);
const _: () = assert!(offset_of!(ChainAnswer, retrieval) == 12);
const _: () = assert!(offset_of!(ChainAnswer, mail_drop) == 16);
const _: () = assert!(offset_of!(ChainAnswer, complete) == 20);
const _: () = assert!(offset_of!(ChainAnswer, slot) == 24);
const _: () = assert!(offset_of!(ChainAnswer, place) == 32);
const _: () = assert!(offset_of!(ChainAnswer, characters) == 40);
const _: () = assert!(size_of::<ChainStep>() == 304);
const _: () = assert!(offset_of!(ChainStep, answer) == 0);
const _: () = assert!(offset_of!(ChainStep, chains) == 48);
const _: () = assert!(size_of::<ChainDrop>() == 264);
const _: () = assert!(offset_of!(ChainDrop, number) == 0);
const _: () = assert!(offset_of!(ChainDrop, chains) == 8);
const _: () = assert!(size_of::<Call>() == 44);
const _: () = assert!(offset_of!(Call, phase) == 0);
const _: () = assert!(offset_of!(Call, vector) == 4);
const _: () = assert!(offset_of!(Call, address) == 8);
const _: () = assert!(offset_of!(Call, priority) == 12);
const _: () = assert!(offset_of!(Call, long_address) == 16);
const _: () = assert!(offset_of!(Call, has_vector) == 20);
const _: () = assert!(offset_of!(Call, kind) == 24);
const _: () = assert!(offset_of!(Call, check) == 28);
const _: () = assert!(offset_of!(Call, start) == 32);
const _: () = assert!(offset_of!(Call, words) == 36);
const _: () = assert!(offset_of!(Call, area) == 40);
const _: () = assert!(size_of::<Calls>() == 360);
const _: () = assert!(offset_of!(Calls, size) == 0);
const _: () = assert!(offset_of!(Calls, calls) == 8);
const _: () = assert!(size_of::<CallOpened>() == 40);
const _: () = assert!(offset_of!(CallOpened, number) == 0);
const _: () = assert!(offset_of!(CallOpened, opened) == 4);
const _: () = assert!(offset_of!(CallOpened, call) == 8);
const _: () = assert!(offset_of!(CallOpened, fields) == 16);
const _: () = assert!(size_of::<CallOpening>() == 400);
const _: () = assert!(offset_of!(CallOpening, answer) == 0);
const _: () = assert!(offset_of!(CallOpening, calls) == 40);
const _: () = assert!(size_of::<CallHeard>() == 32);
const _: () = assert!(offset_of!(CallHeard, number) == 0);
const _: () = assert!(offset_of!(CallHeard, is_vector) == 4);
const _: () = assert!(offset_of!(CallHeard, call) == 8);
const _: () = assert!(offset_of!(CallHeard, kind) == 16);
const _: () = assert!(offset_of!(CallHeard, check) == 20);
const _: () = assert!(offset_of!(CallHeard, completed) == 24);
const _: () = assert!(size_of::<CallHearing>() == 392);
const _: () = assert!(offset_of!(CallHearing, answer) == 0);
const _: () = assert!(offset_of!(CallHearing, calls) == 32);
const _: () = assert!(size_of::<FrameEnd>() == 728);
const _: () = assert!(offset_of!(FrameEnd, number) == 0);
const _: () = assert!(offset_of!(FrameEnd, incomplete) == 8);
const _: () = assert!(offset_of!(FrameEnd, calls) == 368);
const _: () = assert!(size_of::<PocsagReader>() == 32);
const _: () = assert!(offset_of!(PocsagReader, left) == 0);
const _: () = assert!(offset_of!(PocsagReader, is_open) == 4);
const _: () = assert!(offset_of!(PocsagReader, address) == 8);
const _: () = assert!(offset_of!(PocsagReader, function) == 12);
const _: () = assert!(offset_of!(PocsagReader, words) == 16);
const _: () = assert!(offset_of!(PocsagReader, mended) == 24);
const _: () = assert!(offset_of!(PocsagReader, fault) == 28);
const _: () = assert!(size_of::<PocsagPage>() == 32);
const _: () = assert!(offset_of!(PocsagPage, is_ended) == 0);
const _: () = assert!(offset_of!(PocsagPage, number) == 4);
const _: () = assert!(offset_of!(PocsagPage, address) == 8);
const _: () = assert!(offset_of!(PocsagPage, function) == 12);
const _: () = assert!(offset_of!(PocsagPage, words) == 16);
const _: () = assert!(offset_of!(PocsagPage, mended) == 24);
const _: () = assert!(size_of::<PocsagHeard>() == 80);
const _: () = assert!(offset_of!(PocsagHeard, number) == 0);
const _: () = assert!(offset_of!(PocsagHeard, taken) == 8);
const _: () = assert!(offset_of!(PocsagHeard, page) == 16);
const _: () = assert!(offset_of!(PocsagHeard, reader) == 48);
const _: () = assert!(size_of::<PocsagText>() == 24);
const _: () = assert!(offset_of!(PocsagText, number) == 0);
const _: () = assert!(offset_of!(PocsagText, characters) == 8);
const _: () = assert!(offset_of!(PocsagText, fill_at_end) == 16);
