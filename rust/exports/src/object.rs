//! The library as it was compiled for a board: how large its code is, what it needs from outside, and that it keeps
//! nothing of its own. It is read from the archive here, so that no tool of the machine at hand need know that processor.

use crate::library::Library;
use std::collections::BTreeSet;

/// Parts of an ELF file that are looked at (the format's own numbers).
pub const SYMBOL_TABLE: u64 = 2;
const NO_BYTES: u64 = 8;
const WRITABLE: u64 = 1;
const LOADED: u64 = 2;
const EXECUTABLE: u64 = 4;
/// Arm's tables for unwinding the stack, which a board's link script leaves out: nothing of the library unwinds.
const UNWINDING: u64 = 0x7000_0001;
/// A symbol that is seen from outside, and one of no section: it is needed.
const GLOBAL: u64 = 1;
const NOWHERE: u64 = 0;

/// What a library may need from outside: the compiler's arithmetic where the processor has none of its own, by Arm's names
/// and by RISC-V's.
const MAY_NEED: [&str; 9] = [
    "__aeabi_llsl",
    "__aeabi_lmul",
    "__aeabi_uidiv",
    "__aeabi_uidivmod",
    "__aeabi_uldivmod",
    "__ashldi3",
    "__muldi3",
    "__udivdi3",
    "__umoddi3",
];

/// What one object file has.
#[derive(Debug, Default, PartialEq)]
pub struct Object {
    pub code: u64,
    pub constants: u64,
    /// Bytes of memory that the library would have of its own.
    pub variables: u64,
    pub needs: BTreeSet<String>,
    pub gives: BTreeSet<String>,
}

/// The bytes of a file, read by the width of its numbers.
pub struct Bytes<'a> {
    all: &'a [u8],
    is_wide: bool,
}

impl<'a> Bytes<'a> {
    pub fn of(all: &'a [u8]) -> Result<Bytes<'a>, String> {
        if !all.starts_with(b"\x7FELF") || all.get(5) != Some(&1) {
            return Err("it is no little-endian ELF file".to_string());
        }
        Ok(Bytes { all, is_wide: all[4] == 2 })
    }

    pub fn number(&self, place: u64, bytes: u64) -> Result<u64, String> {
        let place = usize::try_from(place).map_err(|_| "it is too large".to_string())?;
        let part = self.all.get(place..).and_then(|rest| rest.get(..bytes as usize));
        let part = part.ok_or("it is cut short".to_string())?;
        Ok(part.iter().rev().fold(0, |number, byte| number << 8 | u64::from(*byte)))
    }

    /// A number whose place and width depend on that of addresses: first those of 32 bits, then those of 64.
    fn either(&self, start: u64, narrow: (u64, u64), wide: (u64, u64)) -> Result<u64, String> {
        let (place, bytes) = if self.is_wide { wide } else { narrow };
        self.number(start + place, bytes)
    }

    pub fn name(&self, place: u64) -> Result<String, String> {
        let rest = self.all.get(place as usize..).ok_or("it is cut short".to_string())?;
        let end = rest.iter().position(|byte| *byte == 0).ok_or("it is cut short".to_string())?;
        String::from_utf8(rest[..end].to_vec()).map_err(|fault| fault.to_string())
    }
}

/// A section: its kind, its marks, where its bytes stand and how many they are, the section that goes with it, and the one
/// that it is about.
pub struct Section {
    pub kind: u64,
    marks: u64,
    pub start: u64,
    pub bytes: u64,
    pub goes_with: u64,
    pub about: u64,
}

pub fn sections(file: &Bytes) -> Result<Vec<Section>, String> {
    let start = file.either(0, (0x20, 4), (0x28, 8))?;
    let size = file.either(0, (0x2E, 2), (0x3A, 2))?;
    let count = file.either(0, (0x30, 2), (0x3C, 2))?;
    (0..count)
        .map(|place| {
            let at = start + place * size;
            Ok(Section {
                kind: file.number(at + 4, 4)?,
                marks: file.either(at, (8, 4), (8, 8))?,
                start: file.either(at, (0x10, 4), (0x18, 8))?,
                bytes: file.either(at, (0x14, 4), (0x20, 8))?,
                goes_with: file.either(at, (0x18, 4), (0x28, 4))?,
                about: file.either(at, (0x1C, 4), (0x2C, 4))?,
            })
        })
        .collect()
}

/// The names that are seen from outside: those that are needed and those that are given.
fn take_symbols(file: &Bytes, table: &Section, names: &Section, into: &mut Object) -> Result<(), String> {
    let size = if file.is_wide { 24 } else { 16 };
    for place in (table.start..table.start + table.bytes).step_by(size) {
        let how = file.either(place, (12, 1), (4, 1))?;
        let home = file.either(place, (14, 2), (6, 2))?;
        if how >> 4 != GLOBAL {
            continue;
        }
        let name = file.name(names.start + file.number(place, 4)?)?;
        if home == NOWHERE { into.needs.insert(name) } else { into.gives.insert(name) };
    }
    Ok(())
}

pub fn object(all: &[u8]) -> Result<Object, String> {
    let file = Bytes::of(all)?;
    let sections = sections(&file)?;
    let mut object = Object::default();
    for section in &sections {
        match section {
            _ if section.kind == SYMBOL_TABLE => {
                let names = sections.get(section.goes_with as usize).ok_or("its symbols have no names".to_string())?;
                take_symbols(&file, section, names, &mut object)?;
            }
            _ if section.marks & LOADED == 0 || section.kind == UNWINDING => {}
            _ if section.marks & WRITABLE != 0 || section.kind == NO_BYTES => object.variables += section.bytes,
            _ if section.marks & EXECUTABLE != 0 => object.code += section.bytes,
            _ => object.constants += section.bytes,
        }
    }
    Ok(object)
}

/// The one object file of an archive.
pub fn member(archive: &[u8]) -> Result<&[u8], String> {
    let mut rest = archive.strip_prefix(b"!<arch>\n").ok_or("it is no archive")?;
    let mut found = None;
    while rest.len() >= 60 {
        let (head, after) = rest.split_at(60);
        let size = std::str::from_utf8(&head[48..58]).map_err(|fault| fault.to_string())?;
        let size: usize = size.trim().parse().map_err(|_| "a member has no size".to_string())?;
        let bytes = after.get(..size).ok_or("it is cut short")?;
        // A name that begins with a slash is the archive's own table.
        if !head.starts_with(b"/") && found.replace(bytes).is_some() {
            return Err("it has several members".to_string());
        }
        rest = after.get(size.next_multiple_of(2)..).unwrap_or(&[]);
    }
    found.ok_or("it has no member".to_string())
}

/// What an archive of the library has, or in which way it is not as a board's library must be.
pub fn judged(library: &Library, archive: &[u8]) -> Result<Object, String> {
    let found = object(member(archive)?)?;
    let functions = library.parts.iter().flat_map(|part| &part.functions);
    let exports: BTreeSet<String> = functions.map(|known| known.name.clone()).collect();
    let list = |names: BTreeSet<&String>| names.into_iter().map(String::as_str).collect::<Vec<_>>().join(", ");
    if found.variables != 0 {
        return Err(format!("it has {} bytes of variables, and must have none", found.variables));
    }
    if found.gives != exports {
        let missing = list(exports.difference(&found.gives).collect());
        let more = list(found.gives.difference(&exports).collect());
        return Err(format!("of the header's functions it lacks [{missing}], and gives besides [{more}]"));
    }
    let strange: BTreeSet<&String> = found.needs.iter().filter(|name| !MAY_NEED.contains(&name.as_str())).collect();
    if !strange.is_empty() {
        return Err(format!("it needs {}, which is more than the named few", list(strange)));
    }
    Ok(found)
}
