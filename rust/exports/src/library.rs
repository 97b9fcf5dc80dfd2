//! The library: the exports of the crate `host`, file by file in the order of its `mod` lines, with the structs that
//! they need, each once and after those that it holds, the constants that a caller needs, and what the refusals mean.

use crate::names;
use crate::source::{self, Constant, Function, Struct, Type};
use crate::tree::{self, File, Found, Tree};
use std::collections::BTreeSet;
use std::path::Path;

/// The exports of one file.
pub struct Part {
    /// The crate, then the modules that lead to the file.
    pub place: Vec<String>,
    pub about: Vec<String>,
    pub structs: Vec<Struct>,
    pub functions: Vec<Function>,
}

/// Constants that belong together.
pub struct Group {
    pub prefix: &'static str,
    pub about: &'static str,
    pub constants: Vec<Constant>,
}

/// How much memory there is to lend, or a limit: its name, what it is, and how it is written.
pub struct Size {
    pub name: &'static str,
    pub about: &'static str,
    pub value: Written,
}

/// A constant of the source, or a formula over those.
pub enum Written {
    Number(u64),
    Formula(&'static str),
}

pub struct Library {
    pub groups: Vec<Group>,
    /// What each refusal means, at the place of its number.
    pub sentences: Vec<String>,
    pub sizes: Vec<Size>,
    pub parts: Vec<Part>,
}

/// The crate, the type, and what stands before the names.
const GROUPS: [(&str, &str, &str, &str); 9] = [
    ("refusal", "Refusal", "REFUSED", "The refusals, by their numbers: 1 to 18 are the paper's, and those from 19 on came with later requests. A `number` of 0 says that nothing was refused."),
    ("capcode", "Class", "CLASS", "The classes of addresses."),
    ("packet", "Packet", "PACKET", "The IDs of packets, the highest byte of their 32 bits. The same ID means one thing to the decoder and another from it."),
    ("packet", "Vector", "VECTOR", "The types of vectors."),
    ("packet", "ShortMessage", "SHORT_MESSAGE", "The types of short messages."),
    ("packet", "Instruction", "INSTRUCTION", "The types of short instructions."),
    ("numeric", "CharacterSet", "SET", "The sets of characters of numeric pages, the two columns of Table 39. Nothing in a page says by which its sender wrote it."),
    ("pocsag", "Codeword", "POCSAG", "The two words of POCSAG that are no page's."),
    ("pocsag", "TextKind", "POCSAG_TEXT", "How the text of a POCSAG page is read. Nothing in a page says how its sender wrote it."),
];

/// The file of the sentences for people, and the constant in it that is their table, a line for each.
const SENTENCES: (&str, &str) = ("crates/refusal/src/sentences.rt", "SENTENCES");

/// The name, what it is, and the crate and constant that it is.
const LIMITS: [(&str, &str, &str, &str); 6] = [
    ("SLOTS", "Chains that can be open at a time.", "chain", "SLOTS"),
    ("TEXT_CHARACTERS", "The longest text.", "fragment", "MOST_CHARACTERS"),
    ("FRAGMENT_WORDS", "The most words of a fragment.", "fragment", "MOST_WORDS"),
    ("PAGE_WORDS", "The most words of a numeric page.", "numeric", "MOST_WORDS"),
    ("CALLS", "Calls that can be open at a time.", "call", "MOST_CALLS"),
    ("CALL_WORDS", "The memory that calls are lent, in words.", "call", "MEMORY_WORDS"),
];

/// What follows from the limits.
const FORMULAS: [(&str, &str, &str); 5] = [
    ("CHAIN_BYTES", "The memory that chains are lent, in bytes.", "MORTISEVANE_SLOTS * MORTISEVANE_TEXT_CHARACTERS"),
    ("FRAGMENT_CHARACTERS", "The most characters of a fragment.", "3 * (MORTISEVANE_FRAGMENT_WORDS - 1)"),
    ("CUT_WORDS", "The most words of a text that is cut.", "2 * (MORTISEVANE_TEXT_CHARACTERS / 3 + 1)"),
    ("PAGE_CHARACTERS", "The most characters of a numeric page.", "(21 * MORTISEVANE_PAGE_WORDS - 2) / 4"),
    ("CAPCODE_BYTES", "The longest CAPCODE: frame and collapse, the letter, ten digits.", "3 + 1 + 1 + 10"),
];

const NUMBERS: [&str; 6] = ["u8", "u16", "u32", "u64", "usize", "bool"];

pub fn is_number(name: &str) -> bool {
    NUMBERS.contains(&name)
}

/// All source files, and which structs the library has so far, each by its file and its name.
struct Collector<'a> {
    tree: &'a Tree,
    taken: BTreeSet<(&'a str, &'a str)>,
}

impl<'a> Collector<'a> {
    /// How many an array has, from the number or the constant that is written in a file.
    fn count(&self, file: &'a File, text: &str) -> Result<u64, String> {
        if let Some(value) = source::number(text) {
            return Ok(value);
        }
        let Found::Item(home, name) = self.tree.find(file, text)? else {
            return Err(format!("{}: {text} counts an array and is no constant of a crate's", file.path));
        };
        let value = number_of(home, name);
        value.ok_or(format!("{}: {name} counts an array and is no constant with a plain number", home.path))
    }

    /// A type that a file writes, as C has it: a struct by its own name, whatever the file calls it, and the count of
    /// an array as a number. Adds the struct to the library.
    fn crossing(&mut self, file: &'a File, kind: &Type, into: &mut Vec<Struct>) -> Result<Type, String> {
        let (Type::Plain(name) | Type::Array(name, _) | Type::Slice(name, _)) = kind;
        let name = if is_number(name) { name.clone() } else { self.take(file, name, into)? };
        Ok(match kind {
            Type::Plain(_) => Type::Plain(name),
            Type::Array(_, count) => Type::Array(name, self.count(file, count)?.to_string()),
            Type::Slice(_, is_mutable) => Type::Slice(name, *is_mutable),
        })
    }

    /// Adds the struct that a file calls by a name, after those that it holds, and answers its own name.
    fn take(&mut self, file: &'a File, name: &str, into: &mut Vec<Struct>) -> Result<String, String> {
        let Found::Item(home, name) = self.tree.find(file, name)? else {
            return Err(format!("{}: {name} crosses to C and is no struct of a crate's", file.path));
        };
        if !self.taken.insert((&home.path, name)) {
            return Ok(name.to_string());
        }
        let mut others = self.taken.iter().filter(|(path, other)| (*path, *other) != (&home.path, name));
        if let Some((path, _)) = others.find(|(_, other)| names::bare(other) == names::bare(name)) {
            let both = format!("{path} and {}", home.path);
            return Err(format!("two structs that cross to C are called {}, in {both}", names::bare(name)));
        }
        let known = home.source.structs.iter().find(|known| known.name == name);
        let mut known = known.cloned().ok_or(format!("{}: {name} crosses to C and is no struct", home.path))?;
        if !known.crosses {
            return Err(format!("{}: {name} crosses to C without #[repr(C)]", home.path));
        }
        for field in &mut known.fields {
            field.kind = self.crossing(home, &field.kind, into)?;
        }
        into.push(known);
        Ok(name.to_string())
    }

    fn part(&mut self, file: &'a File) -> Result<Part, String> {
        let mut structs = Vec::new();
        let mut functions = file.source.functions.clone();
        for function in &mut functions {
            told(function).map_err(|fault| format!("{}: {fault}", file.path))?;
            for parameter in &mut function.parameters {
                parameter.kind = self.crossing(file, &parameter.kind, &mut structs)?;
            }
            function.answer = self.crossing(file, &function.answer, &mut structs)?;
        }
        Ok(Part { place: file.place.clone(), about: file.source.about.clone(), structs, functions })
    }
}

/// The number of a constant that a file declares outside of any `impl` block.
fn number_of(file: &File, name: &str) -> Option<u64> {
    let mut all = file.source.constants.iter();
    all.find(|known| known.of.is_none() && known.name == name).map(|known| known.value)
}

/// Every export says what it takes, what it answers and what it refuses.
fn told(function: &Function) -> Result<(), String> {
    for word in ["Takes ", "Answers ", "Refuses "] {
        if !function.comment.iter().any(|line| line.starts_with(word)) {
            return Err(format!("the comment of {} has no line that begins with {word}", function.name));
        }
    }
    Ok(())
}

/// The number of a constant, from the first file of its crate that declares it.
pub fn limit(tree: &Tree, of: &str, name: &str) -> Result<u64, String> {
    let files = tree.files_of(of)?;
    let home = files.iter().find(|file| file.source.items.contains(name));
    let home = home.ok_or(format!("no file of the crate {of} declares {name}"))?;
    number_of(home, name).ok_or(format!("{}: {name} is no constant with a plain number", home.path))
}

/// The numbers of a type, from all files of its crate. A variant has its comment where the enum is declared, which may
/// be another file than the one of its number.
pub fn group(tree: &Tree, of: &str, owner: &str) -> Result<Vec<Constant>, String> {
    let files = tree.files_of(of)?;
    let all = files.iter().flat_map(|file| &file.source.constants);
    let mut own: Vec<Constant> = all.filter(|known| known.of.as_deref() == Some(owner)).cloned().collect();
    if own.is_empty() {
        return Err(format!("no file of the crate {of} gives {owner} numbers"));
    }
    let mut names = BTreeSet::new();
    for known in &mut own {
        if !names.insert(known.name.clone()) {
            return Err(format!("the crate {of} gives {owner}::{} two numbers", known.name));
        }
        let variant = format!("{owner}::{}", known.name);
        if let Some(comment) = files.iter().find_map(|file| file.source.variants.get(&variant)) {
            known.comment = comment.clone();
        }
    }
    Ok(own)
}

/// The text of a table's row, from its line in the source. It is one that any language writes as it is, and has no blank
/// before it.
fn plain_row(line: &str) -> Option<&str> {
    let row = line.strip_prefix('"')?.strip_suffix("\",")?;
    let is_plain = row.bytes().all(|byte| matches!(byte, b' '..=b'~') && !matches!(byte, b'\\' | b'"'));
    (is_plain && !row.starts_with(' ')).then_some(row)
}

/// What each refusal means, at the place of its number. The rows after those of the refusals are left out.
pub fn sentences(tree: &Tree, refusals: &[Constant]) -> Result<Vec<String>, String> {
    let (path, name) = SENTENCES;
    let home = tree.files.iter().find(|file| file.path == path);
    let lines = home.and_then(|file| file.source.texts.get(name));
    let lines = lines.ok_or(format!("{path}: there is no table {name} of the sentences for people"))?;
    let mut rows = Vec::new();
    for line in lines {
        let row = plain_row(line);
        rows.push(row.ok_or(format!("{path}: row {} of {name} is not plain text: {line}", rows.len()))?.to_string());
    }
    let is_told = |refusal: &Constant| rows.get(refusal.value as usize).is_some_and(|row| !row.is_empty());
    if let Some(silent) = refusals.iter().find(|refusal| !is_told(refusal)) {
        return Err(format!("{path}: refusal {}, {}, has no sentence in {name}", silent.value, silent.name));
    }
    let last = refusals.iter().map(|refusal| refusal.value as usize).max();
    rows.truncate(last.map_or(0, |last| last + 1));
    Ok(rows)
}

/// The parts of the library: every file with exports. A library without any is refused.
pub fn parts(tree: &Tree) -> Result<Vec<Part>, String> {
    let host: Vec<&File> = tree.files.iter().filter(|file| file.is_host()).collect();
    let with_exports: Vec<&File> = host.iter().copied().filter(|file| !file.source.functions.is_empty()).collect();
    if host.is_empty() {
        return Err("crates.txt has no crate host".to_string());
    }
    if with_exports.is_empty() {
        let paths: Vec<&str> = host.iter().map(|file| file.path.as_str()).collect();
        return Err(format!("the library has no exported function: there is none in {}", paths.join(", ")));
    }
    let mut collector = Collector { tree, taken: BTreeSet::new() };
    with_exports.into_iter().map(|file| collector.part(file)).collect()
}

pub fn read(root: &Path) -> Result<Library, String> {
    let tree = tree::read(root)?;
    let parts = parts(&tree)?;
    let mut groups = Vec::new();
    for (of, owner, prefix, about) in GROUPS {
        groups.push(Group { prefix, about, constants: group(&tree, of, owner)? });
    }
    let sentences = sentences(&tree, &group(&tree, "refusal", "Refusal")?)?;
    let mut sizes = Vec::new();
    for (name, about, of, constant) in LIMITS {
        sizes.push(Size { name, about, value: Written::Number(limit(&tree, of, constant)?) });
    }
    sizes.extend(FORMULAS.map(|(name, about, formula)| Size { name, about, value: Written::Formula(formula) }));
    Ok(Library { groups, sentences, sizes, parts })
}
