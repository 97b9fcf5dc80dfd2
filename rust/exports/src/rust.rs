//! The library as Rust declarations.

use crate::layout::{self, Layouts};
use crate::library::{Group, Library, Part, Size, Written};
use crate::names::{bare, constant};
use crate::source::{Constant, Function, Named, Struct, Type};

const TOP: &str = "\
//! The exports as they are linked, with the structs and constants that they share with C.
//!
//! Written by `tools/write-exports` from the Rattle source, in which every function is proved; the tests fail where the
//! two differ.

// What a struct's comment says, it says of its fields, by their names or in their order.
#![allow(missing_docs)]

use core::mem::{offset_of, size_of};

/// A length, a count or a place in a struct. It is as wide on a board of 32 bits as anywhere else.
pub type Size = u64;
";

const SENTENCES_TOP: &str = "
/// What each refusal means, in a sentence for people, at the place of its number. The one at place 0, where nothing was
/// refused, is empty.
";

const LAYOUT_TOP: &str = "
// The layout of every struct, in bytes: how large it is, and where each of its fields stands. The library was compiled
// for this one. A compiler that lays a struct out otherwise stops here.
";

/// What is said of a function stands in paragraphs. Constants are named as here, and brackets are no links.
fn comment(text: &[String], indent: &str) -> String {
    let mut written = String::new();
    for line in text {
        if ["Takes ", "Answers ", "Refuses "].iter().any(|word| line.starts_with(word)) {
            written.push_str(&format!("{indent}///\n"));
        }
        let line = line.replace("MORTISEVANE_", "").replace('[', "\\[").replace(']', "\\]");
        written.push_str(&format!("{indent}/// {line}\n"));
    }
    written
}

fn declared(named: &Named) -> Vec<String> {
    let name = &named.name;
    match &named.kind {
        Type::Plain(kind) => vec![format!("{name}: {}", bare(kind))],
        Type::Array(kind, count) => vec![format!("{name}: [{}; {count}]", bare(kind))],
        Type::Slice(kind, true) => vec![format!("{name}: *mut {}", bare(kind)), format!("{name}_length: usize")],
        Type::Slice(kind, false) => vec![format!("{name}: *const {}", bare(kind)), format!("{name}_length: usize")],
    }
}

/// A field of a struct, where a length is as wide on every machine.
fn member(named: &Named) -> Vec<String> {
    match &named.kind {
        Type::Plain(kind) if kind == "usize" => vec![format!("{}: Size", named.name)],
        _ => declared(named),
    }
}

fn structure(known: &Struct) -> String {
    let fields = known.fields.iter().flat_map(member);
    let fields: String = fields.map(|field| format!("    pub {field},\n")).collect();
    format!(
        "\n{}#[repr(C)]\n#[derive(Clone, Copy, Debug, Default, PartialEq, Eq)]\npub struct {} {{\n{fields}}}\n",
        comment(&known.comment, ""),
        bare(&known.name)
    )
}

fn function(known: &Function) -> String {
    let parameters: Vec<String> = known.parameters.iter().flat_map(declared).collect();
    let (Type::Plain(answer) | Type::Array(answer, _) | Type::Slice(answer, _)) = &known.answer;
    let parameters = parameters.join(", ");
    format!("{}    pub fn {}({parameters}) -> {};\n", comment(&known.comment, "    "), known.name, bare(answer))
}

fn number(prefix: &str, known: &Constant, comment: &str) -> String {
    let name = constant(prefix, &known.name).replace("MORTISEVANE_", "");
    let value = if prefix == "PACKET" { format!("0x{:02X}", known.value) } else { known.value.to_string() };
    format!("{comment}pub const {name}: u32 = {value};\n")
}

/// The first sentence of a heading, and which of the constants below it this is.
fn under(heading: &str, prefix: &str, known: &Constant) -> String {
    let sentence = heading.split(". ").next().unwrap_or(heading).trim_end_matches('.');
    let name = constant(prefix, &known.name).replace(&format!("MORTISEVANE_{prefix}_"), "");
    let id = if prefix == "PACKET" { format!(", {:02X}H", known.value) } else { String::new() };
    format!("/// {sentence}: {}{id}.\n", name.replace('_', " ").to_ascii_lowercase())
}

/// A comment is its constant's own, unless there are constants after it that have none: then it is the heading of them
/// all.
fn group(known: &Group) -> String {
    let mut heading = known.about.to_string();
    let mut written = format!("\n// {heading}\n");
    for (place, one) in known.constants.iter().enumerate() {
        let stands_alone = known.constants.get(place + 1).is_none_or(|next| !next.comment.is_empty());
        if !one.comment.is_empty() && !stands_alone {
            heading = one.comment.join(" ");
            written.push_str(&format!("// {heading}\n"));
        }
        let own = !one.comment.is_empty() && stands_alone;
        let told = if own { comment(&one.comment, "") } else { under(&heading, known.prefix, one) };
        written.push_str(&number(known.prefix, one, &told));
    }
    written
}

/// What the refusals mean, a line for each.
fn sentences(known: &[String]) -> String {
    let rows: String = known.iter().map(|row| format!("    \"{row}\",\n")).collect();
    format!("{SENTENCES_TOP}pub const SENTENCES: [&str; {}] = [\n{rows}];\n", known.len())
}

fn size(known: &Size) -> String {
    let value = match &known.value {
        Written::Number(value) => value.to_string(),
        Written::Formula(formula) => formula.replace("MORTISEVANE_", ""),
    };
    format!("/// {}\npub const {}: usize = {value};\n", known.about, known.name)
}

fn part(known: &Part) -> String {
    let structs: String = known.structs.iter().map(structure).collect();
    let functions: Vec<String> = known.functions.iter().map(function).collect();
    let about: String = known.about.iter().map(|line| format!("// {line}\n")).collect();
    format!("\n{about}{structs}\nextern \"C\" {{\n{}}}\n", functions.join("\n"))
}

/// What the compiler is held to for one struct.
fn laid_out(known: &Struct, layouts: &Layouts) -> String {
    let name = bare(&known.name);
    let layout = &layouts[&known.name];
    let mut text = format!("const _: () = assert!(size_of::<{name}>() == {});\n", layout.bytes);
    for (named, place) in known.fields.iter().zip(&layout.places) {
        text.push_str(&format!("const _: () = assert!(offset_of!({name}, {}) == {place});\n", named.name));
    }
    text
}

pub fn declarations(library: &Library) -> String {
    let layouts = layout::of(library);
    let structs = library.parts.iter().flat_map(|part| &part.structs);
    let layout: String = structs.map(|known| laid_out(known, &layouts)).collect();
    let groups: String = library.groups.iter().map(group).collect();
    let sizes: String = library.sizes.iter().map(size).collect();
    let parts: String = library.parts.iter().map(part).collect();
    let sentences = sentences(&library.sentences);
    let limits = format!("\n// Limits, and how much memory is to be lent.\n{sizes}");
    format!("{TOP}{groups}{sentences}{limits}{parts}{LAYOUT_TOP}{layout}")
}
