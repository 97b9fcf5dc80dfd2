//! The library as a C header.

use crate::layout::{self, Layouts};
use crate::library::{Group, Library, Part, Size, Written};
use crate::names::{constant, field, snake};
use crate::source::{Constant, Function, Named, Struct, Type};

const WIDTH: usize = 100;

const TOP: &str = "\
/*
 * Mortisevane: host logic for belt pagers built round the PCD5008 FLEX decoder.
 *
 * Written by `tools/write-exports` from the Rattle source, in which every function is proved; the tests fail where the
 * two differ. Link with libmortisevane.a (tools/build-library).
 *
 * Every function takes any input and always returns. Where an answer has a `number`, it is 0, or the number of the
 * refusal, and what the answer would tell otherwise is then 0; memory that was lent is then as it was, and so is
 * state, unless the function says otherwise. A row is a pointer and how many it has; where it has none the pointer
 * may be any that is not null and is aligned. Memory that is lent for writing shares no byte with anything else that
 * is lent to the same call. Nothing is kept between calls: what is to be remembered goes in and comes back as a
 * struct, which zeros make fresh.
 *
 * The structs are laid out alike on every machine, 8-bit to 64-bit numbers each at a multiple of its own size: the end
 * of this header holds the compiler to that. A length that is a parameter is as wide as the machine's own, a
 * `mortisevane_size` in a struct always 64 bits.
 *
 * In the comments, \"01\" is the paper that defines the pager host, and S8.x and Table n are the PCD5008 data sheet's.
 */
#ifndef MORTISEVANE_H
#define MORTISEVANE_H

#include <stddef.h>
#include <stdint.h>

#ifdef __cplusplus
extern \"C\" {
#endif

/* A length, a count or a place in a struct. It is as wide on a board of 32 bits as anywhere else. */
typedef uint64_t mortisevane_size;
";

const LAYOUT_TOP: &str = "
/*
 * The layout of every struct, in bytes: how large it is, and where each of its fields stands. The library was compiled
 * for this one. A compiler that lays a struct out otherwise stops here.
 */
#ifdef __cplusplus
#define MORTISEVANE_HOLDS(truth, otherwise) static_assert(truth, otherwise)
#else
#define MORTISEVANE_HOLDS(truth, otherwise) _Static_assert(truth, otherwise)
#endif
#define MORTISEVANE_LARGE(name, bytes) \\
    MORTISEVANE_HOLDS(sizeof(struct mortisevane_##name) == bytes, \\
            \"struct mortisevane_\" #name \" is not as large as in the library\")
#define MORTISEVANE_PLACED(name, field, place) \\
    MORTISEVANE_HOLDS(offsetof(struct mortisevane_##name, field) == place, \\
            #field \" of struct mortisevane_\" #name \" is not where the library has it\")
";

const LAYOUT_END: &str = "
#undef MORTISEVANE_PLACED
#undef MORTISEVANE_LARGE
#undef MORTISEVANE_HOLDS
";

const END: &str = "
#ifdef __cplusplus
}
#endif

#endif
";

/// Lines of words no longer than a width, with something before each.
fn wrapped(text: &str, before: &str) -> String {
    let mut lines = String::new();
    let mut line = String::new();
    for word in text.split_whitespace() {
        if !line.is_empty() && before.len() + line.len() + 1 + word.len() > WIDTH {
            lines.push_str(&format!("{before}{line}\n"));
            line.clear();
        }
        if !line.is_empty() {
            line.push(' ');
        }
        line.push_str(word);
    }
    lines.push_str(&format!("{before}{line}\n"));
    lines
}

/// A comment. What a function takes, answers and refuses stands in lines of its own.
fn comment(text: &[String], indent: &str) -> String {
    let mut told: Vec<String> = Vec::new();
    for line in text {
        let begins = ["Takes ", "Answers ", "Refuses "].iter().any(|word| line.starts_with(word));
        match told.last_mut() {
            Some(last) if !begins => {
                last.push(' ');
                last.push_str(line);
            }
            _ => told.push(line.clone()),
        }
    }
    if let [one] = told.as_slice() {
        if indent.len() + one.len() + 6 <= WIDTH {
            return format!("{indent}/* {one} */\n");
        }
    }
    let lines: String = told.iter().map(|one| wrapped(one, &format!("{indent} * "))).collect();
    format!("{indent}/*\n{lines}{indent} */\n")
}

pub fn plain(name: &str) -> String {
    match name {
        "u8" | "u16" | "u32" | "u64" => format!("uint{}_t", &name[1..]),
        "usize" => "size_t".to_string(),
        "bool" => "_Bool".to_string(),
        _ => format!("struct mortisevane_{}", snake(name)),
    }
}

/// A parameter.
pub fn declared(named: &Named) -> String {
    let name = field(&named.name);
    match &named.kind {
        Type::Plain(kind) => format!("{} {name}", plain(kind)),
        Type::Array(kind, count) => format!("{} {name}[{count}]", plain(kind)),
        Type::Slice(kind, true) => format!("{} *{name}, size_t {name}_length", plain(kind)),
        Type::Slice(kind, false) => format!("const {} *{name}, size_t {name}_length", plain(kind)),
    }
}

/// A field of a struct, where a length is as wide on every machine.
fn member(named: &Named) -> String {
    match &named.kind {
        Type::Plain(kind) if kind == "usize" => format!("mortisevane_size {}", field(&named.name)),
        _ => declared(named),
    }
}

fn structure(known: &Struct) -> String {
    let fields: String = known.fields.iter().map(|field| format!("    {};\n", member(field))).collect();
    format!("\n{}struct mortisevane_{} {{\n{fields}}};\n", comment(&known.comment, ""), snake(&known.name))
}

fn function(known: &Function) -> String {
    let parameters: Vec<String> = known.parameters.iter().map(declared).collect();
    let (Type::Plain(answer) | Type::Array(answer, _) | Type::Slice(answer, _)) = &known.answer;
    let mut text = format!("\n{}", comment(&known.comment, ""));
    let mut line = format!("{} {}({}", plain(answer), known.name, if parameters.is_empty() { "void" } else { "" });
    for (place, parameter) in parameters.iter().enumerate() {
        let last = place + 1 == parameters.len();
        // What goes over the width stands further in, and its end needs room too.
        if line.len() + parameter.len() + 2 > WIDTH && !line.ends_with('(') {
            text.push_str(&format!("{}\n", line.trim_end()));
            line = "        ".to_string();
        }
        line.push_str(parameter);
        line.push_str(if last { "" } else { ", " });
    }
    format!("{text}{line});\n")
}

fn number(prefix: &str, known: &Constant) -> String {
    let told = if known.comment.is_empty() { String::new() } else { comment(&known.comment, "    ") };
    let value = if prefix == "PACKET" { format!("0x{:02X}", known.value) } else { known.value.to_string() };
    format!("{told}    {} = {value},\n", constant(prefix, &known.name))
}

fn group(known: &Group) -> String {
    let numbers: String = known.constants.iter().map(|one| number(known.prefix, one)).collect();
    let tag = known.prefix.to_ascii_lowercase();
    format!("\n{}enum mortisevane_{tag}_numbers {{\n{numbers}}};\n", comment(&[known.about.to_string()], ""))
}

fn size(known: &Size) -> String {
    let value = match &known.value {
        Written::Number(value) => value.to_string(),
        Written::Formula(formula) => formula.to_string(),
    };
    format!("{}    MORTISEVANE_{} = {value},\n", comment(&[known.about.to_string()], "    "), known.name)
}

fn part(known: &Part) -> String {
    let structs: String = known.structs.iter().map(structure).collect();
    let functions: String = known.functions.iter().map(function).collect();
    format!("\n{}{structs}{functions}", comment(&[known.about.join(" ")], ""))
}

/// What the compiler is held to for one struct.
fn laid_out(known: &Struct, layouts: &Layouts) -> String {
    let name = snake(&known.name);
    let layout = &layouts[&known.name];
    let mut text = format!("\nMORTISEVANE_LARGE({name}, {});\n", layout.bytes);
    for (named, place) in known.fields.iter().zip(&layout.places) {
        text.push_str(&format!("MORTISEVANE_PLACED({name}, {}, {place});\n", field(&named.name)));
    }
    text
}

pub fn header(library: &Library) -> String {
    let layouts = layout::of(library);
    let groups: String = library.groups.iter().map(group).collect();
    let sizes: String = library.sizes.iter().map(size).collect();
    let parts: String = library.parts.iter().map(part).collect();
    let structs = library.parts.iter().flat_map(|part| &part.structs);
    let layout: String = structs.map(|known| laid_out(known, &layouts)).collect();
    let limits = "Limits, and how much memory is to be lent.";
    let limits = format!("\n/* {limits} */\nenum mortisevane_limits {{\n{sizes}}};\n");
    format!("{TOP}{groups}{limits}{parts}{LAYOUT_TOP}{layout}{LAYOUT_END}{END}")
}
