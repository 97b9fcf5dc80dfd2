//! The library's exports in C once more, each standing before the export itself (the linker's `--wrap`) and showing what
//! is seen of a call: every field of what goes in, every field of the answer, and all lent memory before and after. So one
//! library can be held against another, field by field and on any machine (boards/watched.h, tools/test-board).

use crate::c::{declared, plain};
use crate::library::{is_number, Library};
use crate::names::{field, snake};
use crate::source::{Function, Named, Struct, Type};

const TOP: &str = "\
/*
 * What is seen of each export. Written from the Rattle source by `rust/exports`, as the header is.
 */
#include \"watched.h\"
";

fn bare(known: &Function) -> &str {
    known.name.trim_start_matches("mortisevane_")
}

/// What is seen of a number, or of a struct by the function of its own.
fn seen(kind: &str, place: &str) -> String {
    match is_number(kind) {
        true => format!("see({place});"),
        false => format!("see_{}(&{place});", snake(kind)),
    }
}

/// A struct's fields, one after the other, without what may lie between them.
fn structure(known: &Struct) -> String {
    let name = snake(&known.name);
    let mut body = String::new();
    for named in &known.fields {
        let place = format!("seen->{}", field(&named.name));
        body.push_str(&match &named.kind {
            Type::Array(kind, count) => {
                let each = seen(kind, &format!("{place}[place]"));
                format!("    for (int place = 0; place < {count}; place++)\n        {each}\n")
            }
            Type::Plain(kind) | Type::Slice(kind, _) => format!("    {}\n", seen(kind, &place)),
        });
    }
    format!("\nstatic void see_{name}(const struct mortisevane_{name} *seen)\n{{\n{body}}}\n")
}

fn slices(known: &Function) -> impl Iterator<Item = &Named> {
    known.parameters.iter().filter(|parameter| matches!(parameter.kind, Type::Slice(..)))
}

/// The number of a row that an export is lent.
fn row(known: &Function, lent: &Named) -> String {
    format!("ROW_{}_{}", bare(known), field(&lent.name))
}

/// All that goes into a call, and all lent memory before it.
fn inputs(known: &Function) -> String {
    let each = |parameter: &Named| {
        let name = field(&parameter.name);
        match &parameter.kind {
            Type::Plain(kind) | Type::Array(kind, _) => format!("    {}\n", seen(kind, name)),
            Type::Slice(..) => {
                let row = row(known, parameter);
                format!("    see_lent({row}, {name}, {name}_length, sizeof *{name});\n")
            }
        }
    };
    known.parameters.iter().map(each).collect()
}

fn function(known: &Function) -> String {
    let (Type::Plain(answer) | Type::Array(answer, _) | Type::Slice(answer, _)) = &known.answer;
    let parameters: Vec<String> = known.parameters.iter().map(declared).collect();
    let parameters = if parameters.is_empty() { "void".to_string() } else { parameters.join(", ") };
    let arguments = known.parameters.iter().map(|parameter| match parameter.kind {
        Type::Slice(..) => format!("{0}, {0}_length", field(&parameter.name)),
        _ => field(&parameter.name).to_string(),
    });
    let arguments = arguments.collect::<Vec<String>>().join(", ");
    let (gives, name, bare) = (plain(answer), &known.name, bare(known));
    let after = |lent: &Named| {
        let name = field(&lent.name);
        format!("    see_row({name}, {name}_length * sizeof *{name});\n")
    };
    let after: String = slices(known).map(after).collect();
    format!(
        "\n{gives} __real_{name}({parameters});\n{gives} __wrap_{name}({parameters});\n\n\
         {gives} __wrap_{name}({parameters})\n{{\n    watch_inputs(WATCHED_{bare});\n{}    PAINT_STACK();\n    \
         {gives} answer = __real_{name}({arguments});\n    watch_answer(DEEPEST_STACK());\n    {}\n{after}    \
         watch_ends();\n    return answer;\n}}\n",
        inputs(known),
        seen(answer, "answer"),
    )
}

pub fn source(library: &Library) -> String {
    let structs = library.parts.iter().flat_map(|part| &part.structs);
    let functions: Vec<&Function> = library.parts.iter().flat_map(|part| &part.functions).collect();
    let each = |write: &dyn Fn(&Function) -> String| functions.iter().map(|known| write(known)).collect::<String>();
    let rows = |known: &Function| slices(known).map(|lent| format!("    {},\n", row(known, lent))).collect();
    let names = |known: &Function| {
        slices(known).map(|lent| format!("    \"{} of {}\",\n", field(&lent.name), known.name)).collect()
    };
    format!(
        "{TOP}\nenum {{\n{}    WATCHED_COUNT\n}};\n\nenum {{\n{}    ROW_COUNT\n}};\n\n\
         const char *const watched_names[] = {{\n{}}};\nconst int watched_count = WATCHED_COUNT;\n\n\
         const char *const row_names[] = {{\n{}}};\nconst int row_count = ROW_COUNT;\n{}{}",
        each(&|known| format!("    WATCHED_{},\n", bare(known))),
        each(&rows),
        each(&|known| format!("    \"{}\",\n", known.name)),
        each(&names),
        structs.map(structure).collect::<String>(),
        each(&function)
    )
}
