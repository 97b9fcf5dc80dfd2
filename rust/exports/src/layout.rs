//! How the structs lie in memory, in bytes, on every machine: each number at a multiple of its own size, a length in 64
//! bits. The kit lays them out so; the header, the Rust declarations and the shim are held to it.

use crate::library::Library;
use crate::source::{Struct, Type};
use std::collections::BTreeMap;

/// Where the fields of a struct stand, how large it is, and a multiple of what its place must be.
#[derive(Debug, PartialEq)]
pub struct Layout {
    pub places: Vec<u64>,
    pub bytes: u64,
    pub aligned: u64,
}

/// The layout of every struct, by its name.
pub type Layouts = BTreeMap<String, Layout>;

/// How large a number or a struct is, and a multiple of what its place must be.
fn measure(name: &str, layouts: &Layouts) -> (u64, u64) {
    let bytes = match name {
        "u8" | "bool" => 1,
        "u16" => 2,
        "u32" => 4,
        "u64" | "usize" => 8,
        _ => return (layouts[name].bytes, layouts[name].aligned),
    };
    (bytes, bytes)
}

fn layout(known: &Struct, layouts: &Layouts) -> Layout {
    let mut places = Vec::new();
    let (mut end, mut strictest) = (0, 1);
    for field in &known.fields {
        let (Type::Plain(name) | Type::Array(name, _) | Type::Slice(name, _)) = &field.kind;
        let (bytes, aligned) = measure(name, layouts);
        let count = match &field.kind {
            Type::Array(_, count) => count.parse().expect("the count of an array that crosses to C is a number"),
            _ => 1,
        };
        let place = u64::next_multiple_of(end, aligned);
        places.push(place);
        end = place + bytes * count;
        strictest = strictest.max(aligned);
    }
    Layout { places, bytes: end.next_multiple_of(strictest), aligned: strictest }
}

/// The layouts of all structs. A struct stands after those that it holds.
pub fn of(library: &Library) -> Layouts {
    let mut layouts = Layouts::new();
    for known in library.parts.iter().flat_map(|part| &part.structs) {
        let own = layout(known, &layouts);
        layouts.insert(known.name.clone(), own);
    }
    layouts
}
