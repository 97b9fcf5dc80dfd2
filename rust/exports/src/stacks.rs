//! How deep the stack can get below each export of a board's library, whatever its input: the frames that the compiler tells
//! of each function (-fstack-usage), added up along the deepest way of calls. The calls are read from the object file,
//! where each function stands in a section of its own and every call of another is still to be linked. What the compiler's
//! arithmetic needs, which is not part of the library, is not in it.

use crate::layout::{self, Layouts};
use crate::library::Library;
use crate::object::{self, Bytes, Section};
use crate::source::{Function, Type};
use std::collections::{BTreeMap, BTreeSet};

/// Tables of what is still to be linked, with the size of an entry: without and with a number to be added.
const TO_LINK: [(u64, usize); 2] = [(9, 8), (4, 12)];
/// The kinds of such an entry that are calls, on Arm and on RISC-V: a call of the function itself is no jump within it.
const CALLS: [u64; 3] = [10, 18, 19];
/// A symbol that is a function.
const FUNCTION: u64 = 2;
/// The size of a symbol's entry.
const SYMBOL: usize = 16;

struct Symbol {
    name: String,
    kind: u64,
    section: usize,
}

/// What a call of an export needs of the stack, in bytes.
#[derive(Debug, PartialEq)]
pub struct Stack {
    pub name: String,
    /// From the call down.
    pub own: u64,
    /// The structs that the caller hands over by value, and the one that it is answered.
    pub taken: u64,
    pub answered: u64,
}

/// The functions by the numbers of their sections: how large the frame of each is, and which functions it calls.
#[derive(Debug, Default, PartialEq)]
pub struct Graph {
    pub frames: BTreeMap<usize, u64>,
    pub calls: BTreeMap<usize, BTreeSet<usize>>,
}

impl Graph {
    /// The deepest stack from a function down. The way to it is handed over, since a function that calls itself by any
    /// way has no deepest stack.
    pub fn deepest(&self, function: usize, way: &mut Vec<usize>) -> Result<u64, String> {
        if way.contains(&function) {
            return Err("a function calls itself".to_string());
        }
        let own = *self.frames.get(&function).ok_or("a function is called whose frame is not told")?;
        let mut below = 0;
        way.push(function);
        for called in self.calls.get(&function).into_iter().flatten() {
            below = below.max(self.deepest(*called, way)?);
        }
        way.pop();
        Ok(own + below)
    }
}

/// The frames by the names of their functions. A line has a place and a name (`shim.c:576:mortisevane_call_hear`, or without
/// the number of a line), the bytes, and `static`, with tabs between; a frame that is not static has no one size.
pub fn told_frames(usage: &str) -> Result<BTreeMap<&str, u64>, String> {
    let frame = |line| {
        let words: Vec<&str> = str::split(line, '\t').collect();
        let [place, bytes, "static"] = words.as_slice() else {
            return Err(format!("the frame of a function has no one size: {line}"));
        };
        let name = place.split_once(':').map_or(*place, |(_, name)| name);
        let name = name.trim_start_matches(|first: char| first.is_ascii_digit()).trim_start_matches(':');
        let bytes = bytes.parse().map_err(|_| format!("the frame of a function is no number: {line}"))?;
        Ok((name, bytes))
    };
    usage.lines().map(frame).collect()
}

fn symbols(file: &Bytes, sections: &[Section]) -> Result<Vec<Symbol>, String> {
    let table = sections.iter().find(|section| section.kind == object::SYMBOL_TABLE).ok_or("it has no symbols")?;
    let names = sections.get(table.goes_with as usize).ok_or("its symbols have no names")?;
    let each = (table.start..table.start + table.bytes).step_by(SYMBOL);
    let symbol = |place| {
        Ok(Symbol {
            name: file.name(names.start + file.number(place, 4)?)?,
            kind: file.number(place + 12, 1)? & 15,
            section: file.number(place + 14, 2)? as usize,
        })
    };
    each.map(symbol).collect()
}

/// Adds the calls that one table has for the function in a section.
fn take_calls(file: &Bytes, table: &Section, entry: usize, symbols: &[Symbol], graph: &mut Graph) -> Result<(), String> {
    let caller = table.about as usize;
    for place in (table.start..table.start + table.bytes).step_by(entry) {
        let how = file.number(place + 4, 4)?;
        let named = symbols.get((how >> 8) as usize).ok_or("a call has no symbol")?;
        // What is not a function of the library is a constant or the compiler's arithmetic.
        let is_own = named.section == caller && !CALLS.contains(&(how & 0xFF));
        if graph.frames.contains_key(&named.section) && !is_own {
            graph.calls.entry(caller).or_default().insert(named.section);
        }
    }
    Ok(())
}

/// The functions of an object file with their frames and calls, and the section of each by its name.
fn graph(file: &Bytes, frames: &BTreeMap<&str, u64>) -> Result<(Graph, BTreeMap<String, usize>), String> {
    let sections = object::sections(file)?;
    let symbols = symbols(file, &sections)?;
    let functions = symbols.iter().filter(|symbol| symbol.kind == FUNCTION && symbol.section != 0);
    let functions: BTreeMap<String, usize> = functions.map(|symbol| (symbol.name.clone(), symbol.section)).collect();
    let mut graph = Graph::default();
    for (name, section) in &functions {
        if let Some(bytes) = frames.get(name.as_str()) {
            graph.frames.insert(*section, *bytes);
        }
    }
    if let Some((name, _)) = functions.iter().find(|(_, section)| !graph.frames.contains_key(section)) {
        return Err(format!("the frame of {name} is not told"));
    }
    for section in &sections {
        let kind = TO_LINK.iter().find(|(kind, _)| *kind == section.kind);
        if let Some((_, entry)) = kind {
            take_calls(file, section, *entry, &symbols, &mut graph)?;
        }
    }
    Ok((graph, functions))
}

/// The bytes of a struct that goes by value.
fn by_value(kind: &Type, layouts: &Layouts) -> u64 {
    match kind {
        Type::Plain(name) => layouts.get(name).map_or(0, |layout| layout.bytes),
        _ => 0,
    }
}

/// What each export needs, in the header's order, by the object file and by the frames that the compiler told.
pub fn of(library: &Library, archive: &[u8], usage: &str) -> Result<Vec<Stack>, String> {
    let file = Bytes::of(object::member(archive)?)?;
    let (graph, functions) = graph(&file, &told_frames(usage)?)?;
    let layouts = layout::of(library);
    let stack = |known: &Function| {
        let name = known.name.clone();
        let section = functions.get(&name).ok_or(format!("it has no {name}"))?;
        let own = graph.deepest(*section, &mut Vec::new()).map_err(|fault| format!("below {name} {fault}"))?;
        let taken = known.parameters.iter().map(|parameter| by_value(&parameter.kind, &layouts)).sum();
        Ok(Stack { name, own, taken, answered: by_value(&known.answer, &layouts) })
    };
    library.parts.iter().flat_map(|part| &part.functions).map(stack).collect()
}
