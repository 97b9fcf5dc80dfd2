//! The module that the kit hands its compiler, as text, with a function beside each export's inner one that the shim can
//! call: it takes every struct and every slice by a pointer, and hands them to the inner function as the kit's own thunk
//! does. Nothing else of the module is changed but the attributes that name the machine of the kit. The kit promises nothing
//! of how its modules look: whatever is not as it is taken to be here is refused.

use crate::layout::{self, Layouts};
use crate::library::{is_number, Library};
use crate::shim::{by_pointers, inner};
use crate::source::{Function, Type};
use std::collections::BTreeMap;
use std::fmt::Write;

/// The attributes of the module's functions that say for which machine the kit compiles.
const MACHINE: [&str; 3] =
    [" \"probe-stack\"=\"inline-asm\"", " \"stack-probe-size\"=\"3072\"", " \"target-cpu\"=\"x86-64-v2\""];

/// The most numbers of a struct that the module hands over one by one. A larger one it hands over by a pointer.
const MOST_SCALARS: usize = 2;

/// How a table of constants is declared. The module has the bytes of its numbers, the lowest first.
const TABLE: &str = " = private unnamed_addr constant [";

/// How large a slice is in memory, and where its length is there.
const SLICE_BYTES: u64 = 16;
const LENGTH_PLACE: u64 = 8;

/// The largest struct that the thunk takes and answers in registers, and how large one of these is.
const REGISTERS: u64 = 16;
const REGISTER: u64 = 8;

/// What the thunk makes of a slice's null pointer, which is no reference.
const NOT_NULL: &str = "4096";

/// A number in the module's words. No other one crosses.
fn number(name: &str) -> &'static str {
    match name {
        "u8" => "i8",
        "u16" => "i16",
        "u32" => "i32",
        "u64" | "usize" => "i64",
        _ => "unknown",
    }
}

/// What C says of a number that is narrower than a register, when a function takes or answers it.
fn extended(word: &str) -> &'static str {
    match word {
        "i8" | "i16" => "zeroext ",
        _ => "",
    }
}

/// A number of a struct: how the module writes it, and where in the struct it is.
type Scalar = (&'static str, u64);

/// How a value goes from one function of the module to another.
enum Way {
    /// A number.
    Number(&'static str),
    /// The numbers of a small struct, and how many bytes it has.
    Scalars(Vec<Scalar>, u64),
    /// A pointer to a struct of so many bytes.
    Pointer(u64),
    /// A pointer and a length.
    Slice,
}

/// All that is to be known of the library's functions.
struct Expected<'a> {
    inner: BTreeMap<String, &'a Function>,
    exports: BTreeMap<&'a str, String>,
    fields: BTreeMap<&'a str, Vec<&'a Type>>,
    layouts: Layouts,
}

impl<'a> Expected<'a> {
    fn of(library: &'a Library) -> Expected<'a> {
        let both = library.parts.iter().flat_map(|part| part.functions.iter().map(move |known| (part, known)));
        let inner: BTreeMap<String, &Function> = both.map(|(part, known)| (inner(part, known), known)).collect();
        let exports = inner.iter().map(|(name, known)| (known.name.as_str(), name.clone())).collect();
        let structs = library.parts.iter().flat_map(|part| &part.structs);
        let fields = structs.map(|one| (one.name.as_str(), one.fields.iter().map(|field| &field.kind).collect()));
        Expected { inner, exports, fields: fields.collect(), layouts: layout::of(library) }
    }

    /// The numbers of a struct, and those of the structs that it holds, from a place on. There is no way to hand over an
    /// array but by a pointer.
    fn scalars(&self, name: &str, place: u64) -> Option<Vec<Scalar>> {
        let mut found = Vec::new();
        for (kind, within) in self.fields[name].iter().zip(&self.layouts[name].places) {
            match kind {
                Type::Plain(kind) if is_number(kind) => found.push((number(kind), place + within)),
                Type::Plain(kind) => found.extend(self.scalars(kind, place + within)?),
                Type::Array(..) | Type::Slice(..) => return None,
            }
        }
        Some(found)
    }

    fn way(&self, kind: &Type) -> Way {
        match kind {
            Type::Plain(name) if is_number(name) => Way::Number(number(name)),
            Type::Plain(name) | Type::Array(name, _) => {
                let bytes = self.layouts[name].bytes;
                match self.scalars(name, 0).filter(|found| found.len() <= MOST_SCALARS) {
                    Some(found) => Way::Scalars(found, bytes),
                    None => Way::Pointer(bytes),
                }
            }
            Type::Slice(..) => Way::Slice,
        }
    }

    /// What the inner function of an export answers and takes, in the module's words: `void ptr i64`.
    fn words(&self, known: &Function) -> String {
        let mut words = match self.way(&known.answer) {
            Way::Number(word) => vec![word.to_string()],
            Way::Scalars(found, _) => vec![together(&found)],
            Way::Pointer(_) | Way::Slice => vec!["void".to_string(), "ptr".to_string()],
        };
        for parameter in &known.parameters {
            match self.way(&parameter.kind) {
                Way::Number(word) => words.push(word.to_string()),
                Way::Scalars(found, _) => words.extend(found.iter().map(|(word, _)| word.to_string())),
                Way::Pointer(_) => words.push("ptr".to_string()),
                Way::Slice => words.extend(["ptr".to_string(), "i64".to_string()]),
            }
        }
        words.join(" ")
    }

    /// What the thunk of an export hands to the inner function and keeps of its answer, as `Thunk` tells it.
    fn told(&self, known: &Function) -> (Vec<String>, Vec<String>) {
        let place = |(word, place): &Scalar, bytes: u64| format!("{word} at {place} of {bytes}");
        let all = |found: &[Scalar], bytes: u64| found.iter().map(|scalar| place(scalar, bytes)).collect::<Vec<_>>();
        let (mut handed, kept) = match self.way(&known.answer) {
            Way::Number(_) => (Vec::new(), Vec::new()),
            Way::Scalars(found, bytes) => (Vec::new(), all(&found, bytes)),
            Way::Pointer(bytes) if bytes > REGISTERS => (vec!["ptr".to_string()], Vec::new()),
            // What needs a second register is put where two of them have room.
            Way::Pointer(bytes) if bytes > REGISTER => (vec![format!("ptr to {REGISTERS}")], Vec::new()),
            Way::Pointer(bytes) => (vec![format!("ptr to {bytes}")], Vec::new()),
            Way::Slice => (vec!["slice".to_string()], Vec::new()),
        };
        for parameter in &known.parameters {
            match self.way(&parameter.kind) {
                Way::Number(word) => handed.push(word.to_string()),
                Way::Scalars(found, bytes) => handed.extend(all(&found, bytes)),
                Way::Pointer(bytes) => handed.push(format!("ptr to {bytes}")),
                Way::Slice => handed.extend(all(&[("ptr", 0), ("i64", LENGTH_PLACE)], SLICE_BYTES)),
            }
        }
        (handed, kept)
    }

    /// An export's thunk for the kit's own machine shows where the numbers of a struct are, how large structs are, and how
    /// slices are handed on.
    fn refuse_thunk(&self, known: &Function, thunk: &[&str]) -> Result<(), String> {
        let name = &known.name;
        let thunk = Thunk { lines: thunk, inner: &self.exports[name.as_str()] };
        let told = (thunk.handed().unwrap_or_default(), thunk.kept());
        if told != self.told(known) {
            let text = |(handed, kept): &(Vec<String>, Vec<String>)| {
                format!("[{}] for [{}]", handed.join(", "), kept.join(", "))
            };
            return Err(format!("has {name} with {}, and not with {}", text(&told), text(&self.told(known))));
        }
        let slices = known.parameters.iter().filter(|parameter| matches!(parameter.kind, Type::Slice(..))).count();
        let lent = thunk.lines.iter().filter(|line| is_null_test(line)).count();
        let moved = thunk.lines.iter().filter(|line| line.ends_with(&format!(", {NOT_NULL}"))).count();
        if (lent, moved) != (slices, slices) {
            let found = format!("of which {lent} are asked for null and {moved} moved from there");
            return Err(format!("has {name} with {slices} slices, {found}"));
        }
        Ok(())
    }

    /// The function that the shim calls: it takes what C hands over on every machine, and calls the inner function.
    fn by_pointers(&self, name: &str, known: &Function) -> String {
        let (mut takes, mut given, mut body) = (Vec::new(), Vec::new(), String::new());
        for (place, parameter) in known.parameters.iter().enumerate() {
            let own = format!("%a{place}");
            match self.way(&parameter.kind) {
                Way::Number(word) => {
                    takes.push(format!("{word} {}{own}", extended(word)));
                    given.push(format!("{word} {own}"));
                }
                Way::Pointer(_) => {
                    takes.push(format!("ptr {own}"));
                    given.push(format!("ptr {own}"));
                }
                Way::Scalars(found, _) => {
                    takes.push(format!("ptr {own}"));
                    for scalar in &found {
                        given.push(loaded(&mut body, &own, scalar));
                    }
                }
                Way::Slice => {
                    takes.push(format!("ptr {own}"));
                    let first = loaded(&mut body, &own, &("ptr", 0));
                    given.push(not_null(&mut body, &first));
                    given.push(loaded(&mut body, &own, &("i64", LENGTH_PLACE)));
                }
            }
        }
        let called = format!("@\"{name}\"(");
        let answer = match self.way(&known.answer) {
            Way::Number(word) => {
                let _ = writeln!(body, "  %answer = call {word} {called}{})\n  ret {word} %answer", given.join(", "));
                format!("{}{word}", extended(word))
            }
            Way::Scalars(found, _) => {
                let all = together(&found);
                let _ = writeln!(body, "  %answer = call {all} {called}{})", given.join(", "));
                for (at, scalar) in found.iter().enumerate() {
                    stored(&mut body, &all, (found.len() > 1).then_some(at), scalar);
                }
                takes.insert(0, "ptr %to".to_string());
                body.push_str("  ret void\n");
                "void".to_string()
            }
            Way::Pointer(_) | Way::Slice => {
                takes.insert(0, "ptr %to".to_string());
                given.insert(0, "ptr %to".to_string());
                let _ = writeln!(body, "  call void {called}{})\n  ret void", given.join(", "));
                "void".to_string()
            }
        };
        let (name, takes) = (by_pointers(name), takes.join(", "));
        format!("\ndefine hidden {answer} @\"{name}\"({takes}) nounwind {{\nstart:\n{body}}}\n")
    }

    /// The line that begins a function, of which those up to the function's end are handed over too. Counts the inner
    /// functions.
    fn definition(&self, lines: &[&str], found: &mut BTreeMap<&'a str, usize>) -> Result<(), String> {
        let (name, words) = defined(lines[0]).ok_or("defines a function in an unknown manner")?;
        if let Some(known) = self.inner.get(&name) {
            let expected = self.words(known);
            if words != expected {
                return Err(format!("has {name} with {words}, and not with {expected}"));
            }
            *found.entry(&known.name).or_default() += 1;
        } else if !lines[0].starts_with("define internal ") {
            let inner = self.exports.get(name.as_str()).ok_or(format!("exports {name}, which the header has not"))?;
            self.refuse_thunk(self.inner[inner], lines)?;
        }
        Ok(())
    }

    /// There is one inner function for each export.
    fn refuse_counts(&self, found: &BTreeMap<&str, usize>) -> Result<(), String> {
        for (name, known) in &self.inner {
            let count = found.get(known.name.as_str()).copied().unwrap_or(0);
            if count != 1 {
                return Err(format!("the module has {count} functions {name} for the export {}, and not one", known.name));
            }
        }
        Ok(())
    }
}

/// The answer of a function that answers the numbers of a small struct.
fn together(found: &[Scalar]) -> String {
    let words: Vec<&str> = found.iter().map(|(word, _)| *word).collect();
    match words.as_slice() {
        [one] => one.to_string(),
        _ => format!("{{ {} }}", words.join(", ")),
    }
}

/// A multiple of what a number's place is.
fn aligned(word: &str) -> &'static str {
    match word {
        "i8" => "1",
        "i16" => "2",
        "i32" => "4",
        _ => "8",
    }
}

/// Loads a number from its place after a pointer, and says how it is handed on.
fn loaded(body: &mut String, from: &str, (word, place): &Scalar) -> String {
    let _ = writeln!(body, "  {from}.at.{place} = getelementptr i8, ptr {from}, i64 {place}");
    let _ = writeln!(body, "  {from}.{place} = load {word}, ptr {from}.at.{place}, align {}", aligned(word));
    format!("{word} {from}.{place}")
}

/// Makes a pointer that is not null of one that may be, and says how it is handed on.
fn not_null(body: &mut String, handed: &str) -> String {
    let own = handed.trim_start_matches("ptr ");
    let _ = writeln!(body, "  {own}.null = icmp eq ptr {own}, null");
    let _ = writeln!(body, "  {own}.one = zext i1 {own}.null to i64");
    let _ = writeln!(body, "  {own}.more = mul i64 {own}.one, {NOT_NULL}");
    let _ = writeln!(body, "  {own}.kept = getelementptr i8, ptr {own}, i64 {own}.more");
    format!("ptr {own}.kept")
}

/// Stores a number of the answer, which is that number or has it at a place of its own, where the answer is to be.
fn stored(body: &mut String, all: &str, at: Option<usize>, (word, place): &Scalar) {
    let mut value = "%answer".to_string();
    if let Some(at) = at {
        value = format!("%answer.{place}");
        let _ = writeln!(body, "  {value} = extractvalue {all} %answer, {at}");
    }
    let _ = writeln!(body, "  %to.{place} = getelementptr i8, ptr %to, i64 {place}");
    let _ = writeln!(body, "  store {word} {value}, ptr %to.{place}, align {}", aligned(word));
}

/// An export's thunk for the kit's own machine: its lines, and the function that it calls.
struct Thunk<'a> {
    lines: &'a [&'a str],
    inner: &'a str,
}

impl Thunk<'_> {
    /// What a name stands for in the thunk.
    fn made(&self, name: &str) -> Option<&str> {
        self.lines.iter().find_map(|line| line.trim().strip_prefix(name)?.strip_prefix(" = "))
    }

    /// The bytes that the thunk has for itself under a name.
    fn own(&self, name: &str) -> Option<&str> {
        self.made(name)?.strip_prefix("alloca [")?.split(' ').next()
    }

    /// Where a pointer leads in memory of the thunk's own: `8 of 16`.
    fn place(&self, name: &str) -> Option<String> {
        if let Some(bytes) = self.own(name) {
            return Some(format!("0 of {bytes}"));
        }
        let (of, place) = self.made(name)?.strip_prefix("getelementptr i8, ptr ")?.split_once(", i64 ")?;
        Some(format!("{place} of {}", self.own(of)?))
    }

    /// What is handed to the inner function: a number or a pointer as it came, a pointer to so many bytes, or what is at a
    /// place in memory of the thunk's own.
    fn handed(&self) -> Option<Vec<String>> {
        let call = self.call()?;
        let (_, rest) = call.split_once(&format!("@\"{}\"(", self.inner))?;
        let (arguments, _) = rest.rsplit_once(')')?;
        let arguments = arguments.split(", ").filter(|argument| !argument.is_empty());
        arguments.map(|argument| argument.split_once(' ').and_then(|(word, name)| self.argument(word, name))).collect()
    }

    fn argument(&self, word: &str, name: &str) -> Option<String> {
        if name.starts_with("%a") {
            let (parameters, _) = self.lines[0].rsplit_once(") ")?;
            let parameter = parameters.split(", ").find(|parameter| parameter.ends_with(&format!(" {name}")))?;
            let bytes = parameter.split_once("byval([").and_then(|(_, rest)| rest.split(' ').next());
            return Some(bytes.map_or(word.to_string(), |bytes| format!("{word} to {bytes}")));
        }
        if let Some(bytes) = self.own(name) {
            return Some(format!("{word} to {bytes}"));
        }
        let (loaded, from) = self.made(name)?.strip_prefix("load ")?.split_once(", ptr ")?;
        let from = from.split(',').next()?;
        (loaded == word).then_some(format!("{word} at {}", self.place(from)?))
    }

    fn call(&self) -> Option<&str> {
        self.lines.iter().find(|line| line.contains(&format!("@\"{}\"(", self.inner))).copied()
    }

    /// Where the numbers of the inner function's answer are put in memory of the thunk's own.
    fn kept(&self) -> Vec<String> {
        let after = self.lines.iter().skip_while(|line| self.call() != Some(line)).skip(1);
        let stored = after.filter_map(|line| line.trim().strip_prefix("store ")).filter_map(|stored| {
            let (value, to) = stored.split_once(", ptr ")?;
            let (word, _) = value.split_once(' ')?;
            Some(format!("{word} at {}", self.place(to.split(',').next()?)?))
        });
        stored.collect()
    }
}

/// The name of the function that a line defines, and what it answers and takes.
fn defined(line: &str) -> Option<(String, String)> {
    let rest = line.strip_prefix("define ")?;
    let (before, rest) = rest.split_once('@')?;
    let (name, rest) = match rest.strip_prefix('"') {
        Some(rest) => rest.split_once('"')?,
        None => rest.split_at(rest.find('(')?),
    };
    let (parameters, _) = rest.strip_prefix('(')?.rsplit_once(") ")?;
    let before = before.trim_end();
    let answer = match before.ends_with('}') {
        true => &before[before.find('{')?..],
        false => before.split_whitespace().last()?,
    };
    let kinds = parameters.split(", ").filter_map(|parameter| parameter.split_whitespace().next());
    let words: Vec<&str> = [answer].into_iter().chain(kinds).collect();
    Some((name.to_string(), words.join(" ")))
}

/// Whether a line of a thunk asks whether a pointer that it was given is null.
fn is_null_test(line: &str) -> bool {
    line.split_once(" = icmp eq ptr %a").is_some_and(|(_, rest)| rest.ends_with(", null"))
}

/// What of a line inside or outside of a function is not as a module for other machines must be.
fn strange(line: &str) -> Option<&'static str> {
    let code = line.split(" ;").next().unwrap_or(line);
    let size_is_constant = |call: &str| {
        let size = call.split(", i64 ").nth(1).unwrap_or("");
        size.starts_with(|first: char| first.is_ascii_digit())
    };
    match code {
        _ if code.contains("inttoptr") => Some("makes a pointer of a number"),
        _ if code.contains("ptrtoint") => Some("makes a number of a pointer"),
        _ if code.contains("icmp") && code.contains(" ptr ") => Some("compares pointers"),
        _ if code.starts_with("target datalayout ") && !code.contains("= \"e-") => Some("has the lowest byte of a number last"),
        _ if code.starts_with("target datalayout ") && !code.contains("-i64:64") => Some("places numbers of 64 bits otherwise"),
        _ if code.starts_with('@') && !code.contains(TABLE) => Some("declares memory of the library's own"),
        _ if code.contains(" asm ") => Some("has a machine's own instructions"),
        _ if code.starts_with("declare ") && !code.contains("@llvm.") => Some("needs a function from outside"),
        _ if code.contains("call void @llvm.mem") && !size_is_constant(code) => Some("moves a number of bytes that is no constant"),
        _ => None,
    }
}

/// A line of attributes without those of the kit's own machine.
fn without_machine(line: &str) -> Result<String, String> {
    let line = MACHINE.iter().fold(line.to_string(), |line, attribute| line.replace(attribute, ""));
    match line.contains('"') {
        true => Err(format!("has attributes of a machine that are not known: {line}")),
        false => Ok(line),
    }
}

/// The module's text with a function for the shim beside each export, or what is not as it should be.
pub fn visible(library: &Library, text: &str) -> Result<String, String> {
    let expected = Expected::of(library);
    let lines: Vec<&str> = text.lines().collect();
    let mut found = BTreeMap::new();
    let mut written = String::new();
    let mut is_thunk = false;
    for (place, line) in lines.iter().enumerate() {
        let fault = |told: String| format!("line {} of the module {told}", place + 1);
        if line.starts_with("define ") {
            is_thunk = !line.starts_with("define internal ");
            let end = lines[place..].iter().position(|line| *line == "}").unwrap_or(0);
            expected.definition(&lines[place..=place + end], &mut found).map_err(fault)?;
        }
        if let Some(told) = strange(line).filter(|_| !(is_thunk && is_null_test(line))) {
            return Err(fault(told.to_string()));
        }
        let line = match line.starts_with("attributes ") {
            true => without_machine(line).map_err(fault)?,
            false => line.to_string(),
        };
        written.push_str(&line);
        written.push('\n');
    }
    expected.refuse_counts(&found)?;
    for (name, known) in &expected.inner {
        written.push_str(&expected.by_pointers(name, known));
    }
    Ok(written)
}
