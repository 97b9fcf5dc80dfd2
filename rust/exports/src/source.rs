//! One Rattle source file, as far as exports go: its `mod` and `use` lines, the names of its items, the structs that
//! cross to C, constants, the numbers of enums, and the exported functions, each with the comment above it; and the lines
//! of a constant that is a text. It is read line by line, which is enough because the tests hold every source to the layout
//! of `rt fmt`.

use std::collections::{BTreeMap, BTreeSet};

/// What stands where a type is written.
#[derive(Clone, Debug, PartialEq)]
pub enum Type {
    /// A number or bool, or the name of a struct.
    Plain(String),
    /// An array: what it is made of, and how many.
    Array(String, String),
    /// A slice: what it is made of, and whether it is lent for writing.
    Slice(String, bool),
}

/// A parameter or a field.
#[derive(Clone, Debug, PartialEq)]
pub struct Named {
    pub name: String,
    pub kind: Type,
}

#[derive(Clone, Debug)]
pub struct Struct {
    pub name: String,
    pub comment: Vec<String>,
    pub fields: Vec<Named>,
    pub crosses: bool,
}

/// A constant of the file, or of the type whose `impl` block it stands in. The numbers that an enum's `match` gives its
/// variants are constants of that enum.
#[derive(Clone, Debug)]
pub struct Constant {
    pub of: Option<String>,
    pub name: String,
    pub comment: Vec<String>,
    pub value: u64,
}

#[derive(Clone, Debug)]
pub struct Function {
    pub name: String,
    pub comment: Vec<String>,
    pub parameters: Vec<Named>,
    pub answer: Type,
}

/// A `use` line: the name that it brings into the file, the path that it names, and whether other crates may take the
/// name from this file in turn.
#[derive(Clone, Debug, PartialEq)]
pub struct Use {
    pub name: String,
    pub path: Vec<String>,
    pub is_public: bool,
}

#[derive(Clone, Debug, Default)]
pub struct Source {
    pub about: Vec<String>,
    /// The modules of the `mod` lines, in their order.
    pub modules: Vec<String>,
    pub uses: Vec<Use>,
    /// The names of all items that the file declares, whether they cross to C or not.
    pub items: BTreeSet<String>,
    pub structs: Vec<Struct>,
    pub constants: Vec<Constant>,
    /// The lines of a constant that is a row of texts, as they are written, by its name.
    pub texts: BTreeMap<String, Vec<String>>,
    pub functions: Vec<Function>,
    /// The comment of an enum's variant, by `Enum::Variant`.
    pub variants: BTreeMap<String, Vec<String>>,
}

/// How the line of an exported function begins, and what stands above it.
const EXPORT: &str = "pub extern \"C\" fn ";
const KEEPS_NAME: &str = "#[unsafe(no_mangle)]";

/// How the first line of a constant ends that is a row of texts, which follow, a line each.
const TEXTS: &str = "] = [";

/// The line that ends such a row.
const TEXTS_END: &str = "];";

/// How the lines of items begin that have a name, without their `pub`.
const ITEMS: [&str; 8] = ["struct ", "enum ", "trait ", "const fn ", "const ", "fn ", "extern \"C\" fn ", "type "];

/// A number as it is written in the source.
pub fn number(text: &str) -> Option<u64> {
    let digits = text.replace('_', "");
    match digits.strip_prefix("0x") {
        Some(digits) => u64::from_str_radix(digits, 16).ok(),
        None => digits.parse().ok(),
    }
}

/// The name at the start of a text.
fn leading_name(text: &str) -> &str {
    let end = text.find(|c: char| !c.is_ascii_alphanumeric() && c != '_');
    &text[..end.unwrap_or(text.len())]
}

/// A line without the comment at its end.
fn without_comment(text: &str) -> &str {
    text.split(" //").next().unwrap_or(text).trim_end()
}

/// Whether other crates see an item, and its text without `pub`, `pub(crate)` and the like.
fn visible(text: &str) -> (bool, &str) {
    if let Some(rest) = text.strip_prefix("pub ") {
        return (true, rest);
    }
    let within = text.strip_prefix("pub(").and_then(|rest| rest.split_once(") "));
    (false, within.map_or(text, |(_, rest)| rest))
}

fn type_of(text: &str) -> Result<Type, String> {
    let plain = |name: &str| -> Result<String, String> {
        let is_name = !name.is_empty() && name.chars().all(|c| c.is_ascii_alphanumeric() || c == '_');
        is_name.then(|| name.to_string()).ok_or(format!("{text} is a type that C does not have"))
    };
    let inside = |open: &str| text.strip_prefix(open).and_then(|rest| rest.strip_suffix(']'));
    if let Some(element) = inside("&mut [") {
        return Ok(Type::Slice(plain(element)?, true));
    }
    if let Some(element) = inside("&[") {
        return Ok(Type::Slice(plain(element)?, false));
    }
    if let Some((element, count)) = inside("[").and_then(|array| array.split_once("; ")) {
        return Ok(Type::Array(plain(element)?, plain(count)?));
    }
    Ok(Type::Plain(plain(text)?))
}

/// `name: type`, perhaps with `pub` before it.
fn named(text: &str) -> Result<Named, String> {
    let (_, text) = visible(text);
    let (name, kind) = text.split_once(": ").ok_or(format!("{text} is neither a field nor a parameter"))?;
    Ok(Named { name: name.to_string(), kind: type_of(kind)? })
}

/// A function's parameters and answer, from its text between `fn` and its contract.
fn signature(text: &str) -> Result<(String, Vec<Named>, Type), String> {
    let fault = || format!("{text} is no signature of an export");
    let (name, rest) = text.split_once('(').ok_or_else(fault)?;
    let (parameters, answer) = rest.rsplit_once(") -> ").ok_or_else(fault)?;
    let parameters: Result<Vec<Named>, String> =
        parameters.split(',').map(str::trim).filter(|word| !word.is_empty()).map(named).collect();
    Ok((name.to_string(), parameters?, type_of(answer.trim())?))
}

/// The lines of a file, gone through once.
struct Reader<'a> {
    lines: std::iter::Peekable<std::str::Lines<'a>>,
    comment: Vec<String>,
    /// Whether `#[repr(C)]` stands above the next item.
    crosses: bool,
    /// Whether `#[unsafe(no_mangle)]` stands above the next item.
    keeps_name: bool,
    of: Option<String>,
    read: Source,
}

impl Reader<'_> {
    fn comment(&mut self) -> Vec<String> {
        std::mem::take(&mut self.comment)
    }

    fn structure(&mut self, name: &str) -> Result<(), String> {
        let comment = self.comment();
        let mut fields = Vec::new();
        for line in self.lines.by_ref().take_while(|line| *line != "}") {
            let field = line.trim().trim_end_matches(',');
            // A struct that stays in Rattle may hold what C does not have.
            if self.crosses {
                fields.push(named(field)?);
            }
        }
        let crosses = std::mem::take(&mut self.crosses);
        self.read.structs.push(Struct { name: name.to_string(), comment, fields, crosses });
        Ok(())
    }

    /// An enum stays in Rattle; what is said of its variants goes with their numbers, which stand beside them or in an arm.
    fn enumeration(&mut self, name: &str) {
        self.comment.clear();
        for line in self.lines.by_ref().take_while(|line| *line != "}") {
            let line = line.trim().trim_end_matches(',');
            if let Some(comment) = line.strip_prefix("//") {
                self.comment.push(comment.trim().to_string());
                continue;
            }
            let (variant, value) = line.split_once(" = ").unwrap_or((line, ""));
            if let Some(value) = number(value) {
                let (of, comment) = (Some(name.to_string()), Vec::new());
                self.read.constants.push(Constant { of, name: variant.to_string(), comment, value });
            }
            self.read.variants.insert(format!("{name}::{variant}"), std::mem::take(&mut self.comment));
        }
    }

    fn function(&mut self, first: &str) -> Result<(), String> {
        let mut text = first.to_string();
        while let Some(line) = self.lines.next_if(|line| !line.trim().starts_with("ensures") && *line != "{") {
            text.push_str(line);
        }
        let comment = self.comment();
        let (name, parameters, answer) = signature(&text)?;
        self.read.functions.push(Function { name, comment, parameters, answer });
        Ok(())
    }

    /// The lines of a row of texts.
    fn texts(&mut self) -> Vec<String> {
        self.lines.by_ref().take_while(|line| *line != TEXTS_END).map(|line| line.trim().to_string()).collect()
    }

    /// `NAME: type = value;`, where the value is a number or a row of texts.
    fn constant(&mut self, text: &str) {
        let comment = self.comment();
        if let Some((name, _)) = text.strip_suffix(TEXTS).and_then(|first| first.split_once(": [&str; ")) {
            let lines = self.texts();
            self.read.texts.insert(name.to_string(), lines);
            return;
        }
        let value = text.split_once(" = ").and_then(|(_, rest)| number(rest.split(';').next()?));
        if let (Some((name, _)), Some(value)) = (text.split_once(':'), value) {
            self.read.constants.push(Constant { of: self.of.clone(), name: name.to_string(), comment, value });
        }
    }

    /// `Enum::Variant => number,` in the enum's own `impl` block.
    fn arm(&mut self, line: &str) {
        let arm = line.strip_suffix(',').and_then(|arm| arm.split_once(" => "));
        let Some((path, value)) = arm.and_then(|(path, value)| Some((path, number(value)?))) else { return };
        if let Some((of, name)) = path.split_once("::").filter(|(of, _)| self.of.as_deref() == Some(of)) {
            let constant = Constant { of: Some(of.to_string()), name: name.to_string(), comment: Vec::new(), value };
            self.read.constants.push(constant);
        }
    }

    /// `path::name;`, perhaps with another name for it, or `path::{name, name};`, perhaps over several lines.
    fn import(&mut self, text: &str, is_public: bool) -> Result<(), String> {
        let mut text = without_comment(text).to_string();
        while !text.ends_with(';') {
            let line = self.lines.next().ok_or(format!("`use {text}` has no end"))?;
            text = format!("{} {}", text, without_comment(line.trim())).trim_end().to_string();
        }
        let fault = || format!("`use {text}` names no item");
        let whole = text.strip_suffix(';').ok_or_else(fault)?;
        let (before, names) = match whole.split_once('{') {
            Some((before, names)) => {
                let names = names.strip_suffix('}').filter(|names| !names.contains('{'));
                (before, names.ok_or_else(fault)?)
            }
            None => ("", whole),
        };
        for name in names.split(',').map(str::trim).filter(|name| !name.is_empty()) {
            let path = format!("{before}{name}");
            let (path, other) = path.split_once(" as ").map_or((&path[..], None), |(path, other)| (path, Some(other)));
            let (_, name) = path.rsplit_once("::").ok_or_else(fault)?;
            let path = path.split("::").map(str::to_string).collect();
            self.read.uses.push(Use { name: other.unwrap_or(name).to_string(), path, is_public });
        }
        Ok(())
    }

    /// `name;`, since only a module with a file of its own is followed.
    fn module(&mut self, text: &str) -> Result<(), String> {
        let name = without_comment(text).strip_suffix(';');
        let name = name.ok_or(format!("the module {} has no file of its own", leading_name(text)))?;
        self.read.modules.push(name.to_string());
        Ok(())
    }

    /// Refuses a function that the archive or the header alone would have: `#[unsafe(no_mangle)]` and `pub extern "C" fn`
    /// stand together, each at the start of its line, or not at all.
    fn paired(&self, line: &str) -> Result<(), String> {
        let text = line.trim();
        match (self.keeps_name, text.strip_prefix(EXPORT).map(leading_name)) {
            (true, None) => Err(format!("{KEEPS_NAME} stands above `{text}`, which is no `{}`", EXPORT.trim_end())),
            (false, Some(name)) => Err(format!("{name} is `{}` without {KEEPS_NAME}", EXPORT.trim_end())),
            (true, Some(name)) if line != text => Err(format!("the export {name} stands within another item")),
            _ => Ok(()),
        }
    }

    /// What stands at the start of a line: an item, or the end of one.
    fn item(&mut self, text: &str) -> Result<(), String> {
        let (is_public, item) = visible(text);
        let name = ITEMS.iter().find_map(|kind| item.strip_prefix(kind)).map(leading_name);
        self.read.items.extend(name.map(str::to_string));
        let block = |kind: &str| item.strip_prefix(kind).and_then(|rest| rest.strip_suffix(" {"));
        if let Some(name) = block("struct ") {
            self.structure(name)?;
        } else if let Some(name) = block("enum ") {
            self.enumeration(name);
        } else if let Some(of) = block("impl ") {
            self.of = Some(of.to_string());
        } else if let Some(first) = text.strip_prefix(EXPORT) {
            self.function(first)?;
        } else if let Some(constant) = item.strip_prefix("const ") {
            self.constant(constant);
        } else if let Some(path) = item.strip_prefix("use ") {
            self.import(path, is_public)?;
        } else if let Some(name) = item.strip_prefix("mod ") {
            self.module(name)?;
        } else if text == "}" {
            self.of = None;
        }
        Ok(())
    }

    /// What stands further in: of that, the constants and the numbers of an `impl` block are read.
    fn inner(&mut self, text: &str) {
        match visible(text).1.strip_prefix("const ") {
            Some(constant) if self.of.is_some() => self.constant(constant),
            _ => self.arm(text),
        }
    }

    fn line(&mut self, line: &str) -> Result<(), String> {
        let text = line.trim();
        if let Some(comment) = text.strip_prefix("//") {
            self.comment.push(comment.trim().to_string());
            return Ok(());
        }
        match without_comment(text) {
            "" => {}
            "#[repr(C)]" => self.crosses = true,
            KEEPS_NAME => self.keeps_name = true,
            other if other.starts_with("#[") => {}
            _ => {
                self.paired(line)?;
                if line == text {
                    self.item(text)?;
                } else {
                    self.inner(text);
                }
                (self.crosses, self.keeps_name) = (false, false);
            }
        }
        if !text.starts_with("#[") {
            self.comment.clear();
        }
        Ok(())
    }
}

/// Reads the text of one file.
pub fn read(text: &str) -> Result<Source, String> {
    let lines = text.lines().peekable();
    let (comment, read) = (Vec::new(), Source::default());
    let mut reader = Reader { lines, comment, crosses: false, keeps_name: false, of: None, read };
    while let Some(line) = reader.lines.next_if(|line| line.starts_with("//")) {
        reader.read.about.push(line.trim_start_matches("//").trim().to_string());
    }
    while let Some(line) = reader.lines.next() {
        reader.line(line)?;
    }
    if reader.keeps_name {
        return Err(format!("{KEEPS_NAME} stands above nothing"));
    }
    Ok(reader.read)
}

#[cfg(test)]
mod tests {
    use super::*;

    const TEXT: &str = "// About it.\nuse calls::Call;\n\n// A place.\n#[repr(C)]\npub struct Place {\n    pub at: [u16; 8],\n}\n\n\
        pub enum Kind {\n    // The other.\n    Other,\n}\n\n\
        impl Kind {\n    // The first.\n    pub const FIRST: u32 = 0x0F;\n\n            Kind::Other => 2,\n}\n\n// Says where.\n// Takes nothing.\n#[unsafe(no_mangle)]\n\
        pub extern \"C\" fn where_is(\n    call: Call,\n    memory: &mut [u32],\n) -> Place\n    ensures { .. }\n{\n}\n";

    #[test]
    fn a_file_is_read_whole() {
        let read = read(TEXT).unwrap();
        assert_eq!(read.about, ["About it."]);
        let path = vec!["calls".to_string(), "Call".to_string()];
        assert_eq!(read.uses, [Use { name: "Call".into(), path, is_public: false }]);
        assert_eq!(read.items.iter().collect::<Vec<_>>(), ["Kind", "Place", "where_is"]);
        assert_eq!(read.structs[0].fields[0].kind, Type::Array("u16".into(), "8".into()));
        assert_eq!(read.structs[0].comment, ["A place."]);
        assert_eq!((read.constants[0].of.as_deref(), read.constants[0].value), (Some("Kind"), 15));
        assert_eq!((&read.constants[1].name[..], read.constants[1].value), ("Other", 2));
        assert_eq!(read.variants["Kind::Other"], ["The other."]);
        assert_eq!(read.functions[0].comment, ["Says where.", "Takes nothing."]);
        assert_eq!(read.functions[0].parameters[1].kind, Type::Slice("u32".into(), true));
        assert_eq!(read.functions[0].answer, Type::Plain("Place".into()));
    }

    #[test]
    fn lines_of_modules_and_of_use_are_read_in_each_form() {
        let text = "mod finding; // finding.rt: where a chain is\npub mod joining;\npub(crate) mod fate;\n\n\
            ghost use Rattle.std.specs.Prelude.{length};\nuse super::Chain as Record;\npub use joining::step;\n\
            pub(crate) use fate::Fate;\nuse calls::{\n    Call, CALLS as MOST,\n    ends::End, // the last\n};\n";
        let read = read(text).unwrap();
        assert_eq!(read.modules, ["finding", "joining", "fate"]);
        let uses: Vec<(&str, String, bool)> =
            read.uses.iter().map(|used| (&used.name[..], used.path.join("::"), used.is_public)).collect();
        let own = |name, path: &str| (name, path.to_string(), false);
        let passed_on = ("step", "joining::step".to_string(), true);
        let first = [own("Record", "super::Chain"), passed_on, own("Fate", "fate::Fate")];
        let grouped = [own("Call", "calls::Call"), own("MOST", "calls::CALLS"), own("End", "calls::ends::End")];
        assert_eq!(uses, [first, grouped].concat());
        assert!(super::read("use calls::{Call, ends::{End}};\n").is_err());
    }

    #[test]
    fn only_what_belongs_to_a_type_is_its_number() {
        let text = "enum Beside {\n    One = 0x10,\n    None,\n}\n\nimpl Kind {\n            Kind::First => 1,\n            Other::First => 2,\n}\n\n\
            fn inside() -> u32 {\n    const WITHIN: u32 = 3;\n            Kind::Second => 4,\n}\n";
        let read = read(text).unwrap();
        let numbers: Vec<(&str, u64)> = read.constants.iter().map(|known| (&known.name[..], known.value)).collect();
        assert_eq!(numbers, [("One", 16), ("First", 1)]);
    }

    #[test]
    fn the_lines_of_a_text_are_no_items() {
        let text = "const TABLE: [&str; 3] = [\n    \"\",\nmod none\n    \"// none\",\n];\n\nconst AFTER: u32 = 5;\n";
        let read = read(text).unwrap();
        assert_eq!(read.texts["TABLE"], ["\"\",", "mod none", "\"// none\","]);
        assert_eq!((read.modules.len(), read.constants.len(), read.constants[0].value), (0, 1, 5));
        assert_eq!(read.items.iter().collect::<Vec<_>>(), ["AFTER", "TABLE"]);
    }

    #[test]
    fn a_struct_that_c_sees_is_marked_right_above_it() {
        let text = "#[repr(C)]\npub struct Pair(u32, u32);\n\npub struct Own {\n    rows: &[u32],\n}\n\n\
            #[repr(C)]\npub struct Seen {\n    pub(crate) at: u32,\n}\n";
        let read = read(text).unwrap();
        let seen: Vec<(&str, bool)> = read.structs.iter().map(|known| (&known.name[..], known.crosses)).collect();
        assert_eq!(seen, [("Own", false), ("Seen", true)]);
        assert_eq!(read.structs[1].fields[0].name, "at");
    }

    #[test]
    fn a_type_that_c_does_not_have_is_told() {
        assert!(type_of("&Call").is_err());
        assert!(type_of("&mut Call").is_err());
    }
}
