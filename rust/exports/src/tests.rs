//! Small trees of crates, each written to a folder of its own, and what is made of them: the parts of a header, or the
//! sentence that says why there is none.

use crate::library::{self, Library};
use crate::source::Type;
use crate::{c, rust, tree, written};
use std::path::{Path, PathBuf};
use std::sync::atomic::{AtomicUsize, Ordering};
use std::{env, fs, process};

static FOLDERS: AtomicUsize = AtomicUsize::new(0);

/// A folder with the files of a tree, which goes when the test is over.
struct Folder {
    root: PathBuf,
}

impl Folder {
    /// The crates in the order of crates.txt, of which `host` is a static library, and each file by its path below `crates`.
    fn new(crates: &str, files: &[(&str, &str)]) -> Folder {
        let number = FOLDERS.fetch_add(1, Ordering::Relaxed);
        let root = env::temp_dir().join(format!("mortisevane-exports-{}-{number}", process::id()));
        // Of an earlier run that was cut short nothing may be left.
        let _ = fs::remove_dir_all(&root);
        let folder = Folder { root };
        let kind = |name: &str| if name == "host" { " staticlib" } else { "" };
        let names: String = crates.split(' ').map(|name| format!("{name}{}:\n", kind(name))).collect();
        folder.write("crates.txt", &names);
        for (path, text) in files {
            folder.write(&format!("crates/{path}"), text);
        }
        folder
    }

    fn write(&self, path: &str, text: &str) {
        let path = self.root.join(path);
        fs::create_dir_all(path.parent().unwrap()).unwrap();
        fs::write(path, text).unwrap();
    }
}

impl Drop for Folder {
    fn drop(&mut self) {
        let _ = fs::remove_dir_all(&self.root);
    }
}

/// The library of a tree that has none of the real one's constants.
fn library_of(root: &Path) -> Result<Library, String> {
    let parts = library::parts(&tree::read(root)?)?;
    Ok(Library { groups: Vec::new(), sentences: Vec::new(), sizes: Vec::new(), parts })
}

pub fn read(crates: &str, files: &[(&str, &str)]) -> Result<Library, String> {
    library_of(&Folder::new(crates, files).root)
}

/// Why a tree is refused.
fn fault(crates: &str, files: &[(&str, &str)]) -> String {
    read(crates, files).err().expect("the tree is refused")
}

/// An exported function with all that its comment has to say.
pub fn export(signature: &str) -> String {
    let comment = "// Does it.\n// Takes something.\n// Answers something.\n// Refuses nothing.\n";
    format!("\n{comment}#[unsafe(no_mangle)]\npub extern \"C\" fn {signature}\n    ensures {{ .. }}\n{{\n}}\n")
}

/// The text of a module of `host`: its head, its `use` lines, and one export.
fn module(head: &str, uses: &str, signature: &str) -> String {
    format!("// {head}\n{uses}{}", export(signature))
}

const CHAIN: &str = "\n// A chain.\n#[repr(C)]\npub struct Chain {\n    pub sum: u32,\n}\n";
const CHAINS: &str = "\n// All chains.\n#[repr(C)]\npub struct Chains {\n    pub slots: [Chain; SLOTS],\n}\n";

#[test]
fn the_host_has_a_part_for_each_module_in_their_order() {
    let addresses = module("Addresses.", "", "mortisevane_address(word: u32) -> u32");
    let capcodes = module("Capcodes.", "", "mortisevane_capcode(word: u32) -> u32");
    let files = [
        ("host/src/lib.rt", "// All exports.\nmod capcodes;\npub mod helpers;\npub(crate) mod addresses;\n"),
        ("host/src/addresses.rt", &addresses),
        ("host/src/capcodes.rt", &capcodes),
        ("host/src/helpers.rt", "// No export.\npub fn helped() -> u32 {\n    1\n}\n"),
    ];
    let library = read("host", &files).unwrap();
    let parts: Vec<(String, &str)> =
        library.parts.iter().map(|part| (part.about.join(" "), &part.functions[0].name[..])).collect();
    let expected = [("Capcodes.", "mortisevane_capcode"), ("Addresses.", "mortisevane_address")];
    assert_eq!(parts, expected.map(|(about, name)| (about.to_string(), name)));
    let header = c::header(&library);
    let at = |text: &str| header.find(text).expect(text);
    assert!(at("/* Capcodes. */") < at("uint32_t mortisevane_capcode(uint32_t word);"));
    assert!(at("uint32_t mortisevane_capcode(uint32_t word);") < at("/* Addresses. */"));
    assert!(at("/* Addresses. */") < at("uint32_t mortisevane_address(uint32_t word);"));
    assert!(!header.contains("All exports.") && !header.contains("No export."));
}

#[test]
fn the_root_of_the_host_can_be_a_part_too() {
    let root = format!("{}mod calls;\n", module("The root.", "", "mortisevane_root(word: u32) -> u32"));
    let calls = module("Calls.", "", "mortisevane_call(word: u32) -> u32");
    let files = [("host/src/lib.rt", &root[..]), ("host/src/calls.rt", &calls)];
    let library = read("host", &files).unwrap();
    let abouts: Vec<&str> = library.parts.iter().map(|part| &part.about[0][..]).collect();
    assert_eq!(abouts, ["The root.", "Calls."]);
}

#[test]
fn a_module_below_another_stands_in_its_folder() {
    let calls = format!("{}mod ends;\n\npub struct Hidden;\n", module("Calls.", "", "mortisevane_call() -> u32"));
    let uses = "use self::last::Last;\nuse super::Hidden;\nuse super::super::sums;\nmod last;\n";
    let ends = module("Ends.", uses, "mortisevane_end(last: Last) -> u32");
    let last = CHAIN.replace("Chain", "Last");
    let sums = module("Sums.", "", "mortisevane_sum() -> u32");
    let files = [
        ("host/src/lib.rt", "// All.\nmod calls;\nmod sums;\n"),
        ("host/src/calls.rt", &calls),
        ("host/src/calls/ends.rt", &ends),
        ("host/src/calls/ends/last.rt", &last),
        ("host/src/sums.rt", &sums),
    ];
    let library = read("host", &files).unwrap();
    let abouts: Vec<&str> = library.parts.iter().map(|part| &part.about[0][..]).collect();
    assert_eq!(abouts, ["Calls.", "Ends.", "Sums."]);
    assert_eq!(library.parts[1].structs[0].name, "Last");
}

#[test]
fn names_are_found_within_a_crate() {
    let chains = module(
        "Chains.",
        "ghost use Rattle.nowhere.specs.{nothing};\nuse crate::Chain;\nuse crate::records::Chains;\nuse super::records;\n",
        "mortisevane_chains(chain: Chain) -> Chains",
    );
    let lib = format!("// All.\nmod chains;\nmod records;\nmod sizes;\n\npub use sizes::SLOTS;\n{CHAIN}");
    let records = format!("// Records.\nuse crate::SLOTS;\nuse super::Chain;\n{CHAINS}");
    let files = [
        ("host/src/lib.rt", &lib[..]),
        ("host/src/chains.rt", &chains),
        ("host/src/records.rt", &records),
        ("host/src/sizes.rt", "// Sizes.\npub const SLOTS: usize = 8;\n"),
    ];
    let library = read("host", &files).unwrap();
    let names: Vec<&str> = library.parts[0].structs.iter().map(|known| &known.name[..]).collect();
    assert_eq!(names, ["Chain", "Chains"]);
    assert_eq!(library.parts[0].structs[1].fields[0].kind, Type::Array("Chain".into(), "8".into()));
}

#[test]
fn names_are_found_through_what_another_crate_passes_on() {
    let chains = module(
        "Chains.",
        "use bytes::find;\nuse chain::Chains as All;\nuse chain::step;\nuse libc::PATH_MAX;\n",
        "mortisevane_chains(row: &mut [All]) -> All",
    );
    let chain = "// Chains.\nmod joining;\nmod records;\n\npub use joining::step;\npub use records::Chains;\n";
    let records = format!("// Records.\nuse sizes::SLOTS;\n{CHAIN}{CHAINS}");
    let files = [
        ("host/src/lib.rt", "// All.\nmod chains;\n"),
        ("host/src/chains.rt", &chains),
        ("chain/src/lib.rt", chain),
        ("chain/src/joining.rt", "// Joining.\npub fn step() -> u32 {\n    1\n}\n"),
        ("chain/src/records.rt", &records),
        ("sizes/src/lib.rt", "// Sizes.\nmod all;\n\npub use all::SLOTS;\n"),
        ("sizes/src/all.rt", "// Those.\npub const SLOTS: usize = 0x0A;\n"),
    ];
    let library = read("sizes chain host", &files).unwrap();
    let header = c::header(&library);
    assert!(header.contains("struct mortisevane_chains {\n    struct mortisevane_chain slots[10];\n};\n"), "{header}");
    // A struct has its own name, whatever a file calls it.
    let declared = "struct mortisevane_chains mortisevane_chains(struct mortisevane_chains *row, size_t row_length);";
    assert!(header.contains(declared), "{header}");
    let declarations = rust::declarations(&library);
    assert!(declarations.contains("pub struct Chains {\n    pub slots: [Chain; 10],\n}\n"), "{declarations}");
}

#[test]
fn the_constants_of_a_caller_are_found_in_every_file_of_their_crate() {
    let lib =
        "// Packets.\nmod numbers;\nmod kinds;\n\npub const MOST: usize = 5;\n\npub const ALL: usize = 2 * MOST;\n";
    let numbers = "// Numbers.\nimpl Packet {\n    pub const LEAST: usize = 9;\n}\n\npub const MOST: usize = 6;\n\n\
        pub const LEAST: usize = 2;\n\nconst ALL: usize = 1;\n\nimpl Vector {\n            Vector::Short => 3,\n}\n";
    let kinds = "// Kinds.\npub enum Vector {\n    // A short one.\n    Short,\n}\n";
    let files = [("packet/src/lib.rt", lib), ("packet/src/numbers.rt", numbers), ("packet/src/kinds.rt", kinds)];
    let folder = Folder::new("packet", &files);
    let tree = tree::read(&folder.root).unwrap();
    assert_eq!(library::limit(&tree, "packet", "MOST"), Ok(5));
    assert_eq!(library::limit(&tree, "packet", "LEAST"), Ok(2));
    let group = library::group(&tree, "packet", "Vector").unwrap();
    assert_eq!(group.len(), 1);
    assert_eq!((&group[0].name[..], group[0].value, &group[0].comment[0][..]), ("Short", 3, "A short one."));
    let refused = |told: Result<u64, String>| told.unwrap_err();
    assert_eq!(refused(library::limit(&tree, "packet", "NONE")), "no file of the crate packet declares NONE");
    let formula = "crates/packet/src/lib.rt: ALL is no constant with a plain number";
    assert_eq!(refused(library::limit(&tree, "packet", "ALL")), formula);
    assert_eq!(refused(library::limit(&tree, "vector", "MOST")), "crates.txt has no crate vector");
    assert_eq!(
        library::group(&tree, "packet", "Instruction").unwrap_err(),
        "no file of the crate packet gives Instruction numbers"
    );
}

#[test]
fn a_variant_with_two_numbers_is_refused() {
    let numbers = "// Numbers.\nimpl Vector {\n            Vector::Short => 3,\n}\n";
    let files = [("packet/src/lib.rt", "// All.\nmod a;\nmod b;\n"), ("packet/src/a.rt", numbers)];
    let folder = Folder::new("packet", &[&files[..], &[("packet/src/b.rt", numbers)]].concat());
    let tree = tree::read(&folder.root).unwrap();
    let told = library::group(&tree, "packet", "Vector").unwrap_err();
    assert_eq!(told, "the crate packet gives Vector::Short two numbers");
}

const REFUSALS: &str = "// Refusals.\nmod sentences;\n\npub enum Refusal {\n    Room,\n    State,\n}\n\n\
    impl Refusal {\n            Refusal::Room => 1,\n            Refusal::State => 2,\n}\n";

/// The sentences of a table whose lines in the source these are.
fn sentences_of(table: &str) -> Result<Vec<String>, String> {
    let table = format!("// Sentences.\nconst SENTENCES: [&str; 5] = [\n{table}];\n\nfn after() {{\n}}\n");
    sentences_beside(&[("refusal/src/lib.rt", REFUSALS), ("refusal/src/sentences.rt", &table)])
}

fn sentences_beside(files: &[(&str, &str)]) -> Result<Vec<String>, String> {
    let folder = Folder::new("refusal", files);
    let tree = tree::read(&folder.root).unwrap();
    library::sentences(&tree, &library::group(&tree, "refusal", "Refusal").unwrap())
}

#[test]
fn a_refusal_has_its_sentence_at_the_place_of_its_number() {
    let table = "    \"\",\n    \"the text's room is too short\",\n    \"use no // such state\",\n    \"\",\n    \"write \",\n";
    let sentences = sentences_of(table).unwrap();
    assert_eq!(sentences, ["", "the text's room is too short", "use no // such state"]);
    let part = module("Sums.", "", "mortisevane_sum(word: u32) -> u32");
    let library = Library { sentences, ..read("host", &[("host/src/lib.rt", &part)]).unwrap() };
    let rows = "    \"\",\n    \"the text's room is too short\",\n    \"use no // such state\",\n";
    let expected = format!("pub const SENTENCES: [&str; 3] = [\n{rows}];\n");
    assert!(rust::declarations(&library).contains(&expected), "{}", rust::declarations(&library));
    assert!(!c::header(&library).contains("room is too short"));
}

#[test]
fn a_table_that_does_not_tell_each_refusal_is_refused() {
    let path = "crates/refusal/src/sentences.rt";
    let missing = format!("{path}: there is no table SENTENCES of the sentences for people");
    let without = REFUSALS.replace("mod sentences;\n", "");
    assert_eq!(sentences_beside(&[("refusal/src/lib.rt", &without)]), Err(missing.clone()));
    let number = "// Sentences.\nconst SENTENCES: u32 = 5;\n";
    let files = [("refusal/src/lib.rt", REFUSALS), ("refusal/src/sentences.rt", number)];
    assert_eq!(sentences_beside(&files), Err(missing));
    let silent = Err(format!("{path}: refusal 2, State, has no sentence in SENTENCES"));
    assert_eq!(sentences_of("\"\",\n\"too short\",\n"), silent);
    assert_eq!(sentences_of("\"\",\n\"too short\",\n\"\",\n\"write\",\n"), silent);
}

#[test]
fn a_row_that_is_not_plain_text_is_refused() {
    let rows = ["a \\x41", "a \\\"word\\\"", "a\ttab", "no caf\u{e9}", " a blank before it", "two\\nrows"];
    for row in rows.map(|row| format!("\"{row}\",")).iter().map(String::as_str).chain(["\"no end", "no text,"]) {
        let told = sentences_of(&format!("\"\",\n\"too short\",\n{row}\n\"no state\",\n")).unwrap_err();
        assert_eq!(told, format!("crates/refusal/src/sentences.rt: row 2 of SENTENCES is not plain text: {row}"));
    }
}

#[test]
fn a_library_without_exports_is_refused() {
    let files = [("host/src/lib.rt", "// All.\nmod sums;\n"), ("host/src/sums.rt", "// Sums.\nfn sum() {\n}\n")];
    let folder = Folder::new("host", &files);
    let told = "the library has no exported function: there is none in crates/host/src/lib.rt, crates/host/src/sums.rt";
    assert_eq!(written("header", &folder.root).unwrap_err(), told);
    assert_eq!(written("rust", &folder.root).unwrap_err(), told);
    let told = fault("chain", &[("chain/src/lib.rt", "// Chains.\n")]);
    assert_eq!(told, "crates.txt has no crate host");
}

#[test]
fn a_crate_or_module_without_a_file_is_refused() {
    let told = fault("host", &[("host/src/lib.rt", "// All.\nmod pages;\n")]);
    assert_eq!(told, "crates/host/src/lib.rt: `mod pages;` has no file crates/host/src/pages.rt");
    let told = fault("host", &[("host/src/lib.rt", "// All.\npub mod pages {\n}\n")]);
    assert_eq!(told, "crates/host/src/lib.rt: the module pages has no file of its own");
    let told = fault("host page", &[("host/src/lib.rt", "// All.\n")]);
    let neither = "neither crates/page/src/lib.rt nor crates/page/src/main.rt";
    assert_eq!(told, format!("the crate page of crates.txt has {neither}"));
}

/// Why a host with a `use` line is refused, beside a crate `chain` that has the module `joining`.
fn fault_of_use(line: &str) -> String {
    let part = module("Chains.", &format!("{line}\n"), "mortisevane_chain(word: u32) -> u32");
    let files = [
        ("host/src/lib.rt", "// All.\nmod chains;\n"),
        ("host/src/chains.rt", &part),
        ("chain/src/lib.rt", "// Chains.\nmod joining;\n\nuse joining::held;\npub use joining::lost;\n"),
        ("chain/src/joining.rt", "// Joining.\npub fn step() {\n}\n\npub fn held() {\n}\n"),
    ];
    fault("chain host", &files)
}

#[test]
fn a_use_line_of_the_host_that_leads_nowhere_is_refused() {
    let told = |line: &str, why: &str| {
        assert_eq!(fault_of_use(&format!("use {line};")), format!("crates/host/src/chains.rt: `use {line}` {why}"));
    };
    let lib = "crates/chain/src/lib.rt neither has nor passes on by `pub use`";
    told("slots::Chain", "names slots, which is neither in crates.txt nor a library of the kit");
    told("chain::finding::found", &format!("names finding, which {lib}"));
    told("chain::step", &format!("names step, which {lib}"));
    told("chain::held", &format!("names held, which {lib}"));
    told("chain::*", &format!("names *, which {lib}"));
    told("chain::joining::step::far", "takes step of crates/chain/src/joining.rt for a module");
    let host = "crates/host/src/lib.rt neither has nor passes on by `pub use`";
    told("crate::Chain", &format!("names Chain, which {host}"));
    told("super::finding::found", &format!("names finding, which {host}"));
    told("super::super::Chain", "leads out of the crate");
    // The line that passes on what is not there is the one at fault.
    let joining = "crates/chain/src/joining.rt neither has nor passes on by `pub use`";
    let expected = format!("crates/chain/src/lib.rt: `use joining::lost` names lost, which {joining}");
    assert_eq!(fault_of_use("use chain::lost;"), expected);
}

#[test]
fn a_use_line_may_name_any_item() {
    let items = "pub struct Pair(u32, u32);\n\npub(crate) enum Kind {\n    One,\n}\n\ntype Word = u32;\n\n\
        pub const ROWS: [u32; 2] = [\n    1, 2,\n];\n\nfn step() {\n}\n\npub const fn far() {\n}\n";
    for name in ["Pair", "Kind", "Word", "ROWS", "step", "far"] {
        let part = module("Chains.", &format!("use chain::{name};\n"), "mortisevane_chain() -> u32");
        let with = |items: &str| read("chain host", &[("host/src/lib.rt", &part), ("chain/src/lib.rt", items)]);
        assert_eq!(with(items).map(|library| library.parts.len()), Ok(1));
        let path = "crates/chain/src/lib.rt neither has nor passes on by `pub use`";
        let expected = format!("crates/host/src/lib.rt: `use chain::{name}` names {name}, which {path}");
        assert_eq!(with(&items.replace(name, "Other")).err(), Some(expected));
    }
}

#[test]
fn a_use_line_beside_a_struct_that_crosses_is_held_to_the_same() {
    let part = module("Chains.", "use chain::Chain;\n", "mortisevane_chain(chain: Chain) -> u32");
    let lib = format!("// Chains.\nuse slots::BLANK;\n{CHAIN}");
    let told = fault("chain host", &[("host/src/lib.rt", &part), ("chain/src/lib.rt", &lib)]);
    let why = "names slots, which is neither in crates.txt nor a library of the kit";
    assert_eq!(told, format!("crates/chain/src/lib.rt: `use slots::BLANK` {why}"));
    // What never crosses is the prover's alone to judge.
    let lib = lib.replace("#[repr(C)]\n", "").replace("Chain {", "Link {");
    let part = part.replace("use chain::Chain;\n", "").replace("chain: Chain", "chain: u32");
    let library = read("chain host", &[("host/src/lib.rt", &part), ("chain/src/lib.rt", &lib)]).unwrap();
    assert_eq!(library.parts[0].functions[0].name, "mortisevane_chain");
}

#[test]
fn a_name_that_goes_round_in_a_circle_is_refused() {
    let part = module("Chains.", "use chain::Chain;\n", "mortisevane_chain(chain: Chain) -> u32");
    let files = [
        ("host/src/lib.rt", &part[..]),
        ("chain/src/lib.rt", "// Chains.\npub use slots::Chain;\n"),
        ("slots/src/lib.rt", "// Slots.\npub use chain::Chain;\n"),
    ];
    assert!(fault("chain slots host", &files).ends_with("::Chain` goes round in a circle"));
}

#[test]
fn a_name_that_is_no_struct_or_constant_is_refused() {
    let part = module("Chains.", "use chain::Chains;\n", "mortisevane_chains(chains: Chains) -> u32");
    let told = |chain: &str| fault("chain host", &[("host/src/lib.rt", &part), ("chain/src/lib.rt", chain)]);
    let path = "crates/chain/src/lib.rt";
    assert_eq!(told("pub enum Chains {\n    One,\n}\n"), format!("{path}: Chains crosses to C and is no struct"));
    let counted = format!("{CHAIN}{CHAINS}");
    let expected = format!("{path}: SLOTS is used there, but neither declared nor imported");
    assert_eq!(told(&counted), expected);
    let expected = format!("{path}: SLOTS counts an array and is no constant with a plain number");
    assert_eq!(told(&format!("pub const SLOTS: usize = 2 * 4;\n{counted}")), expected);
    let expected = format!("{path}: SLOTS counts an array and is no constant of a crate's");
    assert_eq!(told(&format!("use libc::SLOTS;\n{counted}")), expected);
    let expected = format!("{path}: Chain is used there, but neither declared nor imported");
    assert_eq!(told(CHAINS), expected);
}

#[test]
fn an_export_is_marked_and_public_or_refused() {
    let told = |text: &str| {
        let part = module("Sums.", "", "mortisevane_sum(word: u32) -> u32");
        fault("host", &[("host/src/lib.rt", "// All.\nmod sums;\n"), ("host/src/sums.rt", &format!("{part}{text}"))])
    };
    let path = "crates/host/src/sums.rt";
    let expected = format!("{path}: mortisevane_bare is `pub extern \"C\" fn` without #[unsafe(no_mangle)]");
    assert_eq!(told(&export("mortisevane_bare() -> u32").replace("#[unsafe(no_mangle)]\n", "")), expected);
    let above = |item: &str| format!("{path}: #[unsafe(no_mangle)] stands above `{item}`, which is no `pub extern \"C\" fn`");
    assert_eq!(
        told("#[unsafe(no_mangle)]\npub fn mortisevane_bare() -> u32 {\n}\n"),
        above("pub fn mortisevane_bare() -> u32 {")
    );
    let private = "extern \"C\" fn mortisevane_bare() -> u32 {";
    assert_eq!(told(&format!("#[unsafe(no_mangle)] // kept\n{private}\n}}\n")), above(private));
    assert_eq!(told("\n#[unsafe(no_mangle)]\n"), format!("{path}: #[unsafe(no_mangle)] stands above nothing"));
    let method = "impl Sum {\n    #[unsafe(no_mangle)]\n    pub extern \"C\" fn mortisevane_in() -> u32 {\n    }\n}\n";
    assert_eq!(told(method), format!("{path}: the export mortisevane_in stands within another item"));
}

#[test]
fn an_export_outside_of_the_host_is_refused() {
    let part = module("Sums.", "", "mortisevane_sum(word: u32) -> u32");
    let stray = module("Other sums.", "", "mortisevane_other(word: u32) -> u32");
    let files =
        [("host/src/lib.rt", &part[..]), ("sums/src/lib.rt", "// Sums.\nmod other;\n"), ("sums/src/other.rt", &stray)];
    let why = "mortisevane_other is exported outside of the crate host";
    assert_eq!(fault("sums host", &files), format!("crates/sums/src/other.rt: {why}"));
    let told = fault("hostess host", &[("host/src/lib.rt", &part), ("hostess/src/main.rt", &stray)]);
    assert_eq!(told, format!("crates/hostess/src/main.rt: {why}"));
    // A program may export what is not the library's.
    let own = stray.replace("mortisevane_other", "other");
    let library = read("hostess host", &[("host/src/lib.rt", &part), ("hostess/src/main.rt", &own)]).unwrap();
    assert!(!c::header(&library).contains("Other sums."));
}

#[test]
fn what_was_refused_before_modules_still_is() {
    let whole = module("Chains.", "use chain::Chain;\n", "mortisevane_chain(chain: Chain) -> u32");
    let told = |part: &str, chain: &str| fault("chain host", &[("host/src/lib.rt", part), ("chain/src/lib.rt", chain)]);
    for word in ["Takes ", "Answers ", "Refuses "] {
        let why = format!("the comment of mortisevane_chain has no line that begins with {word}");
        assert_eq!(told(&whole.replace(word, "Has "), CHAIN), format!("crates/host/src/lib.rt: {why}"));
    }
    let unmarked = told(&whole, &CHAIN.replace("#[repr(C)]\n", ""));
    assert_eq!(unmarked, "crates/chain/src/lib.rt: Chain crosses to C without #[repr(C)]");
    let other = CHAIN.replace("struct Chain", "struct MortisevaneChain");
    let twice = format!("{whole}{other}{}", export("mortisevane_other() -> MortisevaneChain"));
    let both = "crates/chain/src/lib.rt and crates/host/src/lib.rt";
    assert_eq!(told(&twice, CHAIN), format!("two structs that cross to C are called Chain, in {both}"));
}
