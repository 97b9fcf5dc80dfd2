//! That no export is left out: each one that is declared is asked for by the safe modules.

use std::fs;
use std::path::Path;

fn sources() -> Vec<(String, String)> {
    let folder = Path::new(env!("CARGO_MANIFEST_DIR")).join("src");
    let entries = fs::read_dir(folder).expect("the crate has a folder src");
    let files = entries.map(|entry| entry.expect("it can be listed").path());
    files.map(|path| (path.display().to_string(), fs::read_to_string(&path).expect("a source is text"))).collect()
}

#[test]
fn every_export_is_asked_for() {
    let declarations = include_str!("../src/exports.rs");
    let declared: Vec<&str> = declarations
        .lines()
        .filter_map(|line| line.trim().strip_prefix("pub fn "))
        .map(|rest| rest.split('(').next().expect("a split has a first part"))
        .collect();
    assert!(declared.contains(&"mortisevane_address_class"), "the declarations are laid out otherwise");
    let modules: Vec<String> =
        sources().into_iter().filter(|(path, _)| !path.ends_with("exports.rs")).map(|(_, text)| text).collect();
    let is_name = |letter: char| letter.is_ascii_alphanumeric() || letter == '_';
    let asked = |name: &str| modules.iter().any(|text| text.split(|letter| !is_name(letter)).any(|word| word == name));
    let left_out: Vec<&str> = declared.into_iter().filter(|name| !asked(name)).collect();
    assert!(left_out.is_empty(), "left out: {left_out:?}");
}

/// The macro `ask` is the only place that may be unsafe.
#[test]
fn there_is_one_unsafe_block() {
    for (path, text) in sources() {
        let expected = usize::from(path.ends_with("ask.rs"));
        assert_eq!(text.matches("unsafe {").count(), expected, "{path}");
    }
}
