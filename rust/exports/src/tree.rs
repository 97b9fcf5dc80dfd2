//! The Rattle source of all crates: every file that crates.txt and the `mod` lines lead to, and where a name that one
//! of them uses is declared.

use crate::source::{self, Source, Use};
use std::fs;
use std::path::Path;

/// The libraries that the kit brings. Their source is not here, and nothing of theirs crosses to C.
const KIT: [&str; 6] = ["libc", "io", "os", "bytes", "check", "std"];

/// More `use` lines than any name is passed on by, so that a name which goes round in a circle is told.
const MOST_USES: usize = 16;

/// One source file.
pub struct File {
    /// The crate, then the modules that lead to the file; for a crate's lib.rt the crate alone.
    pub place: Vec<String>,
    /// The path from the root of the repository on, as messages have it.
    pub path: String,
    pub source: Source,
}

impl File {
    /// Whether the file is of the crate whose exports make the library.
    pub fn is_host(&self) -> bool {
        self.place[0] == "host"
    }

    /// Whether the header depends on what the file's `use` lines name.
    fn reaches_c(&self) -> bool {
        self.is_host() || self.source.structs.iter().any(|known| known.crosses)
    }
}

/// The place of a module below another.
fn below(place: &[String], name: &str) -> Vec<String> {
    place.iter().cloned().chain([name.to_string()]).collect()
}

/// What a name or a path leads to.
#[derive(Clone, Copy)]
pub enum Found<'a> {
    /// An item: the file that declares it, and its name there.
    Item(&'a File, &'a str),
    /// The file of a module, or a crate's lib.rt.
    Module(&'a File),
    /// Something of the kit's.
    Kit,
}

/// The crates in the order of crates.txt, each with its lib.rt first and then its modules in the order of their `mod`
/// lines.
pub struct Tree {
    pub files: Vec<File>,
}

impl Tree {
    /// The files of a crate.
    pub fn files_of(&self, name: &str) -> Result<Vec<&File>, String> {
        let files: Vec<&File> = self.files.iter().filter(|file| file.place[0] == name).collect();
        if files.is_empty() {
            return Err(format!("crates.txt has no crate {name}"));
        }
        Ok(files)
    }

    fn at(&self, place: &[String]) -> Option<&File> {
        self.files.iter().find(|file| file.place == place)
    }

    /// What a name stands for in a file: something that the file declares or imports.
    pub fn find<'a>(&'a self, file: &'a File, name: &str) -> Result<Found<'a>, String> {
        let found = self.member(file, name, file, MOST_USES)?;
        found.ok_or(format!("{}: {name} is used there, but neither declared nor imported", file.path))
    }

    /// What a module has under a name, if anything. Another crate sees only those of its imports that are `pub`.
    fn member<'a>(
        &'a self,
        module: &'a File,
        name: &str,
        asking: &File,
        uses_left: usize,
    ) -> Result<Option<Found<'a>>, String> {
        if let Some(item) = module.source.items.get(name) {
            return Ok(Some(Found::Item(module, item)));
        }
        if let Some(known) = self.at(&below(&module.place, name)) {
            return Ok(Some(Found::Module(known)));
        }
        let is_own = module.place[0] == asking.place[0];
        let used = module.source.uses.iter().find(|used| used.name == name && (is_own || used.is_public));
        used.map(|used| self.follow(module, used, uses_left)).transpose()
    }

    /// Where the path of a `use` line begins, and what of it there is still to follow.
    fn beginning<'a>(&'a self, file: &'a File, path: &'a [String]) -> Result<(Found<'a>, &'a [String]), String> {
        let own = file.place.len();
        let above = path.iter().take_while(|word| *word == "super").count();
        let (place, rest) = match path[0].as_str() {
            "crate" => (&file.place[..1], &path[1..]),
            "self" => (&file.place[..], &path[1..]),
            "super" if above < own => (&file.place[..own - above], &path[above..]),
            "super" => return Err("leads out of the crate".to_string()),
            first if self.at(&below(&file.place, first)).is_some() => (&file.place[..], path),
            _ => (&path[..1], &path[1..]),
        };
        match self.at(place) {
            Some(module) => Ok((Found::Module(module), rest)),
            None if KIT.contains(&place[0].as_str()) => Ok((Found::Kit, rest)),
            None => Err(format!("names {}, which is neither in crates.txt nor a library of the kit", place[0])),
        }
    }

    /// What a `use` line of a file leads to, through the `use` lines of others where they pass the name on.
    fn follow<'a>(&'a self, file: &'a File, used: &'a Use, uses_left: usize) -> Result<Found<'a>, String> {
        let fault = |told: String| format!("{}: `use {}` {told}", file.path, used.path.join("::"));
        if uses_left == 0 {
            return Err(fault("goes round in a circle".to_string()));
        }
        let (mut found, rest) = self.beginning(file, &used.path).map_err(fault)?;
        for name in rest {
            found = match found {
                Found::Kit => return Ok(Found::Kit),
                Found::Item(home, item) => {
                    return Err(fault(format!("takes {item} of {} for a module", home.path)));
                }
                Found::Module(module) => self.member(module, name, file, uses_left - 1)?.ok_or_else(|| {
                    fault(format!("names {name}, which {} neither has nor passes on by `pub use`", module.path))
                })?,
            };
        }
        Ok(found)
    }

    /// Refuses exports of the library that no header would have.
    fn refuse_strays(&self) -> Result<(), String> {
        for file in self.files.iter().filter(|file| !file.is_host()) {
            let mut names = file.source.functions.iter().map(|function| &function.name);
            if let Some(name) = names.find(|name| name.starts_with("mortisevane_")) {
                return Err(format!("{}: {name} is exported outside of the crate host", file.path));
            }
        }
        Ok(())
    }

    /// Refuses a `use` line that leads nowhere, in the files on which the header depends.
    fn refuse_unresolved(&self) -> Result<(), String> {
        for file in self.files.iter().filter(|file| file.reaches_c()) {
            for used in &file.source.uses {
                self.follow(file, used, MOST_USES)?;
            }
        }
        Ok(())
    }
}

/// The crates of crates.txt, in its order. After a name there may be what is made of the crate, as in `host staticlib:`.
fn crates(root: &Path) -> Result<Vec<String>, String> {
    let text = fs::read_to_string(root.join("crates.txt")).map_err(|fault| format!("crates.txt: {fault}"))?;
    let names = text.lines().filter(|line| !line.starts_with('#')).filter_map(|line| line.split_once(':'));
    Ok(names.filter_map(|(name, _)| name.split_whitespace().next()).map(str::to_string).collect())
}

/// Reads a file and those of its modules.
fn add(root: &Path, place: Vec<String>, path: String, files: &mut Vec<File>) -> Result<(), String> {
    let text = fs::read_to_string(root.join(&path)).map_err(|fault| format!("{path}: {fault}"))?;
    let source = source::read(&text).map_err(|fault| format!("{path}: {fault}"))?;
    let modules = source.modules.clone();
    files.push(File { place: place.clone(), path: path.clone(), source });
    for name in modules {
        let below = below(&place, &name);
        let below_path = format!("crates/{}/src/{}.rt", below[0], below[1..].join("/"));
        if !root.join(&below_path).is_file() {
            return Err(format!("{path}: `mod {name};` has no file {below_path}"));
        }
        add(root, below, below_path, files)?;
    }
    Ok(())
}

/// Reads every crate, and refuses what would make a header that says less than the library has.
pub fn read(root: &Path) -> Result<Tree, String> {
    let mut files = Vec::new();
    for name in crates(root)? {
        // A program has a main.rt, and exports nothing.
        let paths = ["lib", "main"].map(|file| format!("crates/{name}/src/{file}.rt"));
        let path = paths.iter().find(|path| root.join(path).is_file());
        let path = path.ok_or(format!("the crate {name} of crates.txt has neither {} nor {}", paths[0], paths[1]))?;
        add(root, vec![name], path.clone(), &mut files)?;
    }
    let tree = Tree { files };
    tree.refuse_strays()?;
    tree.refuse_unresolved()?;
    Ok(tree)
}
