//! `exports header ROOT` writes the C header of the library to standard output, `exports rust ROOT` its Rust
//! declarations, `exports shim ROOT` the C functions by which the module of the library serves any machine, `exports
//! watched ROOT` C functions that show what is seen of each call. All are made from the Rattle source of the crate `host`,
//! with what it uses, and from nothing else, so that none can say something other than what was proved. ROOT is the folder
//! of crates.txt. `exports module ROOT` reads the text of that module from standard input and writes it with what the shim
//! calls made visible; it refuses one that is not as the shim takes it to be. `exports board ROOT ARCHIVE FRAMES` tells how
//! many bytes of code and of constants a board's library has, what it needs, and how deep the stack can get below each export
//! by the frames that the compiler told; it refuses a library that has variables, that needs more than a named few, or
//! whose functions are not the header's.

mod c;
mod layout;
mod library;
#[cfg(test)]
mod machines;
mod module;
mod names;
mod object;
mod rust;
mod shim;
mod source;
mod stacks;
#[cfg(test)]
mod tests;
mod tree;
mod watched;

use std::env;
use std::fs;
use std::io::{self, Read, Write};
use std::path::Path;
use std::process::ExitCode;

fn written(form: &str, root: &Path) -> Result<String, String> {
    let library = library::read(root)?;
    match form {
        "header" => Ok(c::header(&library)),
        "rust" => Ok(rust::declarations(&library)),
        "shim" => Ok(shim::source(&library)),
        "watched" => Ok(watched::source(&library)),
        "module" => {
            let mut text = String::new();
            io::stdin().read_to_string(&mut text).map_err(|fault| format!("standard input: {fault}"))?;
            module::visible(&library, &text)
        }
        _ => Err(format!("{form} is none of header, rust, shim, watched and module")),
    }
}

/// What is told of a board's library.
fn told_of_board(root: &Path, archive: &str, frames: &str) -> Result<String, String> {
    let library = library::read(root)?;
    let bytes = fs::read(archive).map_err(|fault| format!("{archive}: {fault}"))?;
    let usage = fs::read_to_string(frames).map_err(|fault| format!("{frames}: {fault}"))?;
    let fault = |fault| format!("{archive}: {fault}");
    let found = object::judged(&library, &bytes).map_err(fault)?;
    let stacks = stacks::of(&library, &bytes, &usage).map_err(fault)?;
    let needs: Vec<&str> = found.needs.iter().map(String::as_str).collect();
    let row = |stack: &stacks::Stack| format!("stack {} {} {} {}\n", stack.name, stack.own, stack.taken, stack.answered);
    let stacks: String = stacks.iter().map(row).collect();
    Ok(format!("code {}\nconstants {}\nneeds {}\n{stacks}", found.code, found.constants, needs.join(" ")))
}

fn main() -> ExitCode {
    let words: Vec<String> = env::args().skip(1).collect();
    let words: Vec<&str> = words.iter().map(String::as_str).collect();
    let told = match words.as_slice() {
        ["board", root, archive, frames] => told_of_board(Path::new(root), archive, frames),
        [form, root] => written(form, Path::new(root)),
        _ => {
            eprintln!("usage: exports header|rust|shim|watched|module ROOT, or exports board ROOT ARCHIVE FRAMES");
            return ExitCode::from(2);
        }
    };
    let write = |text: String| io::stdout().write_all(text.as_bytes()).map_err(|fault| fault.to_string());
    match told.and_then(write) {
        Ok(()) => ExitCode::SUCCESS,
        Err(fault) => {
            eprintln!("exports: {fault}");
            ExitCode::FAILURE
        }
    }
}
