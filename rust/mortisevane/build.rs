//! Links libmortisevane.a, which `tools/build-library` makes. `MORTISEVANE_LIBRARY` names another folder than the
//! repository's own that holds it; for a board it is the one that `tools/build-board` made for its processor.

use std::env;
use std::path::Path;

fn main() {
    // On a machine that is not x86-64 the same modules are compiled for that machine (tools/library-folder).
    let is_shipped = env::var("CARGO_CFG_TARGET_ARCH").as_deref() == Ok("x86_64");
    let folder = if is_shipped { "../../target/staticlib" } else { "../../target/native" };
    let own = Path::new(&env::var("CARGO_MANIFEST_DIR").expect("cargo sets it")).join(folder);
    let folder = env::var("MORTISEVANE_LIBRARY").unwrap_or(own.display().to_string());
    let library = Path::new(&folder).join("libmortisevane.a");
    if !library.exists() {
        println!(
            "cargo:warning=there is no {}; tools/build-library makes it, or tools/build-board for a board, whose folder \
             MORTISEVANE_LIBRARY is to name",
            library.display()
        );
    }
    println!("cargo:rerun-if-env-changed=MORTISEVANE_LIBRARY");
    println!("cargo:rerun-if-changed={}", library.display());
    println!("cargo:rustc-link-search=native={folder}");
    println!("cargo:rustc-link-lib=static=mortisevane");
}
