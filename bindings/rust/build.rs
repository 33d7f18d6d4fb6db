//! Links the proved library: the file that `ROBINLOCKER_LIBRARY` names, else the one that `tools/library` makes.

use std::path::PathBuf;
use std::{env, fs};

fn main() {
    println!("cargo:rerun-if-env-changed=ROBINLOCKER_LIBRARY");
    let library = library();
    println!("cargo:rerun-if-changed={}", library.display());
    if library.is_file() {
        link(&library);
    } else {
        // Not an error: the documentation can be made without the library.
        println!(
            "cargo:warning=no proved library at {}, so nothing will link: `tools/library` at the top of the \
             repository makes it, or ROBINLOCKER_LIBRARY names another",
            library.display()
        );
    }
}

fn library() -> PathBuf {
    match env::var_os("ROBINLOCKER_LIBRARY") {
        Some(file) => PathBuf::from(file),
        None => PathBuf::from(variable("CARGO_MANIFEST_DIR")).join("../../target/staticlib/libsession.a"),
    }
}

/// Links a copy of fixed name, so that the file may have any.
fn link(library: &PathBuf) {
    let folder = PathBuf::from(variable("OUT_DIR"));
    fs::copy(library, folder.join("librobinlocker.a")).expect("the library can be copied");
    println!("cargo:rustc-link-search=native={}", folder.display());
    println!("cargo:rustc-link-lib=static=robinlocker");
}

fn variable(name: &str) -> String {
    env::var(name).expect("cargo sets this variable")
}
