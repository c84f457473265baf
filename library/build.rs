//! Links the archive that `./build library` makes.

use std::path::Path;
use std::{env, fs};

fn main() {
    let package = env::var("CARGO_MANIFEST_DIR").expect("cargo names the package's folder");
    let folder = Path::new(&package).join("../target/staticlib");
    let archive = folder.join("liblamptwin_c.a");
    if fs::metadata(&archive).is_err() {
        panic!("target/staticlib/liblamptwin_c.a is missing; `./build library` makes it");
    }
    println!("cargo:rerun-if-changed={}", archive.display());
    println!("cargo:rustc-link-search=native={}", folder.display());
    println!("cargo:rustc-link-lib=static=lamptwin_c");
}
