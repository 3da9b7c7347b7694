//! Links the archive `libcall_exports.a`. It stands in the folder that the variable `LUMZHASEL_ARCHIVE_DIR` names, or in
//! target/staticlib at the repository's top, where `bindings/archive` writes it. Where it is in neither, the
//! package says so as an error of its own when it is built, and its documentation can be made all the same.

use std::env;
use std::path::{Path, PathBuf};

const FOLDER: &str = "LUMZHASEL_ARCHIVE_DIR";

fn main() {
    println!("cargo:rerun-if-env-changed={FOLDER}");
    println!("cargo:rustc-check-cfg=cfg(archive_missing)");
    let here = env::var("CARGO_MANIFEST_DIR").expect("cargo names the package's folder");
    let folder = match env::var_os(FOLDER) {
        Some(folder) => PathBuf::from(folder),
        None => Path::new(&here).join("../../target/staticlib"),
    };
    let archive = folder.join("libcall_exports.a");
    println!("cargo:rerun-if-changed={}", archive.display());
    if archive.exists() {
        println!("cargo:rustc-link-search=native={}", folder.display());
        println!("cargo:rustc-link-lib=static=call_exports");
    } else {
        println!("cargo:warning=there is no {}", archive.display());
        println!("cargo:rustc-cfg=archive_missing");
    }
}
