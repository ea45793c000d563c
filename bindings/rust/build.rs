//! Links libmaluwesi.a from the folder that MALUWESI_LIB_DIR names, or else from the repository's
//! target/staticlib.

use std::path::{Path, PathBuf};
use std::{env, process};

const FOLDER_VARIABLE: &str = "MALUWESI_LIB_DIR";
const ARCHIVE: &str = "libmaluwesi.a";

fn library_folder() -> PathBuf {
    match env::var_os(FOLDER_VARIABLE) {
        Some(folder) => PathBuf::from(folder),
        None => Path::new(env!("CARGO_MANIFEST_DIR")).join("../../target/staticlib"),
    }
}

fn main() {
    let folder = library_folder();
    println!("cargo:rerun-if-env-changed={FOLDER_VARIABLE}");
    println!("cargo:rerun-if-changed={}", folder.join(ARCHIVE).display());

    // The linker runs in another folder, so a relative path would not reach it.
    let Ok(folder) = folder.canonicalize() else {
        no_archive(&folder);
    };
    if !folder.join(ARCHIVE).is_file() {
        no_archive(&folder);
    }
    println!("cargo:rustc-link-search=native={}", folder.display());
    println!("cargo:rustc-link-lib=static=maluwesi");
}

fn no_archive(folder: &Path) -> ! {
    eprintln!("There is no {ARCHIVE} in {}.", folder.display());
    eprintln!("`bindings/archive` in the root of the repository makes it.");
    eprintln!("If it stands elsewhere, name its folder in {FOLDER_VARIABLE}.");
    process::exit(1);
}
