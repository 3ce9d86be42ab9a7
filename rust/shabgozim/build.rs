//! Links the archives that `tools/archives` writes.

use std::env;
use std::path::{Path, PathBuf};

const FOLDER_VARIABLE: &str = "SHABGOZIM_LIB_DIR";
const USUAL_FOLDER: &str = "../../target/staticlib";
const LIBRARIES: [&str; 2] = ["interface", "texts"];

fn main() {
    let folder = archive_folder();
    println!("cargo:rerun-if-env-changed={FOLDER_VARIABLE}");
    println!("cargo:rustc-link-search=native={}", folder.display());
    for library in LIBRARIES {
        let archive = folder.join(format!("lib{library}.a"));
        println!("cargo:rerun-if-changed={}", archive.display());
        require(&archive);
        println!("cargo:rustc-link-lib=static={library}");
    }
}

fn archive_folder() -> PathBuf {
    let crate_folder = env::var_os("CARGO_MANIFEST_DIR").expect("cargo names the crate's folder");
    let folder = env::var_os(FOLDER_VARIABLE).unwrap_or(USUAL_FOLDER.into());
    Path::new(&crate_folder).join(folder)
}

fn require(archive: &Path) {
    if !archive.is_file() {
        eprintln!("{} is missing.", archive.display());
        eprintln!("Run `tools/archives`, or name its folder in {FOLDER_VARIABLE}.");
        std::process::exit(1);
    }
}
