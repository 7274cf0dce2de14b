//! Links the archive of the proved code.
use std::env;
use std::path::{Path, PathBuf};

const FOLDER: &str = "NIBGRAVEL_LIB_DIR";
const ARCHIVE: &str = "libexport.a";

fn main() {
    println!("cargo::rerun-if-env-changed={FOLDER}");
    let crate_folder = env::var_os("CARGO_MANIFEST_DIR").expect("cargo sets this");
    let crate_folder = Path::new(&crate_folder);
    let folder = match env::var_os(FOLDER) {
        // a folder that is not absolute is seen from the crate's folder
        Some(folder) => crate_folder.join(PathBuf::from(folder)),
        None => crate_folder.join("../../target/staticlib"),
    };
    let archive = folder.join(ARCHIVE);
    println!("cargo::rerun-if-changed={}", archive.display());
    if !archive.is_file() {
        println!("cargo::error=there is no {}", archive.display());
        println!("cargo::error=`tools/archive export` in the repository's folder writes target/staticlib/{ARCHIVE}");
        println!("cargo::error={FOLDER} names another folder that has it");
        return;
    }
    println!("cargo::rustc-link-search=native={}", folder.display());
    println!("cargo::rustc-link-lib=static=export");
}
