//! Links the archive that `tools/build archive` makes.

use std::env;
use std::path::PathBuf;

fn main() {
    println!("cargo:rerun-if-env-changed=CARTLOZENGE_ARCHIVE");
    let folder = match env::var_os("CARTLOZENGE_ARCHIVE") {
        Some(folder) => PathBuf::from(folder),
        None => PathBuf::from(env!("CARGO_MANIFEST_DIR")).join("../../target/staticlib"),
    };
    let archive = folder.join("libdesk.a");
    println!("cargo:rerun-if-changed={}", archive.display());
    if !archive.exists() {
        panic!(
            "{} is missing: run `tools/build archive` first",
            archive.display()
        );
    }
    println!("cargo:rustc-link-search=native={}", folder.display());
    println!("cargo:rustc-link-lib=static=desk");
}
