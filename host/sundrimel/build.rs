//! Finds the archive that holds the exported entry: in the folder that SUNDRIMEL_LIB_DIR names, else
//! in target/staticlib of the repository.

use std::path::{Path, PathBuf};

const VARIABLE: &str = "SUNDRIMEL_LIB_DIR";

fn main() {
    println!("cargo::rerun-if-env-changed={VARIABLE}");
    let folder = match std::env::var_os(VARIABLE) {
        Some(folder) => PathBuf::from(folder),
        None => repository().join("target/staticlib"),
    };
    let archive = folder.join("libsundrimel.a");
    println!("cargo::rerun-if-changed={}", archive.display());
    if !archive.is_file() {
        println!(
            "cargo::error=there is no {}: run `sh tools/archive.sh` in the repository's root, \
             or set {VARIABLE} to the folder that holds libsundrimel.a",
            archive.display()
        );
        std::process::exit(1);
    }
    println!("cargo::rustc-link-search=native={}", folder.display());
    println!("cargo::rustc-link-lib=static=sundrimel");
}

/// The repository's root: host/ stands in it, and this crate in host/.
fn repository() -> &'static Path {
    let crate_folder = Path::new(env!("CARGO_MANIFEST_DIR"));
    let root = crate_folder.ancestors().nth(2);
    root.expect("this crate stands two folders below the root")
}
