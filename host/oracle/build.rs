//! Finds the text of the Rust being carried and writes where it stands into OUT_DIR, so that it is
//! compiled from there, unchanged. SUNDRIMEL_ORACLE_SRC names its folder, absolute or as seen from
//! host/; without it the folder is ../../shared/docs/src. Where the text is missing, the crate is
//! built without it.

use std::fs;
use std::path::{Path, PathBuf};

const VARIABLE: &str = "SUNDRIMEL_ORACLE_SRC";
const DEFAULT: &str = "../../shared/docs/src";

/// The modules that are the crate's own text: where each is declared, its name and its file.
const MODULES: [(&str, &str, &str); 4] = [
    ("text.rs", "normalizer", "src/normalizer.rs"),
    ("text.rs", "sequences", "src/sequences.rs"),
    ("text.rs", "validator", "src/validator/mod.rs"),
    ("data_text.rs", "error", "src/data/error.rs"),
];

/// Stand-ins for the tables that the crate's own build writes for proteins; no change reads them.
const TABLES: &str = "
const AA1_TO_AA3_STR: [Option<&str>; 256] = [None; 256];
const DNA_ASCII_TO_IUPAC: [u8; 256] = [255; 256];
const CODON_IUPAC_TO_AA1_LUT: [u8; 4096] = [0; 4096];
const CODON_IUPAC_TO_AA1_SEC: [u8; 4096] = [0; 4096];
const CODON_IUPAC_TO_AA1_CHRMT_VERTEBRATE: [u8; 4096] = [0; 4096];
fn _aa3_to_aa1(_aa3: &[u8]) -> Option<u8> {
    None
}
";

fn main() {
    println!("cargo::rerun-if-env-changed={VARIABLE}");
    println!("cargo::rustc-check-cfg=cfg(text_at_hand)");
    let host = Path::new(env!("CARGO_MANIFEST_DIR")).join("..");
    let folder = std::env::var_os(VARIABLE).map_or(PathBuf::from(DEFAULT), PathBuf::from);
    let folder = host.join(folder);
    let files = MODULES.map(|(_, _, file)| folder.join(file));
    for file in &files {
        println!("cargo::rerun-if-changed={}", file.display());
    }
    if files.iter().all(|file| file.is_file()) {
        println!("cargo::rustc-cfg=text_at_hand");
        declare(&folder);
    }
}

/// Writes the files that the crate includes: module declarations by path, and the tables.
fn declare(folder: &Path) {
    let out = PathBuf::from(std::env::var_os("OUT_DIR").expect("cargo gives OUT_DIR"));
    for declared_in in ["text.rs", "data_text.rs"] {
        let modules = MODULES.iter().filter(|(list, _, _)| *list == declared_in);
        let declarations: String = modules
            .map(|(_, name, file)| declaration(name, &folder.join(file)))
            .collect();
        write(&out.join(declared_in), &declarations);
    }
    write(&out.join("tables_gen.rs"), TABLES);
}

fn declaration(name: &str, file: &Path) -> String {
    let file = file.canonicalize().expect("the file is there");
    format!("#[allow(dead_code, clippy::all)]\n#[path = {file:?}]\npub mod {name};\n")
}

fn write(file: &Path, text: &str) {
    fs::write(file, text).expect("OUT_DIR can be written");
}
