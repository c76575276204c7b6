//! Writes the module list that brings the Rust source in, from the folder that `FIXP_SOURCE` names.

use std::path::{Path, PathBuf};
use std::{env, fs};

/// Files compiled where they stand.
const UNCHANGED: [&str; 5] = ["clock", "error", "messages", "output", "types"];

fn main() {
    println!("cargo:rerun-if-env-changed=FIXP_SOURCE");
    link("FIXP_PORT", "port", "library");
    link("FIXP_BENCH", "bench", "bench");
    let source = folder("FIXP_SOURCE");
    let out = folder("OUT_DIR");
    let setup = folder("CARGO_MANIFEST_DIR").join("src/session_setup.rs");

    let session = out.join("session_with_setup.rs");
    write_session(&source.join("session.rs"), &setup, &session);

    let mut modules = module("session", &session);
    for name in UNCHANGED {
        let path = source.join(format!("{name}.rs"));
        println!("cargo:rerun-if-changed={}", path.display());
        modules.push_str(&module(name, &path));
    }
    fs::write(out.join("modules.rs"), modules).expect("OUT_DIR is writable");
}

/// Links the archive that a variable names, under a flag; without it the tool has the Rust alone.
fn link(variable: &str, flag: &str, library: &str) {
    println!("cargo:rustc-check-cfg=cfg({flag})");
    println!("cargo:rerun-if-env-changed={variable}");
    let Some(archive) = env::var_os(variable).map(PathBuf::from) else {
        return;
    };
    let folder = archive.parent().expect("the variable names a file in a folder");
    println!("cargo:rerun-if-changed={}", archive.display());
    println!("cargo:rustc-cfg={flag}");
    println!("cargo:rustc-link-search=native={}", folder.display());
    println!("cargo:rustc-link-lib=static={library}");
}

/// The text of `session.rs`, byte for byte, with one child module declared behind it.
fn write_session(source: &Path, setup: &Path, target: &Path) {
    println!("cargo:rerun-if-changed={}", source.display());
    let mut text = fs::read(source).expect("FIXP_SOURCE holds session.rs");
    text.extend_from_slice(format!("\n#[path = {setup:?}]\npub(crate) mod setup;\n").as_bytes());
    fs::write(target, text).expect("OUT_DIR is writable");
}

/// One module declaration; what this tool does not use is no warning.
fn module(name: &str, path: &Path) -> String {
    format!("#[allow(dead_code, unused, clippy::all)]\n#[path = {path:?}]\nmod {name};\n")
}

/// A folder named by an environment variable.
fn folder(variable: &str) -> PathBuf {
    env::var_os(variable).map(PathBuf::from).unwrap_or_else(|| panic!("{variable} names no folder"))
}
