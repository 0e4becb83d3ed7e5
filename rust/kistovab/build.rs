//! Links libkistovab.a: from the folder that `KISTOVAB_LIB_DIR` names, else from the repository's
//! target/staticlib, where `tools/staticlib kistovab` writes it if it is missing.

use std::env;
use std::path::{self, Path, PathBuf};
use std::process::Command;

const FOLDER: &str = "KISTOVAB_LIB_DIR";
const LIBRARY: &str = "libkistovab.a";

fn main() {
    println!("cargo::rerun-if-changed=build.rs");
    println!("cargo::rerun-if-env-changed={FOLDER}");
    // Set by compare/run: the library's content, since a file put back may have an older date.
    println!("cargo::rerun-if-env-changed=KISTOVAB_LIBRARIES_HASH");
    match library_folder() {
        Ok(folder) => {
            println!("cargo::rerun-if-changed={}", folder.join(LIBRARY).display());
            println!("cargo::rustc-link-search=native={}", folder.display());
            println!("cargo::rustc-link-lib=static=kistovab");
        }
        Err(message) => println!("cargo::error={message}"),
    }
}

fn library_folder() -> Result<PathBuf, String> {
    match env::var_os(FOLDER) {
        Some(folder) if !folder.is_empty() => given(Path::new(&folder)),
        _ => of_repository(),
    }
}

fn given(folder: &Path) -> Result<PathBuf, String> {
    if folder.join(LIBRARY).is_file() {
        // The linker starts in another folder.
        return path::absolute(folder).map_err(|error| format!("{FOLDER}: {error}"));
    }
    Err(format!(
        "no {LIBRARY} in {}: set {FOLDER} to the folder that has it, or unset it to use the repository's",
        folder.display()
    ))
}

fn of_repository() -> Result<PathBuf, String> {
    let here = env::var_os("CARGO_MANIFEST_DIR").ok_or("cargo did not set CARGO_MANIFEST_DIR")?;
    let root = Path::new(&here).join("../..");
    let folder = root.join("target/staticlib");
    if !folder.join(LIBRARY).is_file() {
        make(&root).map_err(|why| {
            format!("no {LIBRARY}, and {why}, or set {FOLDER} to the folder that has it")
        })?;
    }
    Ok(folder)
}

/// Proves the library and writes it, which takes minutes.
fn make(root: &Path) -> Result<(), &'static str> {
    if !root.join("crates.txt").is_file() {
        return Err("this crate is not in its repository, where it could be made: put it there");
    }
    let mut script = Command::new("tools/staticlib");
    script.arg("kistovab").current_dir(root);
    match script.output() {
        Ok(output) if output.status.success() => Ok(()),
        Ok(_) => Err("`tools/staticlib kistovab` did not make it: run that in the repository's root and see why; it needs the Rattle kit's `rt` on PATH"),
        Err(_) => Err("tools/staticlib, which makes it, was not found in the repository"),
    }
}
