//! Links the static libraries that `tools/staticlib` writes.

use std::env;
use std::path::Path;

fn main() {
    let here = env::var("CARGO_MANIFEST_DIR").expect("cargo sets CARGO_MANIFEST_DIR");
    let folder = Path::new(&here).join("../../target/staticlib");
    println!("cargo::rerun-if-changed=build.rs");
    println!("cargo::rerun-if-env-changed=KISTOVAB_LIBRARIES_HASH");
    println!("cargo::rustc-link-search=native={}", folder.display());
    for name in ["compare_exports", "kistovab"] {
        let library = folder.join(format!("lib{name}.a"));
        println!("cargo::rerun-if-changed={}", library.display());
        if !library.is_file() {
            println!(
                "cargo::error=no library at {}: run `tools/staticlib {name}` in the repository's root",
                library.display()
            );
        }
        println!("cargo::rustc-link-lib=static={name}");
    }
}
