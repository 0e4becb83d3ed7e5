//! The edits that make the comparison build of types.rs, matcher.rs and engine.rs. Every edit says
//! how often it matches, so that another source than the expected one stops the build and is not
//! compared half edited.

use std::path::{Path, PathBuf};
use std::{env, fs, process};

const SOURCE: &str = "KISTOVAB_RUST_SRC";

/// Of the three files, by `run`.
const HASH: &str = "KISTOVAB_RUST_HASH";

/// When cargo makes the files anew. Dates alone would not do: a file put back may be an old one.
pub fn rerun_if_changed(files: &[&str]) {
    for variable in [SOURCE, HASH] {
        println!("cargo::rerun-if-env-changed={variable}");
    }
    for file in files {
        println!("cargo::rerun-if-changed={file}");
    }
}

pub fn types(file: &mut File) {
    file.replace(1, "use serde::{Deserialize, Serialize};\n", "");
    file.replace(11, ", Serialize, Deserialize)]", ")]");
    file.remove_lines(22, "#[serde(");
    file.replace(3, "pub(crate) ", "pub ");
    file.lacks("serde");
    file.lacks("Serialize");
}

pub fn matcher(file: &mut File) {
    file.replace(
        1,
        "frame.pcen_mel[band].ln_1p()",
        "crate::replaced::ln_1p(frame.pcen_mel[band])",
    );
    file.lacks_functions();
    open_matcher(file);
}

/// The same but for the function that it calls.
pub fn own_matcher(file: &mut File) {
    file.has(1, "frame.pcen_mel[band].ln_1p()");
    open_matcher(file);
}

fn open_matcher(file: &mut File) {
    file.replace(14, "pub(crate) ", "pub ");
    file.replace(1, "\nstruct Bands {", "\npub struct Bands {");
    file.open_fields("pub struct Bands {", 2);
    file.open_fields("pub struct SpectralMatcher {", 5);
    file.replace(2, "\n    const ", "\n    pub const ");
    file.replace(4, "\n    fn ", "\n    pub fn ");
    file.replace(6, "\nfn ", "\npub fn ");
}

pub fn engine(file: &mut File) {
    file.replace(
        1,
        "(-dt / 300.0).exp()",
        "crate::replaced::exp(-dt / 300.0)",
    );
    file.replace(
        1,
        "10.0_f64.powf(frame.energy_dbfs / 10.0)",
        "crate::replaced::ten_to(frame.energy_dbfs / 10.0)",
    );
    file.replace(
        1,
        "mean_power.log10()",
        "crate::replaced::log10(mean_power)",
    );
    file.lacks_functions();
    open_engine(file);
}

/// The same but for the functions that it calls, and over its own matcher.
pub fn own_engine(file: &mut File) {
    file.has(1, "(-dt / 300.0).exp()");
    file.has(1, "10.0_f64.powf(frame.energy_dbfs / 10.0)");
    file.has(1, "mean_power.log10()");
    file.replace(1, "use crate::matcher::", "use crate::own::matcher::");
    open_engine(file);
}

fn open_engine(file: &mut File) {
    file.replace(1, "\nstruct Hypothesis {", "\npub struct Hypothesis {");
    file.open_fields("pub struct Hypothesis {", 4);
    file.open_fields("pub struct Engine {", 11);
    file.replace(2, "\n    fn ", "\n    pub fn ");
    file.replace(1, "\nfn ", "\npub fn ");
}

/// A file of the source as it is.
pub fn read(name: &'static str) -> File {
    let path = source_folder().join("src").join(name);
    println!("cargo::rerun-if-changed={}", path.display());
    match fs::read_to_string(&path) {
        Ok(text) => File { name, text },
        Err(_) => fail(&format!(
            "no Rust source at {}: set {SOURCE} to the folder that has src/{name}",
            path.display()
        )),
    }
}

/// Writes what was made of it.
pub fn write(to: &Path, name: &str, text: &str) {
    let written = fs::create_dir_all(to).and_then(|()| fs::write(to.join(name), text));
    if let Err(error) = written {
        fail(&format!("{name} cannot be written: {error}"));
    }
}

/// The folder with src/types.rs and the others: the one given, or shared/docs/src beside the
/// repository.
fn source_folder() -> PathBuf {
    match env::var_os(SOURCE) {
        Some(folder) if !folder.is_empty() => PathBuf::from(folder),
        _ => Path::new(&variable("CARGO_MANIFEST_DIR")).join("../../../shared/docs/src"),
    }
}

pub fn variable(name: &str) -> String {
    env::var(name).unwrap_or_else(|_| fail(&format!("cargo did not set {name}")))
}

/// The logged error fails the build, with fewer lines around it than a failing script gets.
pub fn fail(message: &str) -> ! {
    println!("cargo::error={message}");
    process::exit(0)
}

pub struct File {
    pub name: &'static str,
    pub text: String,
}

impl File {
    fn expect(&self, edit: &str, times: usize, found: usize) {
        if found != times {
            fail(&format!(
                "{}: {edit:?} matches {found} times, not {times}",
                self.name
            ));
        }
    }

    pub fn replace(&mut self, times: usize, old: &str, new: &str) {
        self.expect(old, times, self.text.matches(old).count());
        self.text = self.text.replace(old, new);
    }

    fn remove_lines(&mut self, times: usize, beginning: &str) {
        let goes = |line: &&str| line.trim_start().starts_with(beginning);
        self.expect(beginning, times, self.text.lines().filter(goes).count());
        let kept = self.text.split_inclusive('\n').filter(|line| !goes(line));
        self.text = kept.collect();
    }

    /// Makes the fields of the struct that `head` begins public.
    fn open_fields(&mut self, head: &str, times: usize) {
        self.expect(head, 1, self.text.matches(head).count());
        let (before, rest) = self.text.split_once(head).unwrap_or_default();
        let (fields, after) = rest.split_once("\n}").unwrap_or((rest, ""));
        self.expect(head, times, fields.matches("\n    ").count());
        let fields = fields.replace("\n    ", "\n    pub ");
        self.text = format!("{before}{head}{fields}\n}}{after}");
    }

    fn has(&self, times: usize, text: &str) {
        self.expect(text, times, self.text.matches(text).count());
    }

    fn lacks(&self, text: &str) {
        self.has(0, text);
    }

    /// None of the replaced functions is left, nor a relative of theirs.
    fn lacks_functions(&self) {
        for name in [".exp(", ".exp2(", ".exp_m1(", ".powf(", ".powi("] {
            self.lacks(name);
        }
        for name in [".ln(", ".ln_1p(", ".log(", ".log2(", ".log10("] {
            self.lacks(name);
        }
    }
}
