//! Makes the comparison build: edits types.rs, matcher.rs and engine.rs and writes them to OUT_DIR,
//! where lib.rs includes them; beside them, in own/, matcher.rs and engine.rs with their own
//! functions.

mod edits;

use edits::{read, rerun_if_changed, variable, write, File};
use std::path::{Path, PathBuf};

fn main() {
    rerun_if_changed(&["build.rs", "edits.rs"]);
    let to = PathBuf::from(variable("OUT_DIR"));
    make(&to, "types.rs", edits::types);
    make(&to, "matcher.rs", edits::matcher);
    make(&to, "engine.rs", edits::engine);
    make(&to.join("own"), "matcher.rs", edits::own_matcher);
    make(&to.join("own"), "engine.rs", edits::own_engine);
}

fn make(to: &Path, name: &'static str, edit: fn(&mut File)) {
    let mut file = read(name);
    edit(&mut file);
    write(to, name, &file.text);
}
