//! Writes a module for each mutant of list.rs: its file of the comparison build with one place
//! changed. An edit that does not match just once stops the build.

#[allow(dead_code)]
#[path = "../sonalign/edits.rs"]
mod edits;
mod list;

use edits::{read, rerun_if_changed, variable, write, File};
use list::Mutant;
use std::path::PathBuf;

fn main() {
    rerun_if_changed(&["build.rs", "list.rs", "../sonalign/edits.rs"]);
    let to = PathBuf::from(variable("OUT_DIR"));
    let mut modules = String::new();
    let mut entries = String::new();
    for (number, mutant) in list::MUTANTS.iter().enumerate() {
        let folder = to.join(format!("m{number}"));
        let mut engine = comparison("engine.rs", edits::engine);
        let mut matcher = comparison("matcher.rs", edits::matcher);
        let file = match mutant.file {
            list::ENGINE => &mut engine,
            _ => &mut matcher,
        };
        file.replace(1, mutant.old, mutant.new);
        let of_matcher = mutant.file == list::MATCHER;
        let over = if of_matcher {
            "super::matcher"
        } else {
            "sonalign::matcher"
        };
        let edited = engine
            .text
            .replace("use crate::matcher::", &format!("use {over}::"));
        write(&folder, "engine.rs", &outside(&edited));
        write(&folder, "matcher.rs", &outside(&matcher.text));
        modules += &module(number, of_matcher);
        entries += &entry(number, mutant);
    }
    let text = format!("{modules}\npub const MUTANTS: &[Mutant] = &[\n{entries}];\n");
    write(&to, "mutants.rs", &text);
}

fn comparison(name: &'static str, edit: fn(&mut File)) -> File {
    let mut file = read(name);
    edit(&mut file);
    file
}

/// What stands in this crate for the other's own modules.
fn outside(text: &str) -> String {
    text.replace("crate::types::", "sonalign::types::")
        .replace("crate::replaced::", "sonalign::replaced::")
        .replace("use crate::{", "use sonalign::{")
}

fn module(number: usize, of_matcher: bool) -> String {
    let include = |file: &str| {
        format!(
            "    #[allow(warnings, clippy::all)]\n    pub mod {file} {{\n        \
             include!(concat!(env!(\"OUT_DIR\"), \"/m{number}/{file}.rs\"));\n    }}\n"
        )
    };
    let matcher = if of_matcher {
        include("matcher")
    } else {
        String::new()
    };
    format!(
        "mod m{number} {{\n{matcher}{}    sonalign::running!(self::engine);\n    pub fn open(\n        \
         frames: &[sonalign::types::FeatureFrame],\n        hop: f64,\n        \
         configuration: sonalign::types::Configuration,\n    ) -> Box<dyn sonalign::running::Running> {{\n        \
         Box::new(engine::Engine::new(frames, hop, configuration))\n    }}\n}}\n",
        include("engine")
    )
}

fn entry(number: usize, mutant: &Mutant) -> String {
    format!(
        "    Mutant {{ name: {:?}, file: {:?}, same: {:?}, open: m{number}::open }},\n",
        mutant.name, mutant.file, mutant.same
    )
}
