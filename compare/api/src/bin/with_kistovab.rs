use kistovab::{engine, types};

#[path = "../program.rs"]
mod program;

fn main() {
    program::run();
}
