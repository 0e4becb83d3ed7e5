//! Runs the port beside the Rust in one process. What each mode does stands in the README.

mod compare;
mod engine;
mod exact;
mod family;
mod matcher;
mod numbers;
mod progress;
mod random;
mod reached;
mod recorded;
mod sessions;
mod timeline;
mod value;
mod workload;

use compare::Effort;
use std::io::Write;
use std::process::ExitCode;
use std::{env, io};

const USAGE: &str = "\
usage: run [--quick | --bench | --bench-engine | --list | --matcher-list | --engine-list | --sessions | --stores | --samples]
       run (--numbers | --matcher | --records | --load | --engine) [--quick]
       run (--session | --marks) NUMBER
       run --mutants [WORDS OF A NAME]
       run --repeat (whole | local | opening) (ours | replaced | own)";

fn main() -> ExitCode {
    let words: Vec<String> = env::args().skip(1).collect();
    let words: Vec<&str> = words.iter().map(String::as_str).collect();
    match words[..] {
        [] => verdict(check(Effort::full())),
        ["--quick"] => verdict(check(Effort::QUICK)),
        [part] if is_part(part) => verdict(check_part(part, Effort::full())),
        [part, "--quick"] if is_part(part) => verdict(check_part(part, Effort::QUICK)),
        #[cfg(feature = "mutants")]
        ["--mutants"] => print_mutants(""),
        #[cfg(feature = "mutants")]
        ["--mutants", words] => print_mutants(words),
        ["--session", number] => match number.parse() {
            Ok(number) => print(&engine::check::shown(number)),
            Err(_) => usage(),
        },
        ["--marks", number] => match number.parse() {
            Ok(number) => print(&engine::marks::shown(number)),
            Err(_) => usage(),
        },
        ["--bench"] => print(&bench()),
        ["--bench-engine"] => print(&engine::bench::table()),
        ["--repeat", operation, side] => match matcher::bench::repeat(operation, side) {
            Some(line) => print(&line),
            None => usage(),
        },
        ["--list"] => print(&numbers::list::lines()),
        ["--matcher-list"] => print(&matcher::list::lines()),
        ["--engine-list"] => print_engine_list(),
        ["--sessions"] => print_sessions(),
        ["--stores"] => write_stores(),
        ["--samples"] => print(&numbers::samples::lines()),
        _ => usage(),
    }
}

fn usage() -> ExitCode {
    eprintln!("{USAGE}");
    ExitCode::from(2)
}

const PARTS: [&str; 5] = ["--numbers", "--matcher", "--records", "--load", "--engine"];

fn is_part(word: &str) -> bool {
    PARTS.contains(&word)
}

/// Every part of the port beside the Rust's.
fn check(effort: Effort) -> bool {
    PARTS.map(|part| check_part(part, effort)) == [true; PARTS.len()]
}

fn check_part(part: &str, effort: Effort) -> bool {
    match part {
        "--numbers" => numbers::check::check(effort),
        "--matcher" => matcher::check::check(effort),
        "--records" => records(),
        "--load" => workload::check::check(effort),
        _ => engine::check::check(effort),
    }
}

/// The lists and the session in crates/ beside the Rust's answers, and the store.
fn records() -> bool {
    let parts = [
        numbers::list::check(),
        matcher::list::check(),
        engine::list::check(),
        sessions::check(),
        engine::stores::check(),
    ];
    parts.into_iter().all(|same| same)
}

fn bench() -> String {
    let tables = [
        numbers::bench::table(),
        matcher::bench::table(),
        workload::bench::table(),
    ];
    tables.join("\n")
}

fn verdict(same: bool) -> ExitCode {
    if same {
        println!("all the same");
        ExitCode::SUCCESS
    } else {
        println!("there are differences");
        ExitCode::FAILURE
    }
}

#[cfg(feature = "mutants")]
fn print_mutants(words: &str) -> ExitCode {
    let (table, all) = engine::mutants::table(Effort::full(), words);
    let printed = print(&table);
    if all {
        printed
    } else {
        ExitCode::FAILURE
    }
}

/// The list, and to stderr what it reaches.
fn print_engine_list() -> ExitCode {
    let list = engine::list::list();
    eprint!("{}", list.reached);
    let printed = print(&list.text);
    if list.whole {
        printed
    } else {
        ExitCode::FAILURE
    }
}

/// Writes the sessions' definitions, and prints what each session shows.
fn print_sessions() -> ExitCode {
    match sessions::write() {
        Ok(()) => print(&sessions::lines()),
        Err(error) => {
            eprintln!("the sessions cannot be written: {error}");
            ExitCode::FAILURE
        }
    }
}

fn write_stores() -> ExitCode {
    match engine::stores::write() {
        Ok(()) => ExitCode::SUCCESS,
        Err(error) => {
            eprintln!("the store cannot be written: {error}");
            ExitCode::FAILURE
        }
    }
}

fn print(text: &str) -> ExitCode {
    match io::stdout().write_all(text.as_bytes()) {
        Ok(()) => ExitCode::SUCCESS,
        Err(error) => {
            eprintln!("the output cannot be written: {error}");
            ExitCode::FAILURE
        }
    }
}
