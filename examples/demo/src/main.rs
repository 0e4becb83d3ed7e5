//! Plays a made-up screening: what a seat hears goes through the engine, a line a window, and a
//! picture of it is drawn. `./demo` in the repository's root builds and runs it, there.

mod chorus;
mod film;
mod lanes;
mod mark;
mod outcome;
mod panels;
mod picture;
mod places;
mod play;
mod rerun;
mod seat;
mod session;
mod svg;
#[cfg(test)]
mod tests;

use std::fs;
use std::io::{self, IsTerminal, Write};
use std::process::ExitCode;
use std::time::Duration;

struct Played {
    name: &'static str,
    lines: Vec<String>,
    picture: String,
}

fn main() -> ExitCode {
    let word = std::env::args().nth(1);
    let done = match word.as_deref() {
        None => show(&first()),
        Some("second") => show(&second()),
        Some("rerun") => show(&rerun()),
        Some("--check") => check(),
        Some(other) => Err(format!("'{other}' is no film: see ./demo --help")),
    };
    match done {
        Ok(()) => ExitCode::SUCCESS,
        Err(message) => {
            eprintln!("demo: {message}");
            ExitCode::FAILURE
        }
    }
}

fn first() -> Played {
    let screening = seat::first();
    let moments = session::hear(&screening);
    Played {
        name: "session.svg",
        lines: play::first(&moments),
        picture: picture::draw(&screening, &moments),
    }
}

fn second() -> Played {
    let screening = seat::second();
    let moments = session::hear(&screening);
    let in_order = session::hear(&seat::second_in_order());
    Played {
        name: "chorus.svg",
        lines: play::second(&moments, &in_order),
        picture: chorus::draw(&screening, &moments),
    }
}

fn rerun() -> Played {
    let rerun = mark::rerun();
    Played {
        name: "rerun.svg",
        lines: play::rerun(&rerun),
        picture: rerun::draw(&rerun),
    }
}

fn show(played: &Played) -> Result<(), String> {
    draw(played)?;
    let mut out = io::stdout();
    // To be read along.
    let pause = Duration::from_millis(if out.is_terminal() { 40 } else { 0 });
    for line in &played.lines {
        if writeln!(out, "{line}").is_err() {
            // Nobody reads on, as with `./demo | head`.
            return Ok(());
        }
        std::thread::sleep(pause);
    }
    Ok(())
}

fn draw(played: &Played) -> Result<(), String> {
    let path = format!("target/{}", played.name);
    let written = fs::create_dir_all("target").and_then(|()| fs::write(&path, &played.picture));
    written.map_err(|error| format!("{path} cannot be written: {error}"))
}

/// Whether the documents show what is played now.
fn check() -> Result<(), String> {
    let films = [first(), second(), rerun()];
    for played in &films {
        draw(played)?;
        let name = played.name;
        if fs::read_to_string(format!("docs/{name}")).ok().as_ref() != Some(&played.picture) {
            return Err(format!(
                "docs/{name} is not what ./demo draws now: look at target/{name}, and if it is right copy it to docs/"
            ));
        }
    }
    let readme = fs::read_to_string("README.md").unwrap_or_default();
    let lines: Vec<_> = films.iter().flat_map(|film| film.lines.clone()).collect();
    if let Some(line) = outdated(&readme, &lines) {
        return Err(format!(
            "README.md shows a line that ./demo does not print now; put its line there in place of: {line}"
        ));
    }
    let pictures: Vec<_> = films
        .iter()
        .map(|film| format!("docs/{}", film.name))
        .collect();
    let pictures = pictures.join(", ");
    println!("demo: {pictures} and README.md show what ./demo plays");
    Ok(())
}

/// A line of README.md that looks like a window's, and is not printed.
fn outdated<'a>(readme: &'a str, lines: &[String]) -> Option<&'a str> {
    let is_window = |line: &&str| {
        let mut words = line.split_whitespace();
        let time = words.next().is_some_and(|word| word.parse::<f64>().is_ok());
        time && words.next() == Some("s")
    };
    let mut shown = readme.lines().filter(is_window);
    shown.find(|shown| !lines.iter().any(|line| line == shown))
}
