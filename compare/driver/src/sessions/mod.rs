//! Small sessions with the Rust's answers, for the proof checker to work out.

mod antt;
mod cases;
mod float;
mod material;
mod readable;
pub mod record;
mod refusal;
pub mod session;

use crate::recorded;
use session::Recorded;
use std::{fs, io};

/// A line for each submission, to judge the sessions by.
pub fn lines() -> String {
    readable::lines(&recorded())
}

/// Writes each session's definitions.
pub fn write() -> io::Result<()> {
    let write = |session: &Recorded| fs::write(recorded::path(&file(session)), antt::text(session));
    recorded().iter().try_for_each(write)
}

/// Whether the definitions that stand are the Rust's sessions.
pub fn check() -> bool {
    let stands = |session: &Recorded| {
        let name = format!("session {}", session.session.name);
        recorded::stands(&name, &file(session), &antt::text(session))
    };
    let sessions = recorded();
    let standing = sessions.iter().filter(|session| stands(session)).count();
    standing > 0 && standing == sessions.len()
}

fn recorded() -> Vec<Recorded> {
    cases::all().into_iter().map(record::record).collect()
}

fn file(session: &Recorded) -> String {
    format!("crates/engine_sessions/specs/{}", antt::file_name(session))
}
