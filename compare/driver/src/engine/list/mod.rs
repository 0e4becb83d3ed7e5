//! The list of crates/engine_replay: sessions with the Rust's answers, a line for each opening and
//! each submission. What is refused is the driver's own reading.

mod line;
mod plan;
mod sound;

use super::kinds::{Counts, Kind};
use super::reading::{self, Handed};
use super::session::{index_lengths, work_lengths, Opening};
use super::theirs::Theirs;
use super::words;
use crate::reached::remark;
use crate::recorded;
use crate::sessions::session::{Soundtrack, Window};
use line::{Head, Step};
use sonalign::running::{self, Rows};
use sonalign::types::Configuration;

/// The program's arrays for the index, and its longest list.
const ROOM: [usize; 4] = [1_600, 400, 1_604, 404];
const MOST_LINES: usize = 257;

/// What the sessions have to reach, beside each hop and each number of bands.
const NEEDED: &[Kind] = &[
    Kind::OpeningRefused1,
    Kind::OpeningRefused2,
    Kind::OpeningRefused3,
    Kind::OpeningRefused4,
    Kind::OpeningRefused5,
    Kind::OpeningRefused6,
    Kind::OpenedWithoutIndex,
    Kind::Refused6,
    Kind::Refused8,
    Kind::Refused9,
    Kind::Refused10,
    Kind::Refused11,
    Kind::Refused12,
    Kind::Refused13,
    Kind::Reread,
    Kind::RereadEstimate,
    Kind::RereadWithoutIndex,
    Kind::RereadUnmatched,
    Kind::JumpBack,
    Kind::JumpOn,
    Kind::NoJumpAtTwoHops,
    Kind::Listening,
    Kind::Locking,
    Kind::Locked,
    Kind::Relocking,
    Kind::Lost,
    Kind::Failed,
    Kind::Supported,
    Kind::InsufficientDuration,
    Kind::InsufficientEnergy,
    Kind::InsufficientActiveFrames,
    Kind::WeakAlignmentPeak,
    Kind::AmbiguousOffset,
    Kind::LostSignal,
    Kind::IndexUnavailable,
    Kind::EightCandidates,
    Kind::Passing,
    Kind::FailingHalf,
    Kind::PassingNoRecent,
    Kind::Carried,
    Kind::Held,
    Kind::DroppedElsewhere,
    Kind::ChainEnd,
    Kind::ChainEndOnJump,
    Kind::ChainEndFirst,
    Kind::ChainEndAgain,
    Kind::LocalSupport,
    Kind::LocalFails,
    Kind::LocalOnly,
    Kind::LocalAndWhole,
    Kind::Coast,
    Kind::Hop20,
    Kind::Hop23,
    Kind::Hop250,
    Kind::Hop500,
    Kind::Hop501,
    Kind::Hop1000,
];

pub struct List {
    pub text: String,
    /// What was reached, a line each.
    pub reached: String,
    /// Whether that is all that has to be.
    pub whole: bool,
}

pub fn list() -> List {
    let mut replay = Replay::new();
    for session in plan::sessions() {
        replay.session(&session);
    }
    replay.done()
}

/// Whether the list that stands is the Rust's.
pub fn check() -> bool {
    let list = list();
    let stands = recorded::stands("list of sessions", "crates/engine_replay/stdin", &list.text);
    if !list.whole {
        println!("list of sessions: NOT ALL REACHED\n{}", list.reached);
    }
    stands && list.whole
}

/// Runs the sessions, and keeps what the program keeps from one to the next.
struct Replay {
    lines: Vec<line::Line>,
    counts: Counts,
    sessions: usize,
    /// By the number of bands, how many sessions were searched.
    bands: [usize; 5],
    /// The most frames of a reference that was searched, and of a window.
    longest: [usize; 2],
    /// Sessions whose first answer is a lock, and those that lock by a chain of several.
    locks: [usize; 2],
    state: Vec<u64>,
    index: [Vec<f64>; 4],
}

impl Replay {
    fn new() -> Self {
        Self {
            lines: Vec::new(),
            counts: Counts::new(),
            sessions: 0,
            bands: [0; 5],
            longest: [0; 2],
            locks: [0; 2],
            state: vec![0; words::STATE],
            index: ROOM.map(|room| vec![0.0; room]),
        }
    }

    fn session(&mut self, (head, steps): &(Head, Vec<Step>)) {
        self.sessions += 1;
        let Some(mut theirs) = self.open(head) else {
            return;
        };
        if theirs.is_indexed() {
            self.bands[head.bands] += 1;
            self.longest[0] = self.longest[0].max(head.frames);
        }
        for (number, step) in steps.iter().enumerate() {
            let locked = theirs.kept().milestones[2].is_some();
            self.submit(head, &mut theirs, step);
            if !locked && theirs.kept().milestones[2].is_some() {
                self.locks[usize::from(number > 0)] += 1;
            }
        }
    }

    fn open(&mut self, head: &Head) -> Option<Theirs> {
        let opening = opening(head);
        let refusal = reading::opening_refusal(&opening, ROOM);
        let opened = match refusal {
            Some(code) => {
                self.counts.note_refused_opening(code);
                None
            }
            None => Some(Theirs::open(running::open, &opening, 0)),
        };
        if let Some(theirs) = &opened {
            self.state = theirs.state();
            match theirs.index() {
                Some(rows) => self.fill(rows),
                None => self.counts.add(Kind::OpenedWithoutIndex),
            }
        }
        let floats = self.index.iter().flatten().map(|&x| words::float(x));
        let answers = [
            u64::from(refusal.unwrap_or(0)),
            digest(self.state.iter().copied()),
            digest(floats),
        ];
        self.lines.push(head.line(answers));
        opened
    }

    /// What lay behind the index stays.
    fn fill(&mut self, rows: Rows) {
        let wide = |row: Vec<f32>| row.into_iter().map(f64::from).collect();
        let rows: [Vec<f64>; 4] = [
            wide(rows.fine),
            wide(rows.coarse),
            rows.fine_energy,
            rows.coarse_energy,
        ];
        for (buffer, row) in self.index.iter_mut().zip(rows) {
            buffer[..row.len()].copy_from_slice(&row);
        }
    }

    fn submit(&mut self, head: &Head, theirs: &mut Theirs, step: &Step) {
        let window = window(head, step);
        self.longest[1] = self.longest[1].max(step.frames);
        let made = step.made_bands(head.bands);
        let mut work = work_lengths(made, step.frames, head.frames);
        if let Some(part) = step.fault.checked_sub(5).filter(|&part| part < 2) {
            work[part] -= 1;
        }
        let handed = Handed {
            window: &window,
            clock: step.clock,
            index: lent_index(head, step),
            work,
        };
        let seen = theirs.submit(&handed);
        self.counts.note(&seen);
        self.state = theirs.state();
        let snapshot = seen.snapshot.as_ref().map(words::snapshot);
        let answers = [
            u64::from(seen.code),
            digest(self.state.iter().copied()),
            digest(snapshot.unwrap_or_default()),
        ];
        self.lines.push(step.line(answers));
    }

    fn done(mut self) -> List {
        // One bit of the last line's state is wrong: the program has to say so.
        if let Some(last) = self.lines.last_mut() {
            last[line::STATE] ^= 1;
        }
        let mut reached = format!(
            "{} sessions, {} submissions\n",
            self.sessions,
            self.lines.len() - self.sessions
        );
        let mut whole = self.lines.len() <= MOST_LINES;
        for &kind in NEEDED {
            let count = self.counts.of(kind);
            whole &= count > 0;
            let name = format!("{kind:?}");
            reached += &format!("  {name:<24} {count:>4}{}\n", remark(count > 0));
        }
        for (bands, &count) in self.bands.iter().enumerate().skip(1) {
            whole &= count > 0;
            reached += &format!("  {bands} bands {count:>21}{}\n", remark(count > 0));
        }
        for (name, count) in ["locked at once", "locked by a chain"]
            .iter()
            .zip(self.locks)
        {
            whole &= count > 0;
            reached += &format!("  {name:<24} {count:>4}{}\n", remark(count > 0));
        }
        let long = self.longest == [400, 120];
        whole &= long;
        reached += &format!("  longest {:?}{}\n", self.longest, remark(long));
        List {
            text: self.lines.iter().map(line::text).collect(),
            reached,
            whole,
        }
    }
}

/// The word so far, turned by 9 bits, and the next added.
fn digest(words: impl IntoIterator<Item = u64>) -> u64 {
    let with = |word: u64, next| word.rotate_left(9).wrapping_add(next);
    words.into_iter().fold(0, with)
}

fn opening(head: &Head) -> Opening {
    let mut reference = Soundtrack {
        bands: head.said_bands(),
        times: sound::times(head.start, head.hop, head.frames),
        values: sound::reference(head),
    };
    line::spoil(
        head.fault,
        head.at,
        head.hop,
        &mut reference.times,
        &mut reference.values,
    );
    if head.fault == line::FEWER_VALUES {
        reference.values.pop();
    }
    Opening {
        configuration: Configuration {
            minimum_readiness_duration_ms: head.readiness,
            tracking_query_duration_ms: head.tracking,
            minimum_active_frame_fraction: head.fraction,
            ..Configuration::default()
        },
        hop: head.hop,
        reference,
        short: None,
    }
}

fn window(head: &Head, step: &Step) -> Window {
    let made = step.made_bands(head.bands);
    let mut window = Window {
        bands: line::said_bands(step.fault, made),
        times: sound::times(step.begin, head.hop, step.frames),
        energies: sound::energies(step),
        values: sound::window(head, step, made),
    };
    line::spoil(
        step.fault,
        step.at,
        head.hop,
        &mut window.times,
        &mut window.values,
    );
    match step.fault {
        line::FEWER_ENERGIES => window.energies.truncate(step.frames - 1),
        line::FEWER_VALUES => window.values.truncate(made * step.frames - 1),
        _ => {}
    }
    window
}

/// The program lends its arrays whole, or one of them one short of what the reference needs.
fn lent_index(head: &Head, step: &Step) -> [usize; 4] {
    let mut lent = ROOM;
    if let Some(part) = step.fault.checked_sub(1).filter(|&part| part < 4) {
        lent[part] = index_lengths(head.frames, head.bands)[part] - 1;
    }
    lent
}
