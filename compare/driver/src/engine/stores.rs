//! The store on record, compare/stores/layout-1.txt: states as this layout's code keeps them, for the
//! code of later layouts to be tried on. They come of loads, so that they can be made again.

use super::both::{Both, Opened};
use super::ours::{self, COMPUTED, NOTHING_KEPT, OLD_WORD};
use super::session::{Lent, Opening, Submission};
use super::words::{self, LAYOUT, PLACES, STATE, STORE};
use crate::recorded;
use crate::sessions::session::Window;
use crate::workload::generator::load;
use crate::workload::reading::Input;
use sonalign::types::Configuration;
use std::{fs, io};

const FILE: &str = "compare/stores/layout-1.txt";

const HOP: f64 = 20.0;
const BANDS: usize = 4;
const FILM_SEED: u64 = 88_172_645_463_325_252;
const FILM_FRAMES: usize = 600;
const NOISE_SEED: u64 = 1;
const WINDOW_FRAMES: usize = 151;
/// Recorded time less the film's.
const LATER_MS: f64 = 5_000.0;
/// The film's frame that the first window begins with, and how many lie between two.
const FIRST: usize = 40;
const STEP: usize = 25;
/// By how much the film's second time is off where it is to open without index.
const OFF_MS: f64 = 5.0;
/// How many windows are heard after a state was restored.
const AFTER: usize = 3;

/// How a state came about.
#[derive(Clone, Copy)]
struct Kept {
    /// By so many windows.
    windows: usize,
    /// Whether the last of them is of other sound.
    missed: bool,
    /// Whether energies go up to +90.
    loud: bool,
    indexed: bool,
    /// Whether its hop was made a NaN then.
    invalid: bool,
}

const FRESH: Kept = Kept {
    windows: 0,
    missed: false,
    loud: false,
    indexed: true,
    invalid: false,
};
const LOCKED: Kept = Kept {
    windows: 3,
    ..FRESH
};
const COASTING: Kept = Kept {
    windows: 4,
    missed: true,
    ..FRESH
};
const WITHOUT_INDEX: Kept = Kept {
    windows: 1,
    indexed: false,
    ..FRESH
};
const INVALID: Kept = Kept {
    invalid: true,
    ..LOCKED
};
const LOUD: Kept = Kept {
    loud: true,
    ..LOCKED
};

/// What is kept under each name, from 1 on; nothing in two places.
const UNDER: [(&str, Option<Kept>); PLACES] = [
    ("fresh", Some(FRESH)),
    ("locked", Some(LOCKED)),
    ("coasting", Some(COASTING)),
    ("without index", Some(WITHOUT_INDEX)),
    ("invalid", Some(INVALID)),
    ("empty", None),
    ("foreign", None),
    ("loud", Some(LOUD)),
];
const FOREIGN: usize = 7;
const FOREIGN_FROM: u64 = LAYOUT + 1;

fn head() -> String {
    format!(
        "\
# A store of layout {LAYOUT}: {PLACES} places of {STATE} words, as kistovab_keep wrote them. Made by
# `compare/run --stores`; compare/README.md says what for.
# The film is the load of seed {FILM_SEED}, hop {HOP}, {BANDS} bands, {FILM_FRAMES} frames, opened with
# the default configuration. Window n, from 0, is the film's {WINDOW_FRAMES} frames from {FIRST} + {STEP} n on,
# recorded {LATER_MS} ms later than the film has them, with energies of -20, at clock 500 (n + 1).
# Fresh is before all windows, locked after windows 0 to 2. Coasting is after window 3 too, with
# values of the load of seed {NOISE_SEED}, {WINDOW_FRAMES} frames. Without index is after window 0 over a film
# whose second time is {OFF_MS} ms late. Invalid is locked, its hop then a NaN. Loud is locked with
# energies of -20 + 10 (i mod 12) in frame i, from 0. Foreign words count up from {FOREIGN_FROM}.
"
    )
}

// ---- what is heard

fn film() -> Window {
    load(&Input::fitting(FILM_SEED, HOP, BANDS, FILM_FRAMES))
}

impl Kept {
    fn opening(&self) -> Opening {
        let mut film = film();
        if !self.indexed {
            film.times[1] += OFF_MS;
        }
        Opening {
            configuration: Configuration::default(),
            hop: HOP,
            reference: film.into(),
            short: None,
        }
    }

    /// Window n, from 0.
    fn submission(&self, n: usize) -> Submission {
        let mut window = heard(FIRST + n * STEP);
        if self.missed && n + 1 == self.windows {
            window.values = load(&Input::fitting(NOISE_SEED, HOP, BANDS, WINDOW_FRAMES)).values;
        }
        if self.loud {
            for (frame, energy) in window.energies.iter_mut().enumerate() {
                *energy += 10.0 * (frame % 12) as f64;
            }
        }
        Submission {
            shows: "on record",
            window,
            clock: 500.0 * (n + 1) as f64,
            lent: Lent::Enough,
        }
    }

    /// Both sides, brought to this state.
    fn reached(&self) -> Result<Box<Both>, String> {
        let Opened::Opened(mut both) = Both::open(&self.opening(), 0)? else {
            return Err("the film does not open".into());
        };
        for n in 0..self.windows {
            both.submit(&self.submission(n))?;
        }
        if self.invalid {
            let mut settings = both.theirs.settings;
            settings.hop = f64::NAN;
            let kept = both.theirs.kept();
            both.set(settings, kept);
        }
        Ok(both)
    }
}

/// The film from that frame on.
fn heard(from: usize) -> Window {
    let film = film();
    let part = from..from + WINDOW_FRAMES;
    let rows = film.values.chunks(FILM_FRAMES);
    Window {
        bands: BANDS,
        times: film.times[part.clone()]
            .iter()
            .map(|time| time + LATER_MS)
            .collect(),
        energies: film.energies[part.clone()].to_vec(),
        values: rows.flat_map(|row| &row[part.clone()]).copied().collect(),
    }
}

// ---- the file

/// The store, by the library's own keeping.
fn made() -> Result<Vec<u64>, String> {
    let mut store = vec![0; STORE];
    for (name, (kind, kept)) in (1..).zip(UNDER) {
        if let Some(kept) = kept {
            let both = kept.reached()?;
            match ours::keep(&both.ours.state, name, &mut store) {
                COMPUTED => {}
                code => return Err(format!("keeping {kind} answers {code}")),
            }
        }
    }
    for (word, count) in store[words::under(FOREIGN)].iter_mut().zip(FOREIGN_FROM..) {
        *word = count;
    }
    Ok(store)
}

fn text(store: &[u64]) -> String {
    let mut text = head();
    for (name, (kind, _)) in (1..).zip(UNDER) {
        text += &format!("place {name}, {kind}\n");
        for row in store[words::under(name)].chunks(6) {
            let row: Vec<String> = row.iter().map(|word| format!("{word:016x}")).collect();
            text += &(row.join(" ") + "\n");
        }
    }
    text
}

/// The words that such a text has.
fn read(text: &str) -> Result<Vec<u64>, String> {
    let is_row = |line: &&str| !line.starts_with('#') && !line.starts_with("place");
    let words = text.lines().filter(is_row).flat_map(str::split_whitespace);
    let word = |word: &str| {
        u64::from_str_radix(word, 16).map_err(|error| format!("{word} in {FILE}: {error}"))
    };
    let store: Vec<u64> = words.map(word).collect::<Result<_, _>>()?;
    match store.len() {
        STORE => Ok(store),
        count => Err(format!(
            "{FILE} has {count} words, not {STORE}: put it back as it was recorded"
        )),
    }
}

pub fn write() -> io::Result<()> {
    let store = made().map_err(io::Error::other)?;
    fs::write(recorded::path(FILE), text(&store))
}

// ---- the comparison

/// Whether the file is what is made now, and its places are restored as the states that they were.
pub fn check() -> bool {
    let stands = match made() {
        Ok(store) => recorded::stands("store", FILE, &text(&store)),
        Err(what) => told(&what),
    };
    let record = fs::read_to_string(recorded::path(FILE)).unwrap_or_default();
    let restored = match read(&record).and_then(|store| restore_all(&store)) {
        Ok(submissions) => {
            println!("store: its places restored, {submissions} submissions after that answered as the Rust does");
            submissions > 0
        }
        Err(what) => told(&what),
    };
    stands && restored
}

fn told(what: &str) -> bool {
    println!("store: {what}");
    false
}

/// Gives how many submissions came after.
fn restore_all(store: &[u64]) -> Result<usize, String> {
    let mut submissions = 0;
    for (name, (kind, kept)) in (1..).zip(UNDER) {
        let came = match kept {
            Some(kept) => restore(store, name, &kept),
            None => restore_nothing(store, name),
        };
        submissions += came.map_err(|what| format!("place {name}, {kind}: {what}"))?;
    }
    Ok(submissions)
}

/// Into words that held something else. What comes back is what both sides were brought to.
fn restore(store: &[u64], name: usize, kept: &Kept) -> Result<usize, String> {
    let mut both = kept.reached()?;
    both.ours.state.fill(OLD_WORD);
    match ours::restore(&mut both.ours.state, name, store) {
        COMPUTED => both.compare()?,
        code => return Err(format!("restoring answers {code}")),
    }
    for n in kept.windows..kept.windows + AFTER {
        let submission = kept.submission(n);
        let code = both.submit(&submission)?.code;
        let expected = if kept.invalid { 7 } else { COMPUTED };
        if code != expected {
            return Err(format!("window {n} is answered {code}, not {expected}"));
        }
    }
    Ok(AFTER)
}

fn restore_nothing(store: &[u64], name: usize) -> Result<usize, String> {
    let mut state = vec![OLD_WORD; STATE];
    match ours::restore(&mut state, name, store) {
        NOTHING_KEPT if state.iter().all(|&word| word == OLD_WORD) => Ok(0),
        code => Err(format!("restoring answers {code}, or writes")),
    }
}

#[cfg(test)]
mod tests {
    use super::*;
    use crate::engine::reading;
    use sonalign::running;
    use sonalign::types::State;

    fn kept(kind: Kept) -> running::Kept {
        kind.reached().expect("both sides agree").theirs.kept()
    }

    fn shown(kind: Kept) -> Option<State> {
        kept(kind).last_snapshot.map(|snapshot| snapshot.state)
    }

    #[test]
    fn states_are_what_they_are_called() {
        assert_eq!(kept(FRESH), running::Kept::FRESH);
        assert_eq!(reading::support_age(&kept(LOCKED)), Some(0.0));
        assert!(reading::support_age(&kept(COASTING)).is_some_and(|age| age > 0.0));
        assert_eq!(shown(WITHOUT_INDEX), Some(State::Failed));
        let both = INVALID.reached().expect("both sides agree");
        assert!(!reading::is_state(
            &both.theirs.settings,
            &both.theirs.kept()
        ));
        assert_eq!(shown(LOUD), Some(State::Locked));
        let energies = LOUD.submission(2).window.energies;
        assert_eq!(energies.into_iter().fold(f64::MIN, f64::max), 90.0);
    }

    #[test]
    fn the_store_is_read_as_it_is_written() {
        let store: Vec<u64> = (0..STORE as u64).map(|n| n << 40).collect();
        assert_eq!(read(&text(&store)), Ok(store.clone()));
        assert!(read(&text(&store).replacen("0000000000000000 ", "", 1)).is_err());
        assert!(read("place 1, fresh\nx").is_err());
    }
}
