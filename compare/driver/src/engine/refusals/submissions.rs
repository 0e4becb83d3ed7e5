//! Submissions with one fault, with two, and at each limit, over states of several kinds.

use super::faults::{faults, limits, Fault};
use super::{Tally, MOST};
use crate::engine::generate::scene::{fewest, ready, reference, Scene};
use crate::engine::generate::sound::Sound;
use crate::engine::ours::{self, Index, COMPUTED, NO_AGE, OLD, OLD_WORD, REREAD};
use crate::engine::reading::{self, Handed};
use crate::engine::session::{index_lengths, Opening, Settings};
use crate::engine::theirs::Theirs;
use crate::engine::words;
use crate::random::Random;
use crate::sessions::session::Window;
use crate::value::same;
use sonalign::running::{self, Kept};

/// All that a submission is handed.
#[derive(Clone)]
pub struct Trial {
    pub settings: Settings,
    pub kept: Kept,
    pub window: Window,
    pub clock: f64,
    /// The buffer that is one short, if any.
    pub index_short: Option<usize>,
    pub work_short: Option<usize>,
}

/// A state to submit to, with the index that goes with it.
pub struct Ground {
    name: &'static str,
    pub index: Index,
    pub trial: Trial,
}

pub fn submissions(tally: &mut Tally) {
    let faults = faults();
    for ground in grounds() {
        let expected = answer(&ground.trial);
        attempt(tally, &ground, "nothing wrong", &ground.trial, expected);
        for fault in &faults {
            let trial = with(&ground.trial, &[fault]);
            attempt(
                tally,
                &ground,
                &fault.name,
                &trial,
                fault_number(&ground, fault),
            );
        }
        for (at, first) in faults.iter().enumerate() {
            for second in &faults[at + 1..] {
                if first.number != second.number && !(first.of_bands && second.of_bands) {
                    pair(tally, &ground, first, second);
                }
            }
        }
        for (name, make) in limits() {
            let mut trial = ground.trial.clone();
            make(&mut trial);
            let expected = answer(&trial);
            attempt(tally, &ground, name, &trial, expected);
        }
    }
}

/// A fault that is none here: an engine without index needs none.
fn fault_number(ground: &Ground, fault: &Fault) -> u32 {
    if fault.number == 6 && ground.trial.settings.frames == 0 {
        answer(&ground.trial)
    } else {
        fault.number
    }
}

fn pair(tally: &mut Tally, ground: &Ground, first: &Fault, second: &Fault) {
    let trial = with(&ground.trial, &[first, second]);
    let place = |number: u32| {
        [7, 6, 8, 9, 10, 11, 12, 13]
            .iter()
            .position(|&n| n == number)
    };
    let mut numbers = [first.number, second.number];
    numbers.sort_by_key(|&number| place(number));
    let without_index = ground.trial.settings.frames == 0;
    let expected = if numbers[0] == 6 && without_index {
        numbers[1]
    } else {
        numbers[0]
    };
    let name = format!("{} and {}", first.name, second.name);
    tally.pairs += 1;
    attempt(tally, ground, &name, &trial, expected);
}

/// Faults that change how many frames or bands there are come before those that change one of them.
fn with(trial: &Trial, faults: &[&Fault]) -> Trial {
    let mut faults = faults.to_vec();
    faults.sort_by_key(|fault| match fault.number {
        10 => 0,
        9 => 1,
        _ => 2,
    });
    let mut trial = trial.clone();
    for fault in faults {
        (fault.make)(&mut trial);
    }
    trial
}

/// By the reading: computed or re-read where nothing is refused.
fn answer(trial: &Trial) -> u32 {
    let (index, work) = lent(trial);
    let handed = Handed {
        window: &trial.window,
        clock: trial.clock,
        index,
        work,
    };
    match reading::submission_refusal(&trial.settings, &trial.kept, &handed) {
        Some(code) => code,
        None if reading::is_reread(&trial.settings, &trial.kept, &trial.window) => REREAD,
        None => COMPUTED,
    }
}

/// Buffers exactly as long as needed, or one short.
pub fn lent(trial: &Trial) -> ([usize; 4], [usize; 2]) {
    let Settings { frames, bands, .. } = trial.settings;
    let mut index = index_lengths(frames, bands);
    if let Some(short) = trial.index_short {
        index[short] = index[short].saturating_sub(1);
    }
    let window = &trial.window;
    let (rows, columns) = (window.bands, window.times.len());
    let wide = rows.saturating_mul(3).saturating_mul(columns + 1);
    let mut work = [
        rows.saturating_mul(2 * columns).min(MOST),
        wide.saturating_add(frames).min(MOST),
    ];
    if let Some(short) = trial.work_short {
        work[short] = work[short].saturating_sub(1);
    }
    (index, work)
}

fn attempt(tally: &mut Tally, ground: &Ground, name: &str, trial: &Trial, expected: u32) {
    let read = answer(trial);
    let name = format!("{}, {name}", ground.name);
    if read != expected {
        tally.differs(&format!("{name}: the reading says {read}, not {expected}"));
    }
    tally.note(&name, expected, called(ground, trial));
    if matches!(expected, 7 | COMPUTED) {
        let state = words::state(&trial.settings, &trial.kept);
        let (code, age) = ours::support_age(&state, OLD);
        let valid = reading::is_state(&trial.settings, &trial.kept);
        let wanted = match reading::support_age(&trial.kept) {
            _ if !valid => (7, OLD),
            Some(age) => (COMPUTED, age),
            None => (NO_AGE, OLD),
        };
        let came = if same(age, wanted.1) {
            Ok(code)
        } else {
            Err(format!("age {age}, not {}", wanted.1))
        };
        tally.note(&format!("support age: {name}"), wanted.0, came);
    }
}

/// The answer, where all that must be is untouched.
fn called(ground: &Ground, trial: &Trial) -> Result<u32, String> {
    let (lengths, work) = lent(trial);
    // A state's counts may ask for more than this index has.
    let mut fits = lengths.iter().zip(ground.index.lengths());
    let index = match fits.all(|(needed, has)| *needed <= has) {
        true => ground.index.clone(),
        false => Index::new(lengths),
    };
    let before = index.clone();
    let mut state = words::state(&trial.settings, &trial.kept);
    let old = state.clone();
    let mut snapshot = vec![OLD_WORD; words::SNAPSHOT];
    let (mut work32, mut work64) = (vec![f32::NAN; work[0]], vec![f64::NAN; work[1]]);
    let code = ours::submit(
        &mut state,
        &index,
        lengths,
        &trial.window,
        trial.clock,
        (&mut work32, &mut work64),
        &mut snapshot,
    );
    let nan32 = |x: &f32| x.to_bits() == f32::NAN.to_bits();
    let nan64 = |x: &f64| x.to_bits() == f64::NAN.to_bits();
    let worked = !work32.iter().all(nan32) || !work64.iter().all(nan64);
    let shown = snapshot.iter().any(|&word| word != OLD_WORD);
    if !index.is(&before) {
        return Err(format!("answer {code} changed the index"));
    }
    match code {
        COMPUTED if !shown => Err("computed and no snapshot written".into()),
        REREAD if !shown || state != old => Err("a re-reading changed the state".into()),
        COMPUTED | REREAD => Ok(code),
        _ if shown || worked || state != old => Err(format!("refused {code} and written")),
        _ => Ok(code),
    }
}

/// A fresh state, one with a lock, one that a window is a re-reading for, one without index.
pub fn grounds() -> Vec<Ground> {
    let hop = 250.0;
    let frames = fewest(hop) + 30;
    let mut random = Random::new(2);
    let film = reference(&mut random, Sound::Smooth, hop, 0.0, 2, frames + 30);
    let scene = Scene::new(random, hop, ready(hop, frames), film, frames, 0.0, 3.0);
    let mut rejected = scene.opening.clone();
    rejected.reference.times[1] += 100.0;
    vec![
        ground("fresh", &scene.opening, 0, 0.0),
        ground("locked", &scene.opening, 3, 500.0),
        ground("re-reading", &scene.opening, 3, 10.0),
        ground("without index", &rejected, 0, 0.0),
        ground("without index, again", &rejected, 2, 10.0),
    ]
}

/// So many windows heard before, and one more so much later.
fn ground(name: &'static str, opening: &Opening, heard: usize, later: f64) -> Ground {
    let hop = opening.hop;
    let frames = fewest(hop) + 30;
    let random = Random::new(3);
    let film = opening.reference.clone();
    let mut scene = Scene::new(random, hop, opening.configuration, film, frames, 0.0, 3.0);
    let mut theirs = Theirs::open(running::open, opening, 0);
    for _ in 0..heard {
        scene.hear();
        scene.after(1_000.0);
    }
    let submissions = scene.submitted();
    for submission in &submissions {
        let handed = theirs.handed(submission);
        theirs.submit(&handed);
    }
    scene.now = scene.last() + later;
    let mut index = Index::new(index_lengths(
        opening.reference.times.len(),
        opening.reference.bands,
    ));
    let mut state = vec![0; words::STATE];
    ours::open(opening, &mut index, &mut state);
    Ground {
        name,
        index,
        trial: Trial {
            settings: theirs.settings,
            kept: theirs.kept(),
            window: scene.heard(frames),
            clock: 5.0,
            index_short: None,
            work_short: None,
        },
    }
}
