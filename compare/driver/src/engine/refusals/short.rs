//! Words too short, and words of another layout.

use super::openings::{needed_index, sound_opening};
use super::submissions::{grounds, lent, Ground};
use super::Tally;
use crate::engine::ours::{self, Index, OLD, OLD_WORD, WORDS_TOO_SHORT};
use crate::engine::words;

/// Words too short are told first, whatever else is wrong; another layout is no state.
pub fn short_words(tally: &mut Tally) {
    let opening = sound_opening();
    let mut wrong = opening.clone();
    wrong.hop = f64::NAN;
    for opening in [&opening, &wrong] {
        for length in [0, 1, words::STATE - 1] {
            let mut index = Index::new(needed_index(opening));
            let before = index.clone();
            let mut state = vec![OLD_WORD; length];
            let code = ours::open(opening, &mut index, &mut state);
            let kept = index.is(&before) && state.iter().all(|&word| word == OLD_WORD);
            tally.note("opening, words", WORDS_TOO_SHORT, untouched(code, kept));
        }
    }
    for ground in grounds() {
        for clock in [1.0, f64::NAN] {
            for (state, snapshot) in [
                (words::STATE - 1, words::SNAPSHOT),
                (words::STATE, words::SNAPSHOT - 1),
                (0, words::SNAPSHOT),
                (words::STATE, 0),
            ] {
                let came = short_submission(&ground, clock, state, snapshot);
                tally.note("submission, words", WORDS_TOO_SHORT, came);
            }
        }
        let state = words::state(&ground.trial.settings, &ground.trial.kept);
        let (code, age) = ours::support_age(&state[..words::STATE - 1], OLD);
        tally.note(
            "support age, words",
            WORDS_TOO_SHORT,
            untouched(code, age == OLD),
        );
        for layout in [0, 2, u64::MAX] {
            other_layout(tally, &ground, layout);
        }
    }
}

fn untouched(code: u32, kept: bool) -> Result<u32, String> {
    match kept {
        true => Ok(code),
        false => Err(format!("answer {code}, and written")),
    }
}

fn short_submission(
    ground: &Ground,
    clock: f64,
    state: usize,
    snapshot: usize,
) -> Result<u32, String> {
    let (lengths, work) = lent(&ground.trial);
    let mut words = words::state(&ground.trial.settings, &ground.trial.kept);
    words.truncate(state);
    let before = words.clone();
    let mut shown = vec![OLD_WORD; snapshot];
    let (mut work32, mut work64) = (vec![0.5; work[0]], vec![0.5; work[1]]);
    let code = ours::submit(
        &mut words,
        &ground.index,
        lengths,
        &ground.trial.window,
        clock,
        (&mut work32, &mut work64),
        &mut shown,
    );
    let kept = words == before
        && shown.iter().all(|&word| word == OLD_WORD)
        && work32.iter().all(|&x| x == 0.5)
        && work64.iter().all(|&x| x == 0.5);
    untouched(code, kept)
}

fn other_layout(tally: &mut Tally, ground: &Ground, layout: u64) {
    let (lengths, work) = lent(&ground.trial);
    let mut state = words::state(&ground.trial.settings, &ground.trial.kept);
    state[0] = layout;
    let before = state.clone();
    let mut shown = vec![OLD_WORD; words::SNAPSHOT];
    let (mut work32, mut work64) = (vec![0.5; work[0]], vec![0.5; work[1]]);
    let code = ours::submit(
        &mut state,
        &ground.index,
        lengths,
        &ground.trial.window,
        1.0,
        (&mut work32, &mut work64),
        &mut shown,
    );
    let kept = state == before && shown.iter().all(|&word| word == OLD_WORD);
    tally.note("submission, another layout", 7, untouched(code, kept));
    let (code, age) = ours::support_age(&state, OLD);
    tally.note(
        "support age, another layout",
        7,
        untouched(code, age == OLD),
    );
}
