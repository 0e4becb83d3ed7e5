//! Stores and states of words that no call wrote. Restoring answers 0 or 15 and gives the words that
//! these stand for; keeping writes them. Submissions then go on, refused or answered.

use super::kinds::{Counts, Kind};
use crate::engine::both::compare_words;
use crate::engine::generate;
use crate::engine::ours::{self, Ours, COMPUTED, NOTHING_KEPT, NO_AGE, OLD, OLD_WORD, REREAD};
use crate::engine::reading::Handed;
use crate::engine::session::{work_lengths, Submission};
use crate::engine::words::{self, place::*, LAYOUT, MOST_CANDIDATES, PLACES, STATE, STORE};
use crate::family::pattern;
use crate::random::Random;

const TAIL: usize = 3;

/// A session's beginning, then every place of such a store restored, with a submission after each,
/// and such words kept. Gives how many calls and submissions that was.
pub fn run(number: u64, counts: &Counts) -> Result<(u64, u64), String> {
    let mut random = Random::new(pattern(number ^ 0xf04e_1640));
    let family = random.below(17) as u64;
    let session = generate::session(random.below(2_000) as u64 * 24 + family);
    let (_, mut ours) = Ours::open(&session.opening, TAIL);
    let begun = random.below(5);
    for submission in session.submissions.iter().take(begun) {
        hand_in(&mut ours, submission)?;
    }
    let store = store(&mut random, ours.words());
    let mut heard = session.submissions.iter().skip(begun);
    let (mut calls, mut submissions) = (0, begun as u64);
    for name in 1..=PLACES {
        restore(&mut ours, name, &store, counts)?;
        calls += 1;
        if let Some(submission) = heard.next() {
            let answered = hand_in(&mut ours, submission)?;
            counts.add_if(Kind::ForeignAnswered, answered);
            counts.add_if(Kind::ForeignRefused, !answered);
            submissions += 1;
        }
        keep(&store[words::under(name)], name, counts)?;
        calls += 2;
    }
    Ok((calls, submissions))
}

// ---- the words

/// Of one bit pattern, of any, of the layout number and any behind it, or of the state given with
/// another layout or with some words changed.
fn store(random: &mut Random, state: &[u64]) -> Vec<u64> {
    let kind = random.below(8);
    let mut store = match kind {
        0 => vec![u64::MAX; STORE],
        1 => vec![1; STORE],
        2 | 3 => (0..STORE).map(|_| random.bits()).collect(),
        _ => state.repeat(PLACES),
    };
    for name in 1..=PLACES {
        let place = &mut store[words::under(name)];
        match kind {
            0..=2 => {}
            3 => place[0] = LAYOUT,
            _ if random.one_in(4) => place[0] = random.one_of(&[0, 2, LAYOUT + (1 << 32)]),
            _ => {
                for _ in 0..1 + random.below(6) {
                    place[random.below(STATE)] = word(random);
                }
            }
        }
    }
    store
}

fn word(random: &mut Random) -> u64 {
    match random.below(6) {
        0 => random.bits(),
        1 => random.below(12) as u64,
        2 => 65_536 + random.below(70) as u64,
        3 => 0x7ff0_0000_0000_0001 + random.below(99) as u64,
        4 => words::float(-f64::INFINITY),
        _ => words::float(random.unit() * 1e4),
    }
}

/// The words of the state that these words are read as.
fn canonical(from: &[u64]) -> Vec<u64> {
    if from[0] != LAYOUT {
        let mut none = vec![0; STATE];
        none[0] = LAYOUT;
        none[SEARCH] = words::float(f64::NEG_INFINITY);
        return none;
    }
    let mut read: Vec<u64> = from
        .iter()
        .map(|&word| words::float(f64::from_bits(word)))
        .collect();
    let shown = |words: &[usize]| words.iter().map(|word| LAST_SNAPSHOT + word).collect();
    let frame_counts = (0..MOST_CANDIDATES).map(|n| LAST_SNAPSHOT + 23 + 5 * n);
    let counts: Vec<usize> = shown(&[17, CANDIDATE_COUNT]);
    for word in counts.into_iter().chain(frame_counts) {
        read[word] = from[word];
    }
    for word in [FRAMES, BANDS] {
        read[word] = from[word] % 65_536;
    }
    let flags: Vec<usize> = shown(&[11, 18, 19, 61]);
    for word in flags.into_iter().chain([HAS_SNAPSHOT]) {
        read[word] = u64::from(from[word] == 1);
    }
    for (word, last) in [(0, 8), (1, 3), (2, 5), (7, 10)] {
        read[LAST_SNAPSHOT + word] = from[LAST_SNAPSHOT + word].min(last);
    }
    for (tag, numbers) in tags() {
        if from[tag] != 1 {
            read[tag..=tag + numbers].fill(0);
        }
    }
    read
}

/// Where a tag says whether the numbers behind it are there, and how many they are.
fn tags() -> Vec<(usize, usize)> {
    let readings = |from: usize| [(from, 1), (from + 2, 1), (from + 4, 1)];
    let mut tags = vec![(PENDING, 4), (ACCEPTED, 4), (ENDPOINT, 1)];
    tags.extend(readings(MILESTONES));
    tags.extend(readings(LAST_SNAPSHOT + SNAPSHOT_MILESTONES));
    for (word, numbers) in [(ESTIMATE, 3), (13, 1), (15, 1), (63, 1)] {
        tags.push((LAST_SNAPSHOT + word, numbers));
    }
    tags
}

// ---- the calls

fn restore(ours: &mut Ours, name: usize, store: &[u64], counts: &Counts) -> Result<(), String> {
    let (lent, before) = (store.to_vec(), ours.state.clone());
    let code = ours::restore(&mut ours.state, name, &lent);
    compare_words(&lent, store, words::store_name)?;
    let place = &store[words::under(name)];
    let (expected, state) = match place[0] {
        LAYOUT => (COMPUTED, canonical(place)),
        _ => (NOTHING_KEPT, before[..STATE].to_vec()),
    };
    if code != expected {
        return Err(format!("restoring {name} answers {code}, not {expected}"));
    }
    compare_words(ours.words(), &state, words::state_name)?;
    if !ours.keeps_tail() {
        return Err("the state's tail was written".into());
    }
    counts.add_if(Kind::ForeignNothing, code == NOTHING_KEPT);
    counts.add_if(Kind::ForeignRestored, code == COMPUTED);
    let others = code == COMPUTED && state != place;
    counts.add_if(Kind::ForeignChanged, others);
    Ok(())
}

/// Keeps such words under a name of a store of others, and restores them.
fn keep(state: &[u64], name: usize, counts: &Counts) -> Result<(), String> {
    let lent = state.to_vec();
    let mut store = vec![OLD_WORD; STORE + TAIL];
    let mut expected = store.clone();
    let read = canonical(state);
    expected[words::under(name)].copy_from_slice(&read);
    let kept = ours::keep(&lent, name, &mut store);
    compare_words(&store, &expected, words::store_name)?;
    compare_words(&lent, state, words::state_name)?;
    let mut back = vec![OLD_WORD; STATE];
    let restored = ours::restore(&mut back, name, &store);
    compare_words(&back, &read, words::state_name)?;
    if [kept, restored] != [COMPUTED; 2] {
        return Err(format!(
            "foreign words: keeping under {name} answers {kept}, then restoring {restored}"
        ));
    }
    counts.add_if(Kind::ForeignKept, state[0] == LAYOUT && read != state);
    counts.add_if(Kind::OtherLayoutKept, state[0] != LAYOUT);
    Ok(())
}

/// Whether it is answered. By which refusal it is not, is free.
fn hand_in(ours: &mut Ours, submission: &Submission) -> Result<bool, String> {
    let window = &submission.window;
    let frames = canonical(ours.words())[FRAMES] as usize;
    let needed = work_lengths(window.bands, window.times.len(), frames);
    let came = ours.submit(&Handed {
        window,
        clock: submission.clock,
        index: ours.index.lengths(),
        work: needed.map(|length| length + TAIL),
    })?;
    if !matches!(came.code, COMPUTED | REREAD | 6..=13) {
        return Err(format!("a submission answers {}", came.code));
    }
    match ours::support_age(&ours.state, OLD).0 {
        COMPUTED | NO_AGE | 7 => Ok(came.snapshot.is_some()),
        code => Err(format!("support age answers {code}")),
    }
}

#[cfg(test)]
mod tests {
    use super::*;

    #[test]
    fn the_words_of_a_state_are_read_as_they_are() {
        let (_, ours) = Ours::open(&generate::session(0).opening, 0);
        assert_eq!(canonical(ours.words()), ours.words());
        let full: Vec<u64> = (0..STATE).map(|_| 1).collect();
        assert_eq!(canonical(&full), full);
    }

    #[test]
    fn foreign_words_are_read_by_their_kinds() {
        let read = |word: usize, n: u64| {
            let mut words = vec![1; STATE];
            words[word] = n;
            canonical(&words)[word]
        };
        assert_eq!(read(HOP, u64::MAX), words::float(f64::NAN));
        assert_eq!(read(FRAMES, 65_537), 1);
        assert_eq!(read(LAST_SNAPSHOT + 17, u64::MAX), u64::MAX);
        assert_eq!(read(LAST_SNAPSHOT + 7, 99), 10);
        assert_eq!(read(HAS_SNAPSHOT, 2), 0);
        let mut words = vec![1; STATE];
        words[ACCEPTED] = 2;
        let gone = canonical(&words);
        assert_eq!(gone[ACCEPTED..SEARCH], [0; 5]);
        assert_eq!(gone[PENDING..ACCEPTED], [1; 5]);
    }

    #[test]
    fn another_layout_holds_no_engine() {
        let read = canonical(&[2; STATE]);
        assert_eq!(read[..2], [LAYOUT, 0]);
        assert_eq!(f64::from_bits(read[SEARCH]), f64::NEG_INFINITY);
        assert_eq!(read.iter().filter(|&&word| word != 0).count(), 2);
    }
}
