//! Named places: what is kept comes back, under its name alone; a rerun from a mark; refusals; and
//! words that no engine kept.

mod common;

use common::{after, engine, locked, missed, reference, HOP_MS};
use kistovab::{
    Answer, AnswerKind, Configuration, Engine, FeatureWindow, Refusal, Snapshot, State, PLACES,
    STORE_WORDS,
};
use std::panic::{catch_unwind, AssertUnwindSafe};

/// What a store holds before anything is kept, in tests that tell what was written.
const UNWRITTEN: u64 = 7;

/// Every word of an engine's state.
fn words(engine: &Engine) -> Vec<u64> {
    let mut store = vec![0; STORE_WORDS];
    assert_eq!(engine.keep(1, &mut store), Ok(()));
    store.truncate(STORE_WORDS / PLACES);
    store
}

fn answers(engine: &mut Engine, windows: &[FeatureWindow]) -> Vec<Answer> {
    let answer = |window| engine.try_process(window, 5.0).expect("answered");
    windows.iter().map(answer).collect()
}

/// Engines that differ: fresh, in a chain, locked, coasting, relocking.
fn engines() -> Vec<Engine> {
    let mut chain = engine();
    answers(&mut chain, &[after(0.0), after(0.5)]);
    let mut coasting = locked();
    answers(&mut coasting, &[missed(1.5)]);
    let mut relocking = coasting.clone();
    answers(&mut relocking, &[2.0, 2.5, 3.0].map(missed));
    vec![engine(), chain, locked(), coasting, relocking]
}

// ---- what is kept comes back

#[test]
fn a_kept_state_comes_back_whole() {
    for kept in engines() {
        let mut store = [0; STORE_WORDS];
        assert_eq!(kept.keep(3, &mut store), Ok(()));
        for mut other in engines() {
            assert_eq!(other.restore(3, &store), Ok(()));
            assert_eq!(words(&other), words(&kept));
            assert_eq!(format!("{other:?}"), format!("{kept:?}"));
            assert_eq!(other.support_age(), kept.support_age());
        }
    }
}

#[test]
fn keeping_changes_nothing_of_the_engine() {
    let (mut kept, mut untouched) = (locked(), locked());
    assert_eq!(kept.keep(8, &mut [0; STORE_WORDS]), Ok(()));
    assert_eq!(format!("{kept:?}"), format!("{untouched:?}"));
    let windows = [after(1.5), missed(2.0), after(4.0)];
    assert_eq!(
        answers(&mut kept, &windows),
        answers(&mut untouched, &windows)
    );
}

#[test]
fn names_stand_apart() {
    let states = engines();
    let state = |name: usize| &states[name % states.len()];
    let mut store = [0; STORE_WORDS];
    for name in 1..=PLACES {
        assert_eq!(state(name).keep(name, &mut store), Ok(()));
    }
    let mut restored = engine();
    for name in (1..=PLACES).rev() {
        assert_eq!(restored.restore(name, &store), Ok(()));
        assert_eq!(words(&restored), words(state(name)));
    }
}

#[test]
fn keeping_again_replaces_that_place_alone() {
    let mut store = [UNWRITTEN; STORE_WORDS + 5];
    for name in 1..=PLACES {
        let before = store;
        for kept in engines() {
            assert_eq!(kept.keep(name, &mut store), Ok(()));
            let place = STORE_WORDS / PLACES * (name - 1)..STORE_WORDS / PLACES * name;
            assert_eq!(store[place.clone()], words(&kept));
            assert_eq!(store[..place.start], before[..place.start]);
            assert_eq!(store[place.end..], before[place.end..]);
        }
    }
    assert_eq!(store[STORE_WORDS..], [UNWRITTEN; 5]);
}

#[test]
fn the_configuration_comes_back_too() {
    let patient = Configuration {
        minimum_readiness_duration_ms: 4_000.0,
        ..Configuration::default()
    };
    let patient = Engine::new(&reference(), HOP_MS, patient);
    let (mut store, mut restored) = ([0; STORE_WORDS], locked());
    assert_eq!(patient.keep(1, &mut store), Ok(()));
    assert_eq!(restored.restore(1, &store), Ok(()));
    let shown = restored.process(&after(1.5), 0.0);
    assert_eq!(shown.state, State::Listening);
}

// ---- a rerun

#[test]
fn a_rerun_answers_the_same() {
    let stretch = [1.0, 1.5, 1.58, 2.0].map(after).to_vec();
    let stretch = [stretch, [2.5, 3.0, 4.0, 4.5].map(missed).to_vec()].concat();
    let mut engine = engine();
    let mut store = [0; STORE_WORDS];
    answers(&mut engine, &[after(0.0), after(0.5)]);
    assert_eq!(engine.keep(1, &mut store), Ok(()));
    let first = answers(&mut engine, &stretch);
    let mut unrestored = engine.clone();
    for _ in 0..2 {
        assert_eq!(engine.restore(1, &store), Ok(()));
        assert_eq!(answers(&mut engine, &stretch), first);
    }

    let [lock, reread, lost] = [0, 2, 7].map(|number: usize| &first[number]);
    assert_eq!(lock.snapshot.state, State::Locked);
    assert_eq!(reread.kind, AnswerKind::Reread);
    assert_eq!(lost.snapshot.state, State::Relocking);
    // Without the restore the same sound is a jump, and its chain begins from nothing.
    let jumped = &answers(&mut unrestored, &stretch)[0].snapshot;
    assert_eq!(jumped.state, State::Relocking);
    assert_eq!(jumped.diagnostics.spectral.fresh_evidence_ms, 0.0);
    let spectral = &lock.snapshot.diagnostics.spectral;
    assert_eq!(spectral.fresh_evidence_ms, 1_000.0);
}

#[test]
fn a_rereading_after_a_restore_shows_the_mark() {
    let (mut engine, mut store) = (locked(), [0; STORE_WORDS]);
    assert_eq!(engine.keep(2, &mut store), Ok(()));
    let marked = engine.try_process(&after(1.04), 0.0);
    answers(&mut engine, &[3.0, 9.0].map(missed));
    assert_eq!(engine.restore(2, &store), Ok(()));
    let again = engine.try_process(&after(1.04), 0.0);
    assert_eq!(again, marked);
    assert_eq!(again.map(|answer| answer.kind), Ok(AnswerKind::Reread));
}

#[test]
fn a_clone_is_restored_alone() {
    let (mut marked, mut store) = (locked(), [0; STORE_WORDS]);
    assert_eq!(marked.keep(5, &mut store), Ok(()));
    let mut ahead = marked.clone();
    answers(&mut ahead, &[missed(1.5)]);
    let mut clone = ahead.clone();
    assert_eq!(clone.restore(5, &store), Ok(()));
    assert_eq!(clone.support_age(), Some(0.0));
    assert_eq!(ahead.support_age(), Some(500.0));
    let windows = [1.5, 2.0].map(after);
    assert_eq!(
        answers(&mut clone, &windows),
        answers(&mut marked, &windows)
    );
}

// ---- refusals

#[test]
fn keeping_is_refused_in_order_and_writes_nothing() {
    let engine = locked();
    let refused = |name: usize, length: usize| {
        let mut store = vec![UNWRITTEN; length];
        let refusal = engine.keep(name, &mut store).err();
        assert!(refusal.is_none() || store == vec![UNWRITTEN; length]);
        refusal
    };
    for name in [0, 9, 1 << 32 | 1, usize::MAX] {
        for length in [0, STORE_WORDS] {
            assert_eq!(refused(name, length), Some(Refusal::NameOutOfRange));
        }
    }
    for name in [1, 8] {
        for length in [0, 106, STORE_WORDS - 1] {
            assert_eq!(refused(name, length), Some(Refusal::StoreTooShort));
        }
        assert_eq!(refused(name, STORE_WORDS), None);
    }
}

#[test]
fn restoring_is_refused_in_order_and_changes_nothing() {
    let mut engine = locked();
    let mut full = [0; STORE_WORDS];
    for name in 1..=PLACES {
        assert_eq!(common::engine().keep(name, &mut full), Ok(()));
    }
    let before = words(&engine);
    let mut refused = |name: usize, store: &[u64]| {
        let refusal = engine.restore(name, store).err();
        assert!(refusal.is_none() || words(&engine) == before);
        refusal
    };
    let empty = [0; STORE_WORDS];
    for name in [0, 9, 1 << 32 | 1, usize::MAX] {
        for store in [&full[..], &full[1..], &empty, &[]] {
            assert_eq!(refused(name, store), Some(Refusal::NameOutOfRange));
        }
    }
    for name in 1..=PLACES {
        for store in [&full[..STORE_WORDS - 1], &empty[1..], &[]] {
            assert_eq!(refused(name, store), Some(Refusal::StoreTooShort));
        }
        assert_eq!(refused(name, &empty), Some(Refusal::NothingKept));
    }
    assert_eq!(refused(8, &full), None);
}

#[test]
fn only_names_under_which_was_kept_are_restored() {
    let mut engine = locked();
    let mut store = [0; STORE_WORDS];
    for kept in 1..=PLACES {
        assert_eq!(engine.keep(kept, &mut store), Ok(()));
        let restored = |name| engine.restore(name, &store);
        let answered: Vec<_> = (1..=PLACES).map(restored).collect();
        let (some, none) = answered.split_at(kept);
        assert!(some.iter().all(|answer| *answer == Ok(())));
        let nothing = Err(Refusal::NothingKept);
        assert!(none.iter().all(|answer| *answer == nothing));
    }
}

// ---- states of another reference, and words that no engine kept

#[test]
fn a_state_of_a_longer_reference_is_refused_at_the_next_window() {
    let mut store = [0; STORE_WORDS];
    assert_eq!(locked().keep(1, &mut store), Ok(()));
    for frames in [&reference()[..899], &[]] {
        let mut shorter = Engine::new(frames, HOP_MS, Configuration::default());
        assert_eq!(shorter.restore(1, &store), Ok(()));
        assert_eq!(shorter.support_age(), Some(0.0));
        let refused = shorter.try_process(&after(1.5), 1.0);
        assert_eq!(refused, Err(Refusal::IndexTooShort));
    }
    let (longer, mut locked) = (reference(), locked());
    let shorter = Engine::new(&longer[..800], HOP_MS, Configuration::default());
    assert_eq!(shorter.keep(1, &mut store), Ok(()));
    assert_eq!(locked.restore(1, &store), Ok(()));
    assert!(locked.try_process(&after(1.5), 1.0).is_ok());
}

/// A store whose first place holds the words of a locked engine, one of them changed.
fn changed(number: usize, word: u64) -> [u64; STORE_WORDS] {
    let mut store = [0; STORE_WORDS];
    assert_eq!(locked().keep(1, &mut store), Ok(()));
    store[number] = word;
    store
}

#[test]
fn an_invalid_state_is_refused_until_a_valid_one_is_restored() {
    const HOP: usize = 6;
    let sound = changed(HOP, HOP_MS.to_bits());
    let spoilt = changed(HOP, 0.5_f64.to_bits());
    let mut engine = locked();
    assert_eq!(engine.restore(1, &spoilt), Ok(()));
    assert_eq!(engine.support_age(), None);
    let mut snapshot = Snapshot::blank();
    let refused = Err(Refusal::StateOutOfRange);
    let filled = engine.try_process_into(&after(1.5), 1.0, &mut snapshot);
    assert_eq!(filled, refused);
    assert_eq!(snapshot, Snapshot::blank());
    let caught = catch_unwind(AssertUnwindSafe(|| engine.process(&after(1.5), 1.0)));
    let text = caught.expect_err("a panic").downcast::<String>();
    let said = Refusal::StateOutOfRange.to_string();
    assert_eq!(text.ok(), Some(Box::new(said)));

    assert_eq!(engine.restore(1, &sound), Ok(()));
    assert_eq!(
        engine.process(&after(1.5), 1.0),
        locked().process(&after(1.5), 1.0)
    );
}

/// Restores under every name, and asks all that an engine may be asked. Nothing may panic, and a
/// window is answered or refused for the state alone.
fn asked(engine: &mut Engine, store: &[u64]) -> Vec<Result<(), Refusal>> {
    let mut refusals = Vec::new();
    for name in 1..=PLACES {
        let restored = engine.restore(name, store);
        assert!(matches!(restored, Ok(()) | Err(Refusal::NothingKept)));
        assert!(!format!("{engine:?}").is_empty());
        let age = engine.support_age();
        let before = words(engine);
        let answer = engine.try_process(&after(1.5), 1.0).map(drop);
        match answer {
            Ok(()) => {}
            Err(Refusal::StateOutOfRange) => assert_eq!(age, None),
            Err(refusal) => assert_eq!(refusal, Refusal::IndexTooShort),
        }
        assert!(answer.is_ok() || words(engine) == before);
        refusals.push(answer);
    }
    refusals
}

/// Numbers without an order, from a seed on.
fn drawn(seed: u64) -> impl Iterator<Item = u64> {
    let step = |x: &u64| {
        let x = x ^ (x << 13);
        let x = x ^ (x >> 7);
        Some(x ^ (x << 17))
    };
    std::iter::successors(Some(seed), step).skip(1)
}

#[test]
fn foreign_words_are_answered_or_refused() {
    let mut engine = locked();
    let mut numbers = drawn(0x9E37_79B9_7F4A_7C15);
    let mut store = [u64::MAX; STORE_WORDS];
    asked(&mut engine, &store);
    for small in [1, 2, 65_536, 1 << 32, u64::MAX] {
        store.fill_with(|| numbers.next().unwrap_or(0) % small);
        asked(&mut engine, &store);
        // As if a state were kept in every place.
        store.iter_mut().step_by(106).for_each(|layout| *layout = 1);
        let refused = asked(&mut engine, &store);
        assert_eq!(refused, [Err(Refusal::StateOutOfRange); PLACES]);
    }
    assert_eq!(engine.restore(1, &changed(0, 1)), Ok(()));
    assert_eq!(words(&engine), words(&locked()));
}

#[test]
fn a_state_with_a_foreign_word_is_answered_or_refused() {
    let floats = [f64::NAN, f64::INFINITY, -0.0, 1e300, 750.0].map(f64::to_bits);
    let counts = [0, 1, 2, 9, 901, 65_535, u64::MAX];
    let mut engine = locked();
    let mut told = Vec::new();
    for number in 1..STORE_WORDS / PLACES {
        for word in floats.into_iter().chain(counts) {
            told.push(asked(&mut engine, &changed(number, word))[0]);
        }
    }
    for answer in [
        Ok(()),
        Err(Refusal::StateOutOfRange),
        Err(Refusal::IndexTooShort),
    ] {
        assert!(told.contains(&answer), "none is {answer:?}");
    }
}
