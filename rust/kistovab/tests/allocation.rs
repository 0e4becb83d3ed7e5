//! Nothing is allocated by a submission once the buffers have grown, by keeping and restoring, nor
//! for a refused load.

mod common;

use common::{after, engine, locked, missed};
use kistovab::{workload, AnswerKind, Refusal, Snapshot, PLACES, STORE_WORDS};
use std::alloc::{GlobalAlloc, Layout, System};
use std::cell::Cell;

thread_local! {
    static ALLOCATIONS: Cell<usize> = const { Cell::new(0) };
}

/// Counts, thread by thread.
struct Counting;

fn count() {
    ALLOCATIONS.with(|allocations| allocations.set(allocations.get() + 1));
}

// SAFETY: all is handed on to the system's allocator.
unsafe impl GlobalAlloc for Counting {
    unsafe fn alloc(&self, layout: Layout) -> *mut u8 {
        count();
        // SAFETY: as the caller promises.
        unsafe { System.alloc(layout) }
    }

    unsafe fn dealloc(&self, memory: *mut u8, layout: Layout) {
        // SAFETY: as the caller promises.
        unsafe { System.dealloc(memory, layout) }
    }

    unsafe fn realloc(&self, memory: *mut u8, layout: Layout, size: usize) -> *mut u8 {
        count();
        // SAFETY: as the caller promises.
        unsafe { System.realloc(memory, layout, size) }
    }
}

#[global_allocator]
static COUNTING: Counting = Counting;

fn allocations(run: impl FnOnce()) -> usize {
    let before = ALLOCATIONS.get();
    run();
    ALLOCATIONS.get() - before
}

#[test]
fn a_submission_allocates_nothing_once_warmed() {
    let mut windows = [0.5, 0.54, 1.0, 1.5, 1.58, 3.5, 4.0].map(after).to_vec();
    windows.extend([4.5, 5.0, 6.0, 6.5].map(missed));
    windows.push(after(0.25));
    let (first, mut engine) = (after(0.0), engine());
    let mut snapshot = Snapshot::blank();
    let mut kinds = Vec::with_capacity(windows.len());

    let cold = allocations(|| {
        assert!(engine.try_process_into(&first, 0.0, &mut snapshot).is_ok());
    });
    assert!(cold > 0, "the first window makes the buffers grow");
    let warm = allocations(|| {
        for window in &windows {
            let kind = engine.try_process_into(window, 1.0, &mut snapshot);
            kinds.push(kind.map(|kind| (kind, snapshot.diagnostics.candidates.len())));
            let refused = engine.try_process_into(window, f64::NAN, &mut snapshot);
            assert_eq!(refused, Err(Refusal::ClockNotFinite));
            engine.support_age();
        }
    });
    assert_eq!(warm, 0);
    // A snapshot that is not lent is made.
    assert!(allocations(|| drop(engine.process(&first, 2.0))) > 0);

    let reread = |kind: &Result<(AnswerKind, usize), Refusal>| {
        kind.is_ok_and(|(kind, _)| kind == AnswerKind::Reread)
    };
    assert!(kinds.iter().all(Result::is_ok) && kinds.iter().any(reread));
    let listed: Vec<usize> = kinds.iter().flatten().map(|(_, listed)| *listed).collect();
    assert!(listed.contains(&1) && listed.iter().any(|count| *count > 1));
}

#[test]
fn keeping_and_restoring_allocate_nothing() {
    let (mut engine, mut store) = (locked(), [0; STORE_WORDS]);
    let mut answers = [Ok(()); 2 * PLACES + 3];
    let (window, mut snapshot) = (after(1.5), Snapshot::blank());
    assert!(engine.try_process_into(&window, 1.0, &mut snapshot).is_ok());
    let all = allocations(|| {
        for name in 1..=PLACES {
            answers[2 * name] = engine.keep(name, &mut store);
            answers[2 * name + 1] = engine.restore(name, &store);
        }
        answers[0] = engine.restore(0, &store);
        answers[1] = engine.keep(1, &mut store[1..]);
        store[0] = 0;
        answers[2 * PLACES + 2] = engine.restore(1, &store);
        // The buffers that have grown stay.
        let again = engine.try_process_into(&window, 1.0, &mut snapshot);
        assert_eq!(again, Ok(AnswerKind::Reread));
    });
    assert_eq!(all, 0);
    let refused = answers.iter().filter_map(|answer| answer.err());
    let refusals = [
        Refusal::NameOutOfRange,
        Refusal::StoreTooShort,
        Refusal::NothingKept,
    ];
    assert!(refused.eq(refusals));
}

#[test]
fn a_refused_load_allocates_nothing() {
    let refused = allocations(|| {
        for (count, bands) in [(65_536, 64), (65_535, 65), (usize::MAX, usize::MAX)] {
            let load = workload::frames(1, 20.0, count, bands);
            assert_eq!(load, Err(Refusal::ReferenceTooLarge));
        }
        assert_eq!(workload::frames(0, 20.0, 9, 9), Err(Refusal::SeedZero));
        let hop = workload::frames(1, 0.0, 9, 9);
        assert_eq!(hop, Err(Refusal::HopOutOfRange));
    });
    assert_eq!(refused, 0);
    assert!(allocations(|| drop(workload::frames(1, 20.0, 9, 9))) > 0);
}
