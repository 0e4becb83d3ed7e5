//! What keeping and restoring reach. A kind that is not reached fails the run.

use super::store::Mark;
use crate::engine::kinds::kinds;
use crate::engine::ours::REREAD;
use crate::engine::reading;
use crate::engine::theirs::Seen;
use crate::reached;
use sonalign::running::Kept;
use sonalign::types::State;
use std::sync::atomic::{AtomicU64, Ordering::Relaxed};

kinds! {
    Kept "kept",
    KeptAnew "kept under a name that is taken",
    KeptAfterRestore "kept straight after a restore, under another name",
    Restored1 "restored under 1",
    Restored2 "restored under 2",
    Restored3 "restored under 3",
    Restored4 "restored under 4",
    Restored5 "restored under 5",
    Restored6 "restored under 6",
    Restored7 "restored under 7",
    Restored8 "restored under 8",
    Store848 "restored from a store of 848 words",
    Store849 "restored from a store of 849 words",
    RestoredReplaced "restored what replaced another state",
    RestoredTwice "restored twice in a row",
    RestoredLocked "restored a locked state after a loss",
    RestoredCoasting "restored a coasting state",
    RestoredWithoutIndex "restored an engine without index",
    RestoredMilestone "restored a milestone's reading",
    RestoredInvalid "restored an invalid state",
    Refused7 "refused 7 after that, and restored the same again",
    LockUndone "restored from before a lock",
    LockedAgain "locked again by the submissions after the mark",
    AsAfterMark "submissions after a restore answered as after the mark",
    RereadAfterRestore "re-reading straight after a restore, as after the mark",
    JumpAfterRestore "jump straight after a restore",
    ShortAfterRestore "refused 6 straight after a restore, over a shorter index",
    Nothing "refused 15: nothing kept under the name",
    Name0 "refused 14: name 0",
    Name9 "refused 14: name 9",
    Name32 "refused 14: name 2^32",
    Name64 "refused 14: name 2^64 - 1",
    StoreEmpty "refused 6: a store of 0 words",
    Store847 "refused 6: a store of 847 words",
    StateEmpty "refused 255: a state of 0 words",
    State105 "refused 255: a state of 105 words",
    Faults255And14 "faults 255 and 14 together",
    Faults255And6 "faults 255 and 6 together",
    Faults255And15 "faults 255 and 15 together",
    Faults14And6 "faults 14 and 6 together",
    Faults6And15 "faults 6 and 15 together",
    ForeignNothing "place of foreign words that keeps nothing",
    ForeignRestored "place of foreign words restored",
    ForeignChanged "place of foreign words restored as others",
    ForeignRefused "submission refused after that",
    ForeignAnswered "submission answered after that",
    ForeignKept "foreign words kept as others",
    OtherLayoutKept "words of another layout kept as no engine",
}

/// By name less 1.
const RESTORED: [Kind; 8] = [
    Kind::Restored1,
    Kind::Restored2,
    Kind::Restored3,
    Kind::Restored4,
    Kind::Restored5,
    Kind::Restored6,
    Kind::Restored7,
    Kind::Restored8,
];

/// How often each kind was reached.
pub struct Counts([AtomicU64; KINDS.len()]);

impl Counts {
    pub fn new() -> Self {
        Self([const { AtomicU64::new(0) }; KINDS.len()])
    }

    pub fn add(&self, kind: Kind) {
        self.add_if(kind, true);
    }

    pub fn add_if(&self, kind: Kind, reached: bool) {
        self.0[kind as usize].fetch_add(u64::from(reached), Relaxed);
    }

    /// Prints the table. False where a kind was not reached.
    pub fn told(&self) -> bool {
        let count =
            |(&(_, name), count): (&(Kind, &'static str), &AtomicU64)| (name, count.load(Relaxed));
        reached::told(&KINDS.iter().zip(&self.0).map(count).collect::<Vec<_>>())
    }

    /// A restore of what the mark keeps, in place of what was kept by the engine before.
    pub fn note_restored(&self, name: usize, mark: &Mark, before: &Kept) {
        let (settings, kept) = (&mark.theirs.settings, mark.theirs.kept());
        self.add(RESTORED[name - 1]);
        self.add_if(Kind::RestoredReplaced, mark.replaces);
        let lost = matches!(shown(before), Some(State::Lost | State::Relocking));
        let locked = shown(&kept) == Some(State::Locked);
        self.add_if(Kind::RestoredLocked, lost && locked);
        let coast = reading::support_age(&kept).is_some_and(|age| age > 0.0);
        self.add_if(Kind::RestoredCoasting, coast);
        self.add_if(Kind::RestoredWithoutIndex, settings.frames == 0);
        let back = |(old, now): (&Option<f64>, &Option<f64>)| old.is_some() && old != now;
        let mut milestones = kept.milestones.iter().zip(&before.milestones);
        self.add_if(Kind::RestoredMilestone, milestones.any(back));
        self.add_if(Kind::RestoredInvalid, !reading::is_state(settings, &kept));
        let undone = kept.milestones[2].is_none() && before.milestones[2].is_some();
        self.add_if(Kind::LockUndone, undone);
    }

    /// A submission straight after a restore.
    pub fn note_straight(&self, seen: &Seen) {
        self.add_if(Kind::JumpAfterRestore, seen.jump.is_some());
        self.add_if(Kind::ShortAfterRestore, seen.code == 6);
    }

    /// A submission answered as it was after a mark, so many submissions after it.
    pub fn note_again(&self, seen: &Seen, at: usize) {
        self.add(Kind::AsAfterMark);
        self.add_if(Kind::RereadAfterRestore, at == 0 && seen.code == REREAD);
        let locked = seen.before.milestones[2].is_none() && seen.after.milestones[2].is_some();
        self.add_if(Kind::LockedAgain, locked);
    }
}

fn shown(kept: &Kept) -> Option<State> {
    kept.last_snapshot.as_ref().map(|snapshot| snapshot.state)
}
