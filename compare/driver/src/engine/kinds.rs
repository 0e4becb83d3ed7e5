//! What sessions reach. A kind that none reaches fails the run: sessions that never come to a corner
//! would say nothing of it.

use super::ours::{COMPUTED, REREAD};
use super::reading::Jump;
use super::theirs::Seen;
use crate::reached;
use crate::timeline::reaches_step_alone;
use sonalign::replaced::LN_OF_10;
use sonalign::running::{Kept, Track};
use sonalign::types::{Snapshot, State, WithholdReason};
use std::sync::atomic::{AtomicU64, Ordering::Relaxed};

macro_rules! kinds {
    ($($kind:ident $name:literal,)*) => {
        #[derive(Clone, Copy, Debug, PartialEq)]
        pub enum Kind {
            $($kind,)*
        }

        const KINDS: &[(Kind, &str)] = &[$((Kind::$kind, $name),)*];
    };
}

pub(super) use kinds;

kinds! {
    OpeningRefused1 "opening refused 1",
    OpeningRefused2 "opening refused 2",
    OpeningRefused3 "opening refused 3",
    OpeningRefused4 "opening refused 4",
    OpeningRefused5 "opening refused 5",
    OpeningRefused6 "opening refused 6",
    OpenedWithoutIndex "engine without index",
    Refused6 "refused 6",
    Refused7 "refused 7",
    Refused8 "refused 8",
    Refused9 "refused 9",
    Refused10 "refused 10",
    Refused11 "refused 11",
    Refused12 "refused 12",
    Refused13 "refused 13",
    Reread "re-reading",
    RereadEstimate "re-reading that moves an estimate",
    RereadWithoutIndex "re-reading without index",
    RereadUnmatched "re-reading turned down by its timeline",
    JumpBack "jump back",
    JumpOn "jump on",
    NoJumpAtTwoHops "no jump: start exactly 2 hops past",
    Listening "Listening",
    Locking "Locking",
    Locked "Locked",
    Relocking "Relocking",
    Lost "Lost",
    Failed "Failed",
    Supported "no reason to withhold",
    InsufficientDuration "InsufficientDuration",
    InsufficientEnergy "InsufficientEnergy",
    InsufficientActiveFrames "InsufficientActiveFrames",
    WeakAlignmentPeak "WeakAlignmentPeak",
    AmbiguousOffset "AmbiguousOffset",
    LostSignal "LostSignal",
    IndexUnavailable "IndexUnavailable",
    StepReached "LostSignal by a step off by exactly the tolerance alone",
    InfinitePower "mean power of plus infinity",
    WholeWithoutCandidates "whole search without candidates",
    EightCandidates "eight candidates",
    Apart750 "candidates exactly 750 apart",
    Clamp "parabola's clamp reached",
    LoneWeak "lone candidate below 0.06",
    MarginBelow "margin within 0.001 below 0.06",
    MarginAbove "margin within 0.001 above 0.06",
    LoneBelow "lone margin within 0.001 below 0.06",
    LoneAbove "lone margin within 0.001 above 0.06",
    ConfidenceOne "confidence at 1",
    Passing "passing whole search",
    FailingHalf "search that fails by a half alone",
    PassingNoRecent "passing search without recent support",
    Carried "pending carried",
    Carried2500 "pending carried at exactly 2,500",
    NotCarried2500 "pending not carried just past 2,500",
    Carried80 "pending carried exactly 80 away",
    Moved "pending moved by more than 80",
    Held "pending held",
    Held80 "pending held exactly 80 away",
    Held2500 "pending held at exactly 2,500",
    NotHeld2500 "pending not held just past 2,500",
    DroppedElsewhere "pending dropped by a peak elsewhere",
    ChainEnd "chain's end",
    ChainEndOnJump "chain's end on a jump",
    ChainEndFirst "first chain's end",
    ChainEndAgain "later chain's end after a loss",
    DistantOverSupported "distant chain replaces a supported track",
    DistantOverCoasting "distant chain replaces a coasting track",
    NearOverSupported "near chain keeps a supported track",
    NearOverCoasting "near chain replaces a coasting track",
    LocalSupport "local support",
    Local80 "local support exactly 80 away",
    LocalFails "local search without support",
    LocalOnly "local search alone",
    LocalAndWhole "local and whole search",
    Coast "coast",
    Coast1500 "coast of exactly 1,500",
    CoastOver "coast ended just past 1,500",
    SearchAt500 "whole search exactly 500 after the last",
    SearchAt2000 "whole search of a supported track exactly 2,000 after the last",
    Hop1 "searched at hop 1",
    Hop20 "searched at hop 20",
    Hop23 "searched at hop 23.22",
    Hop250 "searched at hop 250",
    Hop500 "searched at hop 500",
    HopPast500 "searched at hop 500.00000000000006",
    Hop501 "searched at hop 501",
    Hop1000 "searched at hop 1,000",
    FarPast "locked above 9.99 × 10^11",
    FarBefore "locked below -9.99 × 10^11",
    Subnormal "searched with subnormal values",
    Loudest "searched with the largest f32",
    Reference2 "reference of 2 frames",
    Reference65535 "reference of 65,535 frames searched",
}

/// How often each kind was reached.
pub struct Counts(Vec<AtomicU64>);

impl Counts {
    pub fn new() -> Self {
        Self(KINDS.iter().map(|_| AtomicU64::new(0)).collect())
    }

    pub fn add(&self, kind: Kind) {
        self.0[kind as usize].fetch_add(1, Relaxed);
    }

    pub fn of(&self, kind: Kind) -> u64 {
        self.0[kind as usize].load(Relaxed)
    }

    /// Prints the table. False where a kind was not reached.
    pub fn told(&self) -> bool {
        let counts: Vec<(&str, u64)> = KINDS
            .iter()
            .map(|&(kind, name)| (name, self.of(kind)))
            .collect();
        reached::told(&counts)
    }

    pub fn note_refused_opening(&self, code: u32) {
        let kinds = [
            Kind::OpeningRefused1,
            Kind::OpeningRefused2,
            Kind::OpeningRefused3,
            Kind::OpeningRefused4,
            Kind::OpeningRefused5,
            Kind::OpeningRefused6,
        ];
        if let Some(&kind) = kinds.get(code as usize - 1) {
            self.add(kind);
        }
    }

    pub fn note(&self, seen: &Seen) {
        for kind in of(seen) {
            self.add(kind);
        }
    }
}

/// All kinds that a submission is of.
pub fn of(seen: &Seen) -> Vec<Kind> {
    let mut kinds = Kinds(Vec::new());
    match (seen.code, &seen.snapshot) {
        (REREAD, Some(snapshot)) => kinds.reread(seen, snapshot),
        (COMPUTED, Some(snapshot)) => kinds.computed(seen, snapshot),
        (code, _) => kinds.refused(code),
    }
    kinds.0
}

/// Whether the answer shows a whole search that passes.
fn passes(snapshot: &Snapshot) -> bool {
    let spectral = &snapshot.diagnostics.spectral;
    let halves = spectral
        .first_half_correlation
        .min(spectral.second_half_correlation);
    let strong = spectral.correlation >= 0.25 && snapshot.diagnostics.dense_margin >= 0.06;
    spectral.global_search && strong && halves >= 0.10
}

/// Whether it ends a chain.
pub fn ends_chain(hop: f64, snapshot: &Snapshot) -> bool {
    let spectral = &snapshot.diagnostics.spectral;
    let long = spectral.fresh_evidence_ms >= 1_000.0 - hop;
    passes(snapshot) && long && spectral.recent_correlation >= 0.15
}

/// Endpoint less the rounded 250 / hop frames that centring trims.
pub fn evidence(seen: &Seen) -> f64 {
    let hop = seen.settings.hop;
    let endpoint = seen.window.times.last().copied().unwrap_or(f64::NAN);
    endpoint - (250.0 / hop).round() * hop
}

struct Kinds(Vec<Kind>);

impl Kinds {
    fn add_if(&mut self, kind: Kind, reached: bool) {
        if reached {
            self.0.push(kind);
        }
    }

    fn refused(&mut self, code: u32) {
        let kinds = [
            (6, Kind::Refused6),
            (7, Kind::Refused7),
            (8, Kind::Refused8),
            (9, Kind::Refused9),
            (10, Kind::Refused10),
            (11, Kind::Refused11),
            (12, Kind::Refused12),
            (13, Kind::Refused13),
        ];
        for (number, kind) in kinds {
            self.add_if(kind, number == code);
        }
    }

    fn reread(&mut self, seen: &Seen, snapshot: &Snapshot) {
        let moved = snapshot.estimate.as_ref().is_some_and(|estimate| {
            Some(estimate.query_endpoint_recorded_time_ms) != seen.before.last_endpoint_ms
        });
        self.add_if(Kind::Reread, true);
        self.add_if(Kind::RereadEstimate, moved);
        self.add_if(Kind::RereadWithoutIndex, seen.settings.frames == 0);
    }

    fn computed(&mut self, seen: &Seen, snapshot: &Snapshot) {
        self.states(snapshot);
        self.reasons(snapshot);
        self.places(seen, snapshot);
        let lost = snapshot.withhold_reason == Some(WithholdReason::LostSignal);
        let step = reaches_step_alone(&seen.window.times, seen.settings.hop);
        self.add_if(Kind::StepReached, lost && step);
        let searched = !matches!(
            snapshot.state,
            State::Listening | State::Lost | State::Failed
        );
        if searched {
            let step = Step::new(seen, snapshot);
            self.material(seen);
            self.candidates(snapshot);
            self.whole(&step);
            self.tracks(&step);
            self.add_if(Kind::ConfidenceOne, snapshot.confidence == 1.0);
            self.add_if(Kind::Clamp, clamps(seen, snapshot));
        }
    }

    fn states(&mut self, snapshot: &Snapshot) {
        let state = snapshot.state;
        self.add_if(Kind::Listening, state == State::Listening);
        self.add_if(Kind::Locking, state == State::Locking);
        self.add_if(Kind::Locked, state == State::Locked);
        self.add_if(Kind::Relocking, state == State::Relocking);
        self.add_if(Kind::Lost, state == State::Lost);
        self.add_if(Kind::Failed, state == State::Failed);
    }

    fn reasons(&mut self, snapshot: &Snapshot) {
        use WithholdReason::*;
        self.0.push(match snapshot.withhold_reason {
            None => Kind::Supported,
            Some(InsufficientDuration) => Kind::InsufficientDuration,
            Some(InsufficientEnergy) => Kind::InsufficientEnergy,
            Some(InsufficientActiveFrames) => Kind::InsufficientActiveFrames,
            Some(WeakAlignmentPeak) => Kind::WeakAlignmentPeak,
            Some(AmbiguousOffset) => Kind::AmbiguousOffset,
            Some(LostSignal) => Kind::LostSignal,
            Some(IndexUnavailable) => Kind::IndexUnavailable,
            // No engine gives these.
            Some(InsufficientLandmarkEvidence | UnstableTrackingResidual | DecodeFailed) => return,
        });
    }

    fn places(&mut self, seen: &Seen, snapshot: &Snapshot) {
        self.add_if(Kind::JumpBack, seen.jump == Some(Jump::Back));
        self.add_if(Kind::JumpOn, seen.jump == Some(Jump::On));
        let (start, end) = (
            seen.window.times[0],
            seen.window.times[seen.window.times.len() - 1],
        );
        if let Some(last) = seen.before.last_endpoint_ms {
            let near = seen.jump.is_none() && end - last < 90.0;
            let edge = seen.jump.is_none() && start == last + 2.0 * seen.settings.hop;
            self.add_if(
                Kind::RereadUnmatched,
                near && seen.before.last_snapshot.is_some(),
            );
            self.add_if(Kind::NoJumpAtTwoHops, edge);
        }
        let locked = snapshot.state == State::Locked;
        self.add_if(Kind::FarPast, locked && end > 9.99e11);
        self.add_if(Kind::FarBefore, locked && end < -9.99e11);
        let loud = |energy: &f64| energy / 10.0 * LN_OF_10 > 690.0;
        let infinite = seen.window.energies.iter().any(loud);
        self.add_if(Kind::InfinitePower, infinite && seen.settings.frames > 0);
    }

    fn material(&mut self, seen: &Seen) {
        let hops = [
            (1.0, Kind::Hop1),
            (20.0, Kind::Hop20),
            (23.22, Kind::Hop23),
            (250.0, Kind::Hop250),
            (500.0, Kind::Hop500),
            (500.000_000_000_000_06, Kind::HopPast500),
            (501.0, Kind::Hop501),
            (1_000.0, Kind::Hop1000),
        ];
        for (hop, kind) in hops {
            self.add_if(kind, seen.settings.hop == hop);
        }
        let values = &seen.window.values;
        self.add_if(Kind::Subnormal, values.iter().any(|x| x.is_subnormal()));
        self.add_if(Kind::Loudest, values.contains(&f32::MAX));
        self.add_if(Kind::Reference2, seen.settings.frames == 2);
        self.add_if(Kind::Reference65535, seen.settings.frames == 65_535);
    }

    fn candidates(&mut self, snapshot: &Snapshot) {
        let candidates = &snapshot.diagnostics.candidates;
        let whole = snapshot.diagnostics.spectral.global_search;
        self.add_if(Kind::WholeWithoutCandidates, whole && candidates.is_empty());
        self.add_if(Kind::EightCandidates, candidates.len() == 8);
        let apart = candidates.iter().enumerate().any(|(i, a)| {
            let others = &candidates[..i];
            others
                .iter()
                .any(|b| (b.offset_ms - a.offset_ms).abs() == 750.0)
        });
        self.add_if(Kind::Apart750, apart);
        if !whole || candidates.is_empty() {
            return;
        }
        let margin = snapshot.diagnostics.dense_margin;
        let (below, above) = (
            (0.059..0.06).contains(&margin),
            (0.06..0.061).contains(&margin),
        );
        let lone = candidates.len() == 1;
        self.add_if(Kind::LoneWeak, lone && margin < 0.06);
        self.add_if(Kind::LoneBelow, lone && below);
        self.add_if(Kind::LoneAbove, lone && above);
        self.add_if(Kind::MarginBelow, !lone && below);
        self.add_if(Kind::MarginAbove, !lone && above);
    }

    fn whole(&mut self, step: &Step) {
        if !step.whole {
            return;
        }
        let spectral = &step.snapshot.diagnostics.spectral;
        let halves = spectral
            .first_half_correlation
            .min(spectral.second_half_correlation);
        let strong = spectral.correlation >= 0.25 && step.margin >= 0.06;
        self.add_if(Kind::Passing, step.passes);
        self.add_if(Kind::FailingHalf, strong && halves < 0.10);
        self.add_if(
            Kind::PassingNoRecent,
            step.passes && spectral.recent_correlation < 0.15,
        );
        self.add_if(
            Kind::SearchAt500,
            step.since_search == 500.0 && !step.supported,
        );
        self.add_if(
            Kind::SearchAt2000,
            step.since_search == 2_000.0 && step.supported,
        );
        if let (Some(pending), Some(best)) = (step.before.pending, step.best) {
            self.pending(step, pending, best);
        }
    }

    fn pending(&mut self, step: &Step, pending: Track, best: f64) {
        let near = (pending[0] - best).abs() <= 80.0;
        let since = step.evidence - pending[2];
        let past = since > 2_500.0 && since < 2_600.0;
        if step.passes {
            self.add_if(Kind::Carried, near && since <= 2_500.0);
            self.add_if(Kind::Carried2500, near && since == 2_500.0);
            self.add_if(Kind::NotCarried2500, near && past);
            let edge = (pending[0] - best).abs() == 80.0;
            self.add_if(Kind::Carried80, edge && since <= 2_500.0);
            self.add_if(Kind::Moved, !near);
        } else {
            let clear = near && step.margin >= 0.06;
            let edge = (pending[0] - best).abs() == 80.0;
            let held = step.after.pending.is_some();
            self.add_if(Kind::Held, held);
            self.add_if(Kind::Held80, held && edge);
            self.add_if(Kind::Held2500, clear && since == 2_500.0);
            self.add_if(Kind::NotHeld2500, clear && past);
            self.add_if(Kind::DroppedElsewhere, !near && step.margin >= 0.06);
        }
    }

    fn tracks(&mut self, step: &Step) {
        let accepted = step.before.accepted;
        let since = accepted.map(|track| step.evidence - track[2]);
        let tracked = since.is_some_and(|since| since <= 1_500.0);
        let over = since.is_some_and(|since| since > 1_500.0 && since < 1_600.0);
        self.add_if(Kind::CoastOver, over);
        self.add_if(Kind::LocalSupport, step.supported);
        let moved = step.snapshot.diagnostics.offset_stability_ms;
        self.add_if(Kind::Local80, moved == Some(80.0));
        self.add_if(Kind::LocalFails, tracked && !step.supported);
        self.add_if(Kind::LocalOnly, tracked && !step.whole);
        self.add_if(Kind::LocalAndWhole, tracked && step.whole);
        let coast = step.snapshot.diagnostics.spectral.coast_ms;
        self.add_if(Kind::Coast, coast > 0.0);
        self.add_if(Kind::Coast1500, coast == 1_500.0);
        if !step.chain_end {
            return;
        }
        let lost = accepted.is_none() && step.before.milestones[2].is_some();
        self.add_if(Kind::ChainEnd, true);
        self.add_if(Kind::ChainEndOnJump, step.jump);
        self.add_if(Kind::ChainEndFirst, step.before.milestones[2].is_none());
        self.add_if(Kind::ChainEndAgain, lost && !step.jump);
        if let (Some(track), Some(best), true) = (accepted, step.best, tracked) {
            let distant = (track[0] - best).abs() > 160.0;
            let near = (track[0] - best).abs() <= 80.0;
            self.add_if(Kind::DistantOverSupported, distant && step.supported);
            self.add_if(Kind::DistantOverCoasting, distant && !step.supported);
            self.add_if(Kind::NearOverSupported, near && step.supported);
            self.add_if(Kind::NearOverCoasting, near && !step.supported);
        }
    }
}

/// A searched submission, in the engine's terms.
struct Step<'a> {
    snapshot: &'a Snapshot,
    /// What the engine kept, after what a jump drops.
    before: Kept,
    after: &'a Kept,
    jump: bool,
    evidence: f64,
    whole: bool,
    best: Option<f64>,
    margin: f64,
    passes: bool,
    chain_end: bool,
    /// By the local search.
    supported: bool,
    since_search: f64,
}

impl<'a> Step<'a> {
    fn new(seen: &'a Seen, snapshot: &'a Snapshot) -> Self {
        let jump = seen.jump.is_some();
        let mut before = seen.before.clone();
        if jump {
            before.pending = None;
            before.accepted = None;
            before.last_global_search_ms = f64::NEG_INFINITY;
        }
        let diagnostics = &snapshot.diagnostics;
        let endpoint = seen.window.times.last().copied().unwrap_or(f64::NAN);
        Self {
            snapshot,
            after: &seen.after,
            jump,
            evidence: evidence(seen),
            whole: diagnostics.spectral.global_search,
            best: diagnostics.candidates.first().map(|best| best.offset_ms),
            margin: diagnostics.dense_margin,
            passes: passes(snapshot),
            chain_end: ends_chain(seen.settings.hop, snapshot),
            supported: diagnostics.track_innovation_ms.is_some(),
            since_search: endpoint - before.last_global_search_ms,
            before,
        }
    }
}

/// Whether a candidate stands half a frame from a place, which only the clamp gives: a first
/// maximum whose right neighbour scores the same.
fn clamps(seen: &Seen, snapshot: &Snapshot) -> bool {
    let hop = seen.settings.hop;
    let radius = (250.0 / hop).round().max(1.0) as usize;
    let Some(&begin) = seen.window.times.get(radius) else {
        return false;
    };
    // Far times leave too few bits to tell a half by.
    let whole = |x: f64| x.fract() == 0.0 && x.abs() < 1e9;
    if !whole(begin) || !whole(seen.settings.start) || !whole(hop) {
        return false;
    }
    snapshot.diagnostics.candidates.iter().any(|candidate| {
        let place = (candidate.offset_ms + begin - seen.settings.start) / hop;
        (place - place.floor()) == 0.5
    })
}
