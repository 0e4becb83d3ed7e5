//! Hands a seat's windows to the engine, and keeps what is answered.

use crate::film::{Film, HOP_MS};
use crate::seat::{Handed, Screening};
use kistovab::{AnswerKind, Configuration, Engine, Snapshot, State, WithholdReason};

// The engine's own thresholds, for words and pictures (crates/engine_spec/specs/Thresholds.antt).
pub const LEAST_CORRELATION: f64 = 0.25;
pub const LEAST_MARGIN: f64 = 0.06;
const LEAST_HALF: f64 = 0.10;
pub const LEAST_EVIDENCE_MS: f64 = 980.0;
pub const MOST_COAST_MS: f64 = 1_500.0;
const SAME_PLACE_MS: f64 = 80.0;

/// What the engine made of a window's times.
#[derive(Clone, Copy, Debug, PartialEq)]
pub enum Order {
    /// It goes on from the last one.
    OnTime,
    /// It ends less than 90 ms after the last one: the last answer is read again.
    ReadAgain,
    /// It ends before the last one: all is begun anew.
    Older,
    /// It begins after the last one's end: all is begun anew.
    AfterGap,
}

/// A window and its answer.
#[derive(Clone)]
pub struct Moment {
    pub handed: Handed,
    pub order: Order,
    /// Where the film truly was.
    pub true_ms: i64,
    pub shown: Snapshot,
    /// What a unit would have counted that adds up the windows which show one place.
    pub added_up_ms: f64,
}

pub fn hear(screening: &Screening) -> Vec<Moment> {
    Unit::new(screening.known).hear(screening)
}

/// An engine, and what it has heard.
#[derive(Clone)]
pub struct Unit {
    pub engine: Engine,
    /// Of the last window that was computed.
    pub last_endpoint_ms: Option<i64>,
}

impl Unit {
    /// A unit that knows a copy of the film, and has heard nothing.
    pub fn new(known: Film) -> Self {
        let hop_ms = HOP_MS as f64;
        Self {
            engine: Engine::new(&known.reference(), hop_ms, Configuration::default()),
            last_endpoint_ms: None,
        }
    }

    pub fn hear(&mut self, screening: &Screening) -> Vec<Moment> {
        let mut moments: Vec<Moment> = Vec::new();
        for &handed in &screening.windows {
            let (order, shown) = self.hand_in(screening, handed);
            moments.push(Moment {
                handed,
                order,
                true_ms: screening.place_at(handed.endpoint_ms),
                added_up_ms: added_up(moments.last(), handed, &shown),
                shown,
            });
        }
        moments
    }

    fn hand_in(&mut self, screening: &Screening, handed: Handed) -> (Order, Snapshot) {
        // Nothing is decided by the clock: the recorder's own will do.
        let clock_ms = handed.endpoint_ms as f64;
        let answer = self
            .engine
            .try_process(&screening.window(handed), clock_ms)
            .unwrap_or_else(|refusal| panic!("{refusal}"));
        let order = order_of(handed, self.last_endpoint_ms, answer.kind);
        if order != Order::ReadAgain {
            self.last_endpoint_ms = Some(handed.endpoint_ms);
        }
        (order, answer.snapshot)
    }
}

fn order_of(handed: Handed, last_endpoint_ms: Option<i64>, kind: AnswerKind) -> Order {
    match last_endpoint_ms {
        _ if kind == AnswerKind::Reread => Order::ReadAgain,
        Some(last) if handed.endpoint_ms < last => Order::Older,
        Some(last) if handed.start_ms > last + 2 * HOP_MS => Order::AfterGap,
        _ => Order::OnTime,
    }
}

/// The lengths of all windows that showed one place, this one's too.
fn added_up(last: Option<&Moment>, handed: Handed, shown: &Snapshot) -> f64 {
    let length_ms = (handed.endpoint_ms - handed.start_ms) as f64;
    let offset = |shown: &Snapshot| shown.estimate.as_ref().map(|place| place.offset_ms);
    match (
        last.and_then(|last| Some((last, offset(&last.shown)?))),
        offset(shown),
    ) {
        (_, None) => 0.0,
        (Some((last, before)), Some(now)) if (now - before).abs() <= SAME_PLACE_MS => {
            last.added_up_ms + length_ms
        }
        (_, Some(_)) => length_ms,
    }
}

impl Moment {
    /// Whether the whole film was searched for this window, and one place was found.
    pub fn passes(&self) -> bool {
        let found = &self.shown.diagnostics.spectral;
        self.searched()
            && found.correlation >= LEAST_CORRELATION
            && found
                .competing_peak_margin
                .is_some_and(|margin| margin >= LEAST_MARGIN)
            && found.first_half_correlation >= LEAST_HALF
            && found.second_half_correlation >= LEAST_HALF
    }

    /// Whether the whole film was searched for this window.
    pub fn searched(&self) -> bool {
        self.order != Order::ReadAgain && self.shown.diagnostics.spectral.global_search
    }

    pub fn begins_anew(&self) -> bool {
        matches!(self.order, Order::Older | Order::AfterGap)
    }

    pub fn is_locked(&self) -> bool {
        self.shown.state == State::Locked
    }

    pub fn coasts(&self) -> bool {
        self.is_locked() && self.shown.withhold_reason.is_some()
    }

    pub fn is_ambiguous(&self) -> bool {
        self.shown.withhold_reason == Some(WithholdReason::AmbiguousOffset)
    }

    pub fn place_ms(&self) -> Option<f64> {
        self.shown
            .estimate
            .as_ref()
            .map(|place| place.reference_time_ms)
    }

    /// How far the place shown is from the true one.
    pub fn error_ms(&self) -> Option<f64> {
        Some((self.place_ms()? - self.true_ms as f64).abs())
    }

    /// Whether the place shown is another than the true one.
    pub fn is_wrong(&self) -> bool {
        self.error_ms().is_some_and(|error| error > 1_000.0)
    }

    /// From the chain's first window to its last, in recorded time.
    pub fn evidence_ms(&self) -> f64 {
        self.shown.diagnostics.spectral.fresh_evidence_ms
    }
}

/// The windows at which a lock came: Locked, and the one before was not.
pub fn locks(moments: &[Moment]) -> Vec<&Moment> {
    let pairs = moments.windows(2);
    let came = pairs.filter(|pair| !pair[0].is_locked() && pair[1].is_locked());
    came.map(|pair| &pair[1]).collect()
}

/// The first window whose chain has other evidence than the recorded time from its first window to
/// its last. By the guarantee there is none.
pub fn counted_twice(moments: &[Moment]) -> Option<&Moment> {
    let mut first_ms = 0;
    moments
        .iter()
        .filter(|moment| moment.passes())
        .find(|moment| {
            if moment.evidence_ms() == 0.0 {
                first_ms = moment.handed.endpoint_ms;
            }
            moment.evidence_ms() != (moment.handed.endpoint_ms - first_ms) as f64
        })
}
