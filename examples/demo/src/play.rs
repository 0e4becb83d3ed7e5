//! The lines that are printed: one a window, then what came of it.

use crate::film::section_at;
use crate::mark::{Rerun, NAME};
use crate::outcome;
use crate::session::{Moment, Order, LEAST_EVIDENCE_MS, MOST_COAST_MS};
use kistovab::{State, WithholdReason};

const FIRST_HEAD: &str = "\
A film with the same chorus twice, and a seat in the hall that looks for its place on it. Each line
is a window: the last 3 s of sound, handed in every 0.25 s. The whole film is searched for it every
0.5 s. LOCKED is a place on which a chain of searches agrees over 0.98 s of sound; before, a guess.

recorded  state      place on film      evidence        what happened";

const SECOND_HEAD: &str = "\
The seat knows a copy in which somebody speaks over the 1st chorus. The hall plays one in which
nobody does, so its 1st chorus sounds more like the 2nd, and that is what a search finds: the wrong
place. And a loaded processor hands in the same seconds again and again, back and forth. 'Added up'
is what a unit would count that adds up all windows which show one place.

 no.    up to  state      place on film      added up  chain counts    what happened";

const RERUN_HEAD: &str = "\
A projectionist sets a mark, and the unit's state is kept there: half a second of evidence, no lock
yet. The unit locks; then the sound fails, and it is lost. Film and recorder are set back to the
mark, and the state is restored: recorded time and evidence go on from there, and it locks again.

recorded  state      place on film      evidence        what happened";

pub fn first(moments: &[Moment]) -> Vec<String> {
    let mut lines: Vec<_> = FIRST_HEAD.lines().map(str::to_string).collect();
    lines.extend(rows(moments));
    lines.push(String::new());
    lines.extend(outcome::first(moments));
    lines
}

/// `in_order` is what comes of the same sound, handed in once.
pub fn second(moments: &[Moment], in_order: &[Moment]) -> Vec<String> {
    let mut lines: Vec<_> = SECOND_HEAD.lines().map(str::to_string).collect();
    let numbered = with_the_one_before(moments).zip(1..);
    lines.extend(numbered.map(|((moment, before), number)| {
        let (state, place) = (state(moment), place(moment));
        let (evidence, what) = (evidence(moment, before), what_happened(moment, before));
        let recorded = seconds(moment.handed.endpoint_ms as f64);
        let added = tenths(moment.added_up_ms);
        format!("{number:>4}  {recorded:>5} s  {state:<9}  {place:<17}  {added:>6} s  {evidence:<14}  {what}")
    }));
    lines.push(String::new());
    lines.extend(outcome::second(moments, in_order));
    lines
}

pub fn rerun(rerun: &Rerun) -> Vec<String> {
    let mut lines: Vec<_> = RERUN_HEAD.lines().map(str::to_string).collect();
    let [first, again] = rerun.takes().map(|take| rows(&take).collect::<Vec<_>>());
    let marked = rerun.before.len();
    lines.extend_from_slice(&first[..marked]);
    let mark = |moment: &Moment, what: &str| row(moment, "MARK", &evidence(moment, None), what);
    let kept = format!("the state is kept, under the name {NAME}");
    lines.push(mark(&rerun.before[marked - 1], &kept));
    lines.extend_from_slice(&first[marked..]);
    // The mark's window is read again, and shows what was restored.
    let restored = format!("film and recorder set back, state {NAME} restored");
    lines.push(mark(&rerun.again[0], &restored));
    lines.extend_from_slice(&again[marked + 1..]);
    lines.push(String::new());
    lines.extend(outcome::rerun(rerun));
    lines
}

/// A line for each window of a film that is played in order.
fn rows(moments: &[Moment]) -> impl Iterator<Item = String> + '_ {
    with_the_one_before(moments).map(|(moment, before)| {
        let (evidence, what) = (evidence(moment, before), what_happened(moment, before));
        row(moment, state(moment), &evidence, &what)
    })
}

fn row(moment: &Moment, state: &str, evidence: &str, what: &str) -> String {
    let recorded = seconds(moment.handed.endpoint_ms as f64);
    let place = place(moment);
    format!("{recorded:>6} s  {state:<9}  {place:<17}  {evidence:<14}  {what}")
}

fn with_the_one_before(moments: &[Moment]) -> impl Iterator<Item = (&Moment, Option<&Moment>)> {
    let before = std::iter::once(None).chain(moments.iter().map(Some));
    moments.iter().zip(before)
}

pub fn seconds(ms: f64) -> String {
    format!("{:.2}", ms / 1_000.0)
}

pub fn tenths(ms: f64) -> String {
    format!("{:.1}", ms / 1_000.0)
}

/// Minutes, seconds and tenths.
pub fn on_film(place_ms: f64) -> String {
    let tenths = (place_ms / 100.0).round() as i64;
    format!("{}:{:02}.{}", tenths / 600, tenths / 10 % 60, tenths % 10)
}

fn state(moment: &Moment) -> &'static str {
    match moment.shown.state {
        State::Listening => "listening",
        State::Locking if moment.place_ms().is_some() => "guess",
        State::Locked => "LOCKED",
        State::Lost => "lost",
        _ => "searching",
    }
}

fn place(moment: &Moment) -> String {
    moment.place_ms().map_or("-".to_string(), |place_ms| {
        format!("{} {}", on_film(place_ms), section_at(place_ms as i64).name)
    })
}

/// The chain's evidence up to the lock, then whether the film is heard or for how long it was not.
fn evidence(moment: &Moment, before: Option<&Moment>) -> String {
    let follows = moment.is_locked() && before.is_some_and(Moment::is_locked);
    match moment.shown.state {
        State::Listening | State::Lost => "-".to_string(),
        _ if moment.coasts() => {
            format!(
                "coast {} s",
                seconds(moment.shown.diagnostics.spectral.coast_ms)
            )
        }
        _ if follows => "heard".to_string(),
        _ => {
            let [counted, needed] = [moment.evidence_ms(), LEAST_EVIDENCE_MS].map(seconds);
            format!("{counted} of {needed} s")
        }
    }
}

fn what_happened(moment: &Moment, before: Option<&Moment>) -> String {
    match moment.order {
        Order::ReadAgain => "same sound again: not counted".to_string(),
        Order::Older => "older sound: begins anew".to_string(),
        Order::AfterGap => "the film jumped: starting again".to_string(),
        Order::OnTime => match moment.shown.state {
            State::Listening | State::Lost => not_searched(moment),
            State::Locked => locked(moment, before),
            _ => searching(moment),
        },
    }
}

fn not_searched(moment: &Moment) -> String {
    if moment.shown.withhold_reason != Some(WithholdReason::InsufficientDuration) {
        return "lost: nothing to hear".to_string();
    }
    let heard = seconds(moment.shown.diagnostics.query_duration_ms);
    format!("{heard} s of sound, a search needs 2.5 s")
}

fn locked(moment: &Moment, before: Option<&Moment>) -> String {
    let most = tenths(MOST_COAST_MS);
    match before {
        _ if moment.coasts() => format!("coasting: not heard, kept for at most {most} s"),
        Some(before) if before.coasts() => "heard again, at the place that was kept".to_string(),
        Some(before) if before.is_locked() && moment.searched() => {
            "following; the whole film searched again".to_string()
        }
        Some(before) if before.is_locked() => "following the sound".to_string(),
        _ => format!("locked: {} s of sound agrees", tenths(moment.evidence_ms())),
    }
}

fn searching(moment: &Moment) -> String {
    if !moment.searched() {
        return "no search: one every 0.5 s".to_string();
    }
    if moment.passes() {
        let grown = moment.evidence_ms() > 0.0;
        let words = ["found: a chain begins", "there again: the chain grows"];
        return words[usize::from(grown)].to_string();
    }
    match (moment.is_ambiguous(), both_in_a_chorus(moment)) {
        (true, true) => "heard in two places: can't tell which chorus".to_string(),
        (true, false) => "two places score alike".to_string(),
        _ => "no place scores well enough".to_string(),
    }
}

/// Whether the sound of the two best places is the chorus. 260 ms at a window's end are not compared.
fn both_in_a_chorus(moment: &Moment) -> bool {
    let compared_ms = moment.handed.endpoint_ms - 260;
    let best = moment.shown.diagnostics.candidates.iter().take(2);
    let places = best.map(|candidate| compared_ms + candidate.offset_ms as i64);
    places
        .filter(|&place| section_at(place).is_chorus())
        .count()
        == 2
}
