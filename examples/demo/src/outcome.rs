//! The last lines that are printed: what came of a screening.

use crate::film::section_at;
use crate::mark::Rerun;
use crate::play::{on_film, seconds, tenths};
use crate::seat::Handed;
use crate::session::{counted_twice, locks, Moment, Order, LEAST_EVIDENCE_MS};

pub fn first(moments: &[Moment]) -> Vec<String> {
    vec![
        format!("{}.", locked_when(moments)),
        counted_once(moments),
        read_on("target/session.svg"),
        how_true(moments),
    ]
}

/// What the guarantee does not cover.
const LIMIT: &str = "\
The lock can't know which chorus is true: a second more of it in order, and the wrong one is locked.";

/// `in_order` is what comes of the same sound, handed in once.
pub fn second(moments: &[Moment], in_order: &[Moment]) -> Vec<String> {
    let [counted, added] = wrong_place(moments);
    vec![
        counted,
        added,
        as_in_order(moments, in_order),
        counted_once(moments),
        LIMIT.to_string(),
        read_on("target/chorus.svg"),
        how_true(moments),
    ]
}

pub fn rerun(rerun: &Rerun) -> Vec<String> {
    let takes = rerun.takes();
    vec![
        locked_again(&takes),
        answered_alike(rerun),
        unrestored(&rerun.unrestored),
        unless_counted_twice(
            takes.iter().find_map(|take| counted_twice(take)),
            "No chain counted sound twice: what was heard after the mark is not in the restored state.",
        ),
        read_on("target/rerun.svg"),
        how_true(&takes.concat()),
    ]
}

fn locked_when(moments: &[Moment]) -> String {
    let when = locks(moments).into_iter().map(|lock| {
        let recorded = seconds(lock.handed.endpoint_ms as f64);
        let place_ms = lock.place_ms().unwrap_or(0.0);
        let name = section_at(place_ms as i64).name;
        format!("at {recorded} s to {} ({name})", on_film(place_ms))
    });
    let when: Vec<_> = when.collect();
    match when.len() {
        0 => "Never locked".to_string(),
        _ => format!("Locked {}", when.join(", and again ")),
    }
}

fn counted_once(moments: &[Moment]) -> String {
    let again = moments
        .iter()
        .filter(|m| m.order == Order::ReadAgain)
        .count();
    unless_counted_twice(
        counted_twice(moments),
        &format!(
            "No stretch of sound was counted twice; {again} windows read again added nothing."
        ),
    )
}

fn unless_counted_twice(twice: Option<&Moment>, sentence: &str) -> String {
    twice.map_or(sentence.to_string(), |moment| {
        format!(
            "Sound was counted twice at {} s: this library is not the one that was proved.",
            seconds(moment.handed.endpoint_ms as f64)
        )
    })
}

fn read_on(picture: &str) -> String {
    format!("The picture of it is {picture}; what is proved of every session: docs/GUARANTEE.md.")
}

fn how_true(moments: &[Moment]) -> String {
    let locked = moments.iter().filter(|moment| moment.is_locked());
    let most = locked.filter_map(Moment::error_ms).fold(0.0, f64::max);
    format!("While locked, the place shown was at most {most:.0} ms from the true one.")
}

/// What was counted for the place that is not the true one.
fn wrong_place(moments: &[Moment]) -> [String; 2] {
    let wrong = || moments.iter().filter(|moment| moment.is_wrong());
    let most = |of: fn(&Moment) -> f64| wrong().map(of).fold(0.0, f64::max);
    let heard_ms = wrong().map(|m| m.handed.endpoint_ms).max().unwrap_or(0) as f64;
    let locked = wrong().any(Moment::is_locked);
    let was = if locked { "was" } else { "was never" };
    let (counted, needed) = (most(Moment::evidence_ms), LEAST_EVIDENCE_MS);
    let (counted, needed) = (seconds(counted), seconds(needed));
    let (added, heard) = (tenths(most(|m| m.added_up_ms)), tenths(heard_ms));
    [
        format!("The wrong place {was} locked: its chains counted at most {counted} s, of {needed} s needed."),
        format!("Added up, its windows hold {added} s of sound, and more with each one; only {heard} s were heard."),
    ]
}

fn as_in_order(moments: &[Moment], in_order: &[Moment]) -> String {
    let same = lock_places(moments) == lock_places(in_order);
    let same = if same { "as" } else { "not as" };
    format!(
        "{}, {same} when the sound is handed in once and in order.",
        locked_when(moments)
    )
}

/// The windows at which locks came, and where to.
fn lock_places(moments: &[Moment]) -> Vec<(Handed, Option<f64>)> {
    let locks = locks(moments).into_iter();
    locks.map(|lock| (lock.handed, lock.place_ms())).collect()
}

fn locked_again([first, again]: &[Vec<Moment>; 2]) -> String {
    let same = lock_places(first) == lock_places(again);
    let same = if same { "the same" } else { "not the same" };
    let when = locked_when(first);
    format!("{when}, and {same} after the restore.")
}

fn answered_alike(rerun: &Rerun) -> String {
    let alike = |(first, again): &(&Moment, &Moment)| first.shown == again.shown;
    let (all, same) = (rerun.twice().count(), rerun.twice().filter(alike).count());
    format!(
        "Of {all} windows that hold the same sound both times, {same} were answered alike, in every number."
    )
}

/// What comes of it where film and recorder are set back, and the unit's state is not.
fn unrestored(moments: &[Moment]) -> String {
    let jump = if moments[0].begins_anew() { "a" } else { "no" };
    let begun = seconds(moments[0].evidence_ms());
    let lock = locks(moments).first().map_or("never".to_string(), |lock| {
        format!("at {} s", seconds(lock.handed.endpoint_ms as f64))
    });
    format!(
        "Without the restore the set-back film is {jump} jump: the chain begins with {begun} s, and locks {lock}."
    )
}
