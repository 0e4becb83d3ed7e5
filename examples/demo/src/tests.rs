//! What the three screenings come to, and that their lines and pictures can be read.

use crate::film::Film;
use crate::mark;
use crate::seat::{self, Screening};
use crate::session::{counted_twice, hear, locks, Moment, Order};
use crate::{first, outdated, rerun, second};
use kistovab::State;

fn states(moments: &[Moment]) -> Vec<State> {
    let mut states: Vec<_> = moments.iter().map(|moment| moment.shown.state).collect();
    states.dedup();
    states
}

fn ends(moments: &[Moment]) -> Vec<i64> {
    let ends = locks(moments)
        .into_iter()
        .map(|lock| lock.handed.endpoint_ms);
    ends.collect()
}

#[test]
fn the_first_screening_locks_twice_and_is_lost_in_the_end() {
    let moments = hear(&seat::first());
    use State::{Listening, Locked, Locking, Lost, Relocking};
    assert_eq!(
        states(&moments),
        [Listening, Locking, Locked, Lost, Relocking, Locked, Lost]
    );
    assert_eq!(ends(&moments), [5_740, 15_000]);
    let jumps = moments.iter().filter(|moment| moment.begins_anew());
    let jumps: Vec<_> = jumps
        .map(|moment| (moment.order, moment.handed.endpoint_ms))
        .collect();
    assert_eq!(jumps, [(Order::AfterGap, 13_740)]);
}

#[test]
fn no_search_tells_the_choruses_apart() {
    let moments = hear(&seat::first());
    let chorus = moments.iter().filter(|m| m.handed.endpoint_ms < 4_000);
    let searched: Vec<_> = chorus.filter(|moment| moment.searched()).collect();
    assert_eq!(searched.len(), 3);
    assert!(searched
        .iter()
        .all(|moment| moment.is_ambiguous() && !moment.passes()));
}

#[test]
fn a_place_is_kept_through_noise() {
    let moments = hear(&seat::first());
    let noise = moments
        .iter()
        .filter(|m| (8_240..=9_240).contains(&m.handed.endpoint_ms));
    let coasts: Vec<_> = noise.map(Moment::coasts).collect();
    assert_eq!(coasts, [true, true, true, true, false]);
    let locked = moments.iter().filter(|moment| moment.is_locked());
    assert!(locked
        .filter_map(Moment::error_ms)
        .all(|error| error < 20.0));
}

#[test]
fn the_second_screening_never_locks_the_wrong_place() {
    let moments = hear(&seat::second());
    let wrong: Vec<_> = moments.iter().filter(|moment| moment.is_wrong()).collect();
    assert!(wrong.len() > 20 && !wrong.iter().any(|moment| moment.is_locked()));
    assert!(wrong.iter().all(|moment| moment.evidence_ms() < 980.0));
    assert!(wrong.iter().any(|moment| moment.added_up_ms > 50_000.0));
    let in_order = hear(&seat::second_in_order());
    assert_eq!(ends(&moments), [5_240]);
    assert_eq!(ends(&in_order), [5_240]);
    assert_eq!(
        locks(&moments)[0].place_ms(),
        locks(&in_order)[0].place_ms()
    );
}

#[test]
fn a_second_more_of_the_chorus_locks_the_wrong_place() {
    let windows = seat::in_order(0, 2_740, 7_000);
    let moments = hear(&seat::chorus_before_verse(27_700, windows));
    assert!(moments
        .iter()
        .any(|moment| moment.is_wrong() && moment.is_locked()));
}

#[test]
fn a_rerun_locks_again_as_it_did() {
    let rerun = mark::rerun();
    use State::{Listening, Locked, Locking, Lost};
    assert_eq!(states(&rerun.before), [Listening, Locking]);
    assert_eq!(states(&rerun.failing), [Locking, Locked, Lost]);
    assert_eq!(states(&rerun.again), [Locking, Locked]);
    for take in rerun.takes() {
        assert_eq!(ends(&take), [3_740]);
        assert_eq!(locks(&take)[0].evidence_ms(), 1_000.0);
    }
    let twice: Vec<_> = rerun.twice().collect();
    assert!(twice.len() > 5);
    for (first, again) in twice {
        assert_eq!((first.handed, &first.shown), (again.handed, &again.shown));
    }
}

#[test]
fn what_is_restored_is_what_was_kept() {
    let rerun = mark::rerun();
    let [kept, restored] = [rerun.before.last(), rerun.again.first()];
    let [kept, restored] = [kept, restored].map(|moment| moment.expect("the mark's window"));
    assert_eq!(restored.order, Order::ReadAgain);
    assert_eq!(
        (kept.handed, &kept.shown),
        (restored.handed, &restored.shown)
    );
    assert_eq!(kept.evidence_ms(), 500.0);
    assert!(rerun.again.iter().all(|moment| !moment.begins_anew()));
}

#[test]
fn without_the_restore_the_chain_begins_from_nothing() {
    let rerun = mark::rerun();
    let [jump, rest @ ..] = &rerun.unrestored[..] else {
        panic!("there are windows")
    };
    assert_eq!((jump.order, jump.evidence_ms()), (Order::Older, 0.0));
    assert!(rest.iter().all(|moment| moment.order == Order::OnTime));
    assert_eq!(ends(&rerun.unrestored), [4_240]);
}

#[test]
fn evidence_is_recorded_time() {
    let screenings = [seat::first(), seat::second()].map(|screening| hear(&screening));
    for mut moments in screenings.into_iter().chain(mark::rerun().takes()) {
        assert!(counted_twice(&moments).is_none());
        let grown = moments
            .iter_mut()
            .find(|m| m.passes() && m.evidence_ms() > 0.0);
        let grown = grown.expect("a chain that grows");
        grown.shown.diagnostics.spectral.fresh_evidence_ms += 40.0;
        assert!(counted_twice(&moments).is_some());
    }
}

#[test]
fn what_is_nowhere_on_the_film_is_not_locked() {
    let nothing = Screening {
        noise_ms: 0..20_000,
        ..seat::first()
    };
    let moments = hear(&nothing);
    assert!(!moments
        .iter()
        .any(|moment| moment.is_locked() || moment.passes()));
}

#[test]
fn the_seat_hears_the_film_with_some_noise() {
    let screening = seat::first();
    let window = screening.window(screening.windows[0]);
    let frame = &window.frames()[0];
    let film = Film { voice: false }.sound(screening.place_at(frame.recorded_time_ms as i64));
    assert_eq!(frame.pcen_mel.len(), film.len());
    for (heard, played) in frame.pcen_mel.iter().zip(film) {
        assert!((0.0..1.2).contains(&(heard - played)));
    }
}

#[test]
fn lines_fit_in_100_columns() {
    for played in [first(), second(), rerun()] {
        for line in played.lines {
            assert!(line.chars().count() <= 100, "{line}");
            assert_eq!(line.trim_end(), line);
        }
    }
}

#[test]
fn an_outdated_line_of_the_readme_is_found() {
    let lines = ["  1.74 s  listening".to_string()];
    let readme = "# Title\n  1.74 s  listening\n 2 commands\n";
    assert_eq!(outdated(readme, &lines), None);
    let readme = "# Title\n  1.74 s  lost\n";
    assert_eq!(outdated(readme, &lines), Some("  1.74 s  lost"));
}

#[test]
fn a_line_of_any_film_may_stand_in_the_readme() {
    let lines = ["  1.74 s  listening", "  3.24 s  MARK"].map(String::from);
    let readme = "# Title\n  1.74 s  listening\n  3.24 s  MARK\n 2 commands\n";
    assert_eq!(outdated(readme, &lines), None);
    for line in ["  1.74 s  lost", "  3.24 s  mark"] {
        let readme = format!("# Title\n  3.24 s  MARK\n{line}\n");
        assert_eq!(outdated(&readme, &lines), Some(line));
    }
}

/// The words of a picture with the box that they take: left, top, right, bottom.
fn labels(picture: &str) -> Vec<(String, [f64; 4])> {
    let texts = picture.lines().filter(|line| line.starts_with("<text"));
    texts.map(label).collect()
}

fn label(line: &str) -> (String, [f64; 4]) {
    let attribute = |name: &str| {
        let (_, rest) = line
            .split_once(&format!(" {name}=\""))
            .expect("the attribute");
        rest.split_once('"').expect("its end").0
    };
    let number = |name: &str| attribute(name).parse::<f64>().expect("a number");
    let words = line
        .split_once('>')
        .expect("words")
        .1
        .trim_end_matches("</text>");
    let (x, y, size) = (number("x"), number("y"), number("font-size"));
    // As wide as DejaVu Sans sets them, which is wider than most.
    let em = if attribute("font-weight") == "bold" {
        0.67
    } else {
        0.6
    };
    let width = words.chars().count() as f64 * size * em;
    let left = match attribute("text-anchor") {
        "start" => x,
        "middle" => x - width / 2.0,
        _ => x - width,
    };
    assert!(size >= 12.0, "{words}");
    (
        words.to_string(),
        [left, y - size * 0.8, left + width, y + size * 0.2],
    )
}

#[test]
fn labels_are_in_the_picture_and_none_covers_another() {
    for played in [first(), second(), rerun()] {
        let labels = labels(&played.picture);
        assert!(labels.len() > 30);
        for (number, (words, [left, top, right, bottom])) in labels.iter().enumerate() {
            assert!(*left >= 0.0 && *right <= 1_190.0, "{words}");
            for (other, [l, t, r, b]) in &labels[..number] {
                let apart = right <= l || r <= left || bottom <= t || b <= top;
                assert!(apart, "'{words}' and '{other}' of {}", played.name);
            }
        }
    }
}
