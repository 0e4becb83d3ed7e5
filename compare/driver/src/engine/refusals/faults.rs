//! The faults of a submission, and what is none though it is near.

use super::submissions::Trial;
use crate::engine::generate::scene::regular;
use crate::engine::words;
use crate::sessions::session::Window;
use sonalign::running::Kept;
use sonalign::types::{CandidateDiagnostics, Estimate};

/// A fault of a submission: the number it is refused with, and how it is brought about.
pub struct Fault {
    pub number: u32,
    pub name: String,
    /// Whether it sets the window's bands: two that do would undo each other.
    pub of_bands: bool,
    pub make: Box<dyn Fn(&mut Trial)>,
}

fn fault(number: u32, name: &str, make: impl Fn(&mut Trial) + 'static) -> Fault {
    Fault {
        number,
        name: name.into(),
        of_bands: false,
        make: Box::new(make),
    }
}

fn of_bands(fault: Fault) -> Fault {
    Fault {
        of_bands: true,
        ..fault
    }
}

pub fn faults() -> Vec<Fault> {
    let mut faults = state_faults();
    for part in 0..4 {
        faults.push(fault(6, "an index buffer one short", move |t| {
            t.index_short = Some(part);
        }));
    }
    for clock in [f64::NAN, f64::INFINITY, f64::NEG_INFINITY] {
        faults.push(fault(8, "the clock", move |t| t.clock = clock));
    }
    faults.push(fault(9, "no frames", |t| {
        t.window.times.clear();
        t.window.energies.clear();
        t.window.values.clear();
    }));
    faults.push(fault(9, "no frames, yet values", |t| {
        t.window.times.clear()
    }));
    faults.push(fault(10, "1,025 frames", |t| {
        stretch(&mut t.window, 1_025, 2)
    }));
    faults.push(of_bands(fault(10, "65 bands", |t| {
        let frames = t.window.times.len();
        stretch(&mut t.window, frames, 65);
    })));
    faults.push(of_bands(fault(10, "bands without end", |t| {
        t.window.bands = usize::MAX;
    })));
    faults.push(of_bands(fault(11, "no bands", |t| {
        t.window.bands = 0;
        t.window.values.clear();
    })));
    faults.push(fault(11, "an energy too few", |t| {
        t.window.energies.pop();
    }));
    faults.push(fault(11, "an energy too many", |t| {
        t.window.energies.push(-20.0)
    }));
    faults.push(fault(11, "a value too few", |t| {
        t.window.values.pop();
    }));
    faults.push(fault(11, "a value too many", |t| t.window.values.push(1.0)));
    for value in [f32::NAN, f32::INFINITY, -1e-45, f32::NEG_INFINITY] {
        faults.push(fault(11, "a value", move |t| {
            if let Some(last) = t.window.values.last_mut() {
                *last = value;
            }
        }));
    }
    for time in [
        f64::NAN,
        f64::INFINITY,
        1e12_f64.next_up(),
        (-1e12_f64).next_down(),
    ] {
        faults.push(fault(12, "the first time", move |t| {
            if let Some(first) = t.window.times.first_mut() {
                *first = time;
            }
        }));
        faults.push(fault(12, "the last time", move |t| {
            if let Some(last) = t.window.times.last_mut() {
                *last = time;
            }
        }));
    }
    for energy in [f64::NAN, f64::INFINITY] {
        faults.push(fault(12, "an energy", move |t| {
            if let Some(first) = t.window.energies.first_mut() {
                *first = energy;
            }
        }));
    }
    faults.push(fault(13, "narrow working buffer one short", |t| {
        t.work_short = Some(0)
    }));
    faults.push(fault(13, "wide working buffer one short", |t| {
        t.work_short = Some(1)
    }));
    faults
}

/// The same sound again and again, in so many frames and bands.
fn stretch(window: &mut Window, frames: usize, bands: usize) {
    window.bands = bands;
    window.times = regular(0.0, 250.0, frames);
    window.energies = vec![-20.0; frames];
    window.values = vec![1.0; frames * bands];
}

/// One for each condition of refusal 7, at the number next to its limit.
fn state_faults() -> Vec<Fault> {
    let mut faults = vec![
        fault(7, "hop below 1", |t| t.settings.hop = 1.0_f64.next_down()),
        fault(7, "hop above 1,000", |t| {
            t.settings.hop = 1_000.0_f64.next_up()
        }),
        fault(7, "hop NaN", |t| t.settings.hop = f64::NAN),
        fault(7, "readiness 0", |t| {
            t.settings.configuration.minimum_readiness_duration_ms = 0.0
        }),
        fault(7, "tracking -0", |t| {
            t.settings.configuration.tracking_query_duration_ms = -0.0
        }),
        fault(7, "active NaN", |t| {
            t.settings.configuration.minimum_active_frame_energy_dbfs = f64::NAN
        }),
        fault(7, "average infinite", |t| {
            t.settings.configuration.minimum_average_energy_dbfs = f64::INFINITY
        }),
        fault(7, "fraction above 1", |t| {
            t.settings.configuration.minimum_active_frame_fraction = 1.0_f64.next_up()
        }),
        fault(7, "65 bands in the state", |t| {
            t.settings.bands = 65;
            t.settings.frames = 20;
        }),
        fault(7, "frames 0 alone", |t| {
            t.settings.frames = 0;
            t.settings.bands = 2;
        }),
        fault(7, "bands 0 alone", |t| {
            t.settings.frames = 20;
            t.settings.bands = 0;
        }),
        fault(7, "nine candidates", |t| {
            let mut snapshot = blank(&t.kept);
            snapshot.diagnostics.candidates = vec![no_candidate(); 9];
            t.kept.last_snapshot = Some(snapshot);
        }),
    ];
    for time in [
        f64::NAN,
        f64::INFINITY,
        f64::NEG_INFINITY,
        1e12_f64.next_up(),
        (-1e12_f64).next_down(),
    ] {
        faults.push(fault(7, "start", move |t| t.settings.start = time));
        faults.push(fault(7, "endpoint", move |t| {
            t.kept.last_endpoint_ms = Some(time)
        }));
        if time != f64::NEG_INFINITY {
            faults.push(fault(7, "search time", move |t| {
                t.kept.last_global_search_ms = time
            }));
        }
    }
    for reading in [f64::NAN, f64::INFINITY, f64::NEG_INFINITY] {
        for which in 0..3 {
            faults.push(fault(7, "milestone", move |t| {
                t.kept.milestones[which] = Some(reading)
            }));
            faults.push(fault(7, "last snapshot's milestone", move |t| {
                let mut snapshot = blank(&t.kept);
                let all = [
                    &mut snapshot.first_provisional_lock_elapsed_ms,
                    &mut snapshot.confirmed_lock_elapsed_ms,
                    &mut snapshot.final_lock_elapsed_ms,
                ];
                for (at, milestone) in all.into_iter().enumerate() {
                    if at == which {
                        *milestone = Some(reading);
                    }
                }
                t.kept.last_snapshot = Some(snapshot);
            }));
        }
    }
    for number in [
        f64::NAN,
        f64::INFINITY,
        1e13_f64.next_up(),
        (-1e13_f64).next_down(),
    ] {
        for which in 0..4 {
            faults.push(fault(7, "pending", move |t| {
                t.kept.pending = Some(track(which, number))
            }));
            faults.push(fault(7, "accepted", move |t| {
                t.kept.accepted = Some(track(which, number))
            }));
        }
        for which in 0..3 {
            faults.push(fault(7, "estimate", move |t| {
                let mut snapshot = blank(&t.kept);
                snapshot.estimate = Some(estimate(which, number));
                t.kept.last_snapshot = Some(snapshot);
            }));
        }
    }
    faults
}

fn track(which: usize, number: f64) -> [f64; 4] {
    let mut track = [0.0; 4];
    track[which] = number;
    track
}

fn estimate(which: usize, number: f64) -> Estimate {
    let mut numbers = [0.0; 3];
    numbers[which] = number;
    Estimate {
        query_endpoint_recorded_time_ms: numbers[0],
        reference_time_ms: numbers[1],
        offset_ms: numbers[2],
    }
}

/// The last snapshot, or one that the words of zeros stand for.
fn blank(kept: &Kept) -> sonalign::types::Snapshot {
    let zeros = vec![0; words::STATE];
    let none = || words::snapshot_of(&zeros);
    kept.last_snapshot.clone().unwrap_or_else(none)
}

fn no_candidate() -> CandidateDiagnostics {
    CandidateDiagnostics {
        offset_ms: 0.0,
        coarse_offset_ms: 0.0,
        comparable_frame_count: 0,
        coverage_ratio: 0.0,
        combined_dense_score: 0.0,
    }
}

pub type Limit = (&'static str, fn(&mut Trial));

/// What is not refused, though it is near.
pub fn limits() -> Vec<Limit> {
    vec![
        ("start of 10^12", |t| t.settings.start = 1e12),
        ("start of -10^12", |t| t.settings.start = -1e12),
        ("endpoint of 10^12", |t| {
            t.kept.last_endpoint_ms = Some(1e12)
        }),
        ("endpoint of -10^12", |t| {
            t.kept.last_endpoint_ms = Some(-1e12)
        }),
        ("search time of 10^12", |t| {
            t.kept.last_global_search_ms = 1e12
        }),
        ("search time of -10^12", |t| {
            t.kept.last_global_search_ms = -1e12
        }),
        ("search time of -infinity", |t| {
            t.kept.last_global_search_ms = f64::NEG_INFINITY
        }),
        ("milestones of 10^300", |t| {
            t.kept.milestones = [Some(1e300); 3]
        }),
        ("milestones at the ends", |t| {
            t.kept.milestones = [Some(f64::MAX), Some(-f64::MAX), None]
        }),
        ("pending of 10^13", |t| {
            t.kept.pending = Some([1e13, -1e13, 1e13, -1e13])
        }),
        ("accepted of 10^13", |t| {
            t.kept.accepted = Some([-1e13, 1e13, 1e13, 1e13])
        }),
        ("an estimate of 10^13", |t| {
            let mut snapshot = blank(&t.kept);
            snapshot.estimate = Some(Estimate {
                query_endpoint_recorded_time_ms: 1e13,
                reference_time_ms: -1e13,
                offset_ms: 1e13,
            });
            t.kept.last_snapshot = Some(snapshot);
        }),
        ("eight candidates", |t| {
            let mut snapshot = blank(&t.kept);
            snapshot.diagnostics.candidates = vec![no_candidate(); 8];
            t.kept.last_snapshot = Some(snapshot);
        }),
        ("a snapshot of no numbers", |t| {
            let mut snapshot = blank(&t.kept);
            snapshot.confidence = f64::NAN;
            snapshot.diagnostics.spectral.coast_ms = f64::INFINITY;
            snapshot.diagnostics.dense_margin = f64::NAN;
            t.kept.last_snapshot = Some(snapshot);
        }),
        ("hop 1 in the state", |t| t.settings.hop = 1.0),
        ("hop 1,000 in the state", |t| t.settings.hop = 1_000.0),
        ("fraction -0 in the state", |t| {
            t.settings.configuration.minimum_active_frame_fraction = -0.0;
        }),
        ("one frame in the state", |t| {
            t.settings.frames = 1;
            t.settings.bands = 2;
        }),
        ("the largest counts in the state", |t| {
            t.settings.frames = 65_535;
            t.settings.bands = 64;
        }),
        ("no counts in the state", |t| {
            t.settings.frames = 0;
            t.settings.bands = 0;
        }),
        ("1,024 frames", |t| stretch(&mut t.window, 1_024, 2)),
        ("64 bands", |t| stretch(&mut t.window, 40, 64)),
        ("one frame", |t| stretch(&mut t.window, 1, 2)),
        ("one band", |t| stretch(&mut t.window, 50, 1)),
        ("a value of -0", |t| t.window.values[0] = -0.0),
        ("the largest value", |t| t.window.values[0] = f32::MAX),
        ("times of 10^12", |t| t.window.times.fill(1e12)),
        ("times of -10^12", |t| t.window.times.fill(-1e12)),
        ("energies of -infinity", |t| {
            t.window.energies.fill(f64::NEG_INFINITY)
        }),
        ("energies at their ends", |t| {
            t.window.energies.fill(f64::MAX)
        }),
        ("the largest clock", |t| t.clock = f64::MAX),
        ("the least clock", |t| t.clock = -f64::MAX),
    ]
}
