//! What is refused through the crate's own types, by its number; that nothing changes by it; and
//! that sonalign's functions panic there.

mod common;

use common::{after, heard, locked, reference, HOP_MS};
use kistovab::{Configuration, Engine, FeatureFrame, FeatureWindow, Refusal, Snapshot};
use std::panic::{catch_unwind, AssertUnwindSafe};

fn opened(frames: &[FeatureFrame], hop_ms: f64, fraction: f64) -> Option<Refusal> {
    let configuration = Configuration {
        minimum_active_frame_fraction: fraction,
        ..Configuration::default()
    };
    Engine::try_new(frames, hop_ms, configuration).err()
}

#[test]
fn openings_are_refused_in_order() {
    let sound = reference();
    let mut far = reference();
    far[899].recorded_time_ms = 2e12;
    let mut wide = far.clone();
    for frame in &mut wide {
        frame.pcen_mel = vec![1.0; 65];
    }
    let long: Vec<_> = (0..65_536)
        .map(|i| common::frame(i, i as f64 * HOP_MS))
        .collect();
    assert_eq!(opened(&sound, HOP_MS, 0.5), None);
    assert_eq!(opened(&wide, 0.5, 1.5), Some(Refusal::InvalidConfiguration));
    assert_eq!(opened(&wide, 0.5, 0.5), Some(Refusal::HopOutOfRange));
    assert_eq!(opened(&wide, HOP_MS, 0.5), Some(Refusal::ReferenceTooLarge));
    assert_eq!(opened(&long, HOP_MS, 0.5), Some(Refusal::ReferenceTooLarge));
    assert_eq!(opened(&long[..65_535], HOP_MS, 0.5), None);
    assert_eq!(
        opened(&far, HOP_MS, 0.5),
        Some(Refusal::ReferenceTimeTooFar)
    );
    for hop_ms in [0.0, -20.0, 1_000.1, f64::NAN, f64::INFINITY] {
        assert_eq!(opened(&sound, hop_ms, 0.5), Some(Refusal::HopOutOfRange));
    }
}

/// Windows that are refused, with a clock that is finite.
fn refused() -> Vec<(FeatureWindow, Refusal)> {
    let window = |frames: Vec<FeatureFrame>| FeatureWindow::new(frames).expect("frames in range");
    let long = (0..1_025).map(|i| common::frame(i, i as f64 * HOP_MS));
    let mut wide = heard(275, 1_500.0);
    for frame in &mut wide {
        frame.pcen_mel = vec![1.0; 65];
    }
    let mut far = heard(275, 1_500.0);
    far[149].recorded_time_ms = 1e12_f64.next_up();
    vec![
        (window(long.collect()), Refusal::WindowTooLarge),
        (window(wide), Refusal::WindowTooLarge),
        (window(far), Refusal::WindowTimeOutOfRange),
    ]
}

#[test]
fn submissions_are_refused_in_order_and_change_nothing() {
    let mut engine = locked();
    let mut untouched = engine.clone();
    let mut snapshot = Snapshot::blank();
    for (window, refusal) in refused() {
        let clock = Err(Refusal::ClockNotFinite);
        assert_eq!(engine.try_process(&window, f64::NAN), clock);
        assert_eq!(engine.try_process(&window, 1.0), Err(refusal));
        let filled = engine.try_process_into(&window, 1.0, &mut snapshot);
        assert_eq!(filled, Err(refusal));
        assert_eq!(snapshot, Snapshot::blank());
        assert_eq!(engine.support_age(), Some(0.0));
    }
    for seconds in [1.06, 1.5, 2.0, 4.0] {
        let here = engine.try_process(&after(seconds), 5.0);
        assert_eq!(here, untouched.try_process(&after(seconds), 5.0));
    }
}

#[test]
fn limits_are_no_refusals() {
    let mut frames: Vec<_> = (0..1_024)
        .map(|i| common::frame(i, i as f64 * HOP_MS))
        .collect();
    for frame in &mut frames {
        frame.pcen_mel = vec![1.0; 64];
    }
    frames[1_023].recorded_time_ms = 1e12;
    let window = FeatureWindow::new(frames).expect("frames in range");
    assert!(locked().try_process(&window, f64::MAX).is_ok());
}

/// What is said by the panic.
fn panic_text(call: impl FnOnce()) -> String {
    let caught = catch_unwind(AssertUnwindSafe(call)).expect_err("a panic");
    *caught.downcast::<String>().expect("a text")
}

#[test]
fn sonaligns_functions_panic_with_the_refusals_text() {
    let wrong = Configuration {
        tracking_query_duration_ms: 0.0,
        ..Configuration::default()
    };
    let text = panic_text(|| drop(Engine::new(&reference(), HOP_MS, wrong)));
    assert_eq!(text, Refusal::InvalidConfiguration.to_string());
    let text = panic_text(|| drop(Engine::new(&reference(), 2_000.0, Configuration::default())));
    assert_eq!(
        text,
        "refusal 2: the hop is out of range: give one from 1 to 1,000 ms"
    );
    let mut engine = locked();
    let text = panic_text(|| drop(engine.process(&after(1.5), f64::INFINITY)));
    assert_eq!(text, Refusal::ClockNotFinite.to_string());
    for (window, refusal) in refused() {
        let text = panic_text(|| drop(engine.process(&window, 1.0)));
        assert_eq!(text, refusal.to_string());
    }
    assert_eq!(
        engine.process(&after(1.5), 1.0),
        locked().process(&after(1.5), 1.0)
    );
}
