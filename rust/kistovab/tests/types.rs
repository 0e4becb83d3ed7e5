//! Windows and configurations, and what they are turned down for.

mod common;

use common::{heard, window};
use kistovab::{Configuration, FeatureFrame, FeatureWindow, InputError};

fn turned_down(change: impl FnOnce(&mut Vec<FeatureFrame>)) -> Option<String> {
    let mut frames = heard(0, 0.0);
    change(&mut frames);
    let error: InputError = FeatureWindow::new(frames).err()?;
    Some(error.to_string())
}

#[test]
fn a_window_tells_its_times() {
    let window = window(3, 100.0);
    assert_eq!(window.start_recorded_time_ms(), 100.0);
    assert_eq!(window.endpoint_recorded_time_ms(), 3_080.0);
    assert_eq!(window.duration_ms(), 2_980.0);
    assert_eq!(window.frames(), heard(3, 100.0));
}

#[test]
fn a_window_has_frames() {
    let text = turned_down(|frames| frames.clear());
    assert_eq!(text.as_deref(), Some("feature window is empty"));
}

#[test]
fn a_window_has_bands_and_values_in_range() {
    let text = "PCEN frames must have matching nonempty bands and finite nonnegative values";
    for value in [f32::NAN, f32::INFINITY, -1e-45] {
        let said = turned_down(|frames| frames[9].pcen_mel[1] = value);
        assert_eq!(said.as_deref(), Some(text));
    }
    let more = turned_down(|frames| frames[149].pcen_mel.push(1.0));
    assert_eq!(more.as_deref(), Some(text));
    let none = turned_down(|frames| frames.iter_mut().for_each(|frame| frame.pcen_mel.clear()));
    assert_eq!(none.as_deref(), Some(text));
    assert_eq!(turned_down(|frames| frames[9].pcen_mel[1] = -0.0), None);
}

#[test]
fn a_window_has_times_and_energies_in_range() {
    let text = "timestamps must be finite and energies cannot be NaN or +infinity";
    for time in [f64::NAN, f64::INFINITY, f64::NEG_INFINITY] {
        let said = turned_down(|frames| frames[9].recorded_time_ms = time);
        assert_eq!(said.as_deref(), Some(text));
    }
    for energy in [f64::NAN, f64::INFINITY] {
        let said = turned_down(|frames| frames[9].energy_dbfs = energy);
        assert_eq!(said.as_deref(), Some(text));
    }
    let silent = turned_down(|frames| frames[9].energy_dbfs = f64::NEG_INFINITY);
    assert_eq!(silent, None);
}

#[test]
fn a_configuration_is_in_range() {
    let changes: [fn(&mut Configuration, f64); 5] = [
        |c, x| c.minimum_readiness_duration_ms = x,
        |c, x| c.tracking_query_duration_ms = x,
        |c, x| c.minimum_active_frame_energy_dbfs = x,
        |c, x| c.minimum_average_energy_dbfs = x,
        |c, x| c.minimum_active_frame_fraction = x,
    ];
    let valid = |change: fn(&mut Configuration, f64), x: f64| {
        let mut configuration = Configuration::default();
        change(&mut configuration, x);
        configuration.validate() == Ok(())
    };
    let numbers = [-1.0, 0.0, 1.0, 1.5, f64::NAN, f64::INFINITY];
    let rows = changes.map(|change| numbers.map(|x| valid(change, x)));
    let duration = [false, false, true, true, false, false];
    let energy = [true, true, true, true, false, false];
    let fraction = [false, true, true, false, false, false];
    assert_eq!(rows, [duration, duration, energy, energy, fraction]);
    let wrong = InputError("invalid engine configuration");
    let configuration = Configuration {
        minimum_active_frame_fraction: 2.0,
        ..Configuration::default()
    };
    assert_eq!(configuration.validate(), Err(wrong));
}
