//! Times at the edge of document 01's tolerance.

/// The tolerance of a step and of a place.
pub fn tolerance(hop: f64) -> f64 {
    hop * 0.05
}

/// Moves two neighbours apart or towards each other, each by half the tolerance: the step between
/// them is off by all of it, and every place by half. The first time stays, since places count from
/// it.
pub fn reach_step(times: &mut [f64], hop: f64, at: usize, apart: bool) {
    let half = tolerance(hop) / 2.0;
    let by = if apart { half } else { -half };
    if at > 0 && at + 1 < times.len() {
        times[at] -= by;
        times[at + 1] += by;
    }
}

/// Whether the only fault of these times is a step off by exactly the tolerance.
pub fn reaches_step_alone(times: &[f64], hop: f64) -> bool {
    let most = tolerance(hop);
    let step = |pair: &[f64]| (pair[1] - pair[0] - hop).abs();
    let place = |(i, &time): (usize, &f64)| (time - (times[0] + i as f64 * hop)).abs();
    times.iter().enumerate().all(|time| place(time) < most)
        && times.windows(2).all(|pair| step(pair) <= most)
        && times.windows(2).any(|pair| step(pair) == most)
}

#[cfg(test)]
mod tests {
    use super::*;

    fn regular() -> Vec<f64> {
        (0..10).map(|i| f64::from(i) * 20.0).collect()
    }

    #[test]
    fn neighbours_reach_the_step_alone() {
        for apart in [false, true] {
            let mut times = regular();
            reach_step(&mut times, 20.0, 4, apart);
            assert!(reaches_step_alone(&times, 20.0));
        }
    }

    #[test]
    fn one_time_does_not() {
        let mut times = regular();
        assert!(!reaches_step_alone(&times, 20.0));
        times[4] += 1.0;
        assert!(!reaches_step_alone(&times, 20.0));
    }
}
