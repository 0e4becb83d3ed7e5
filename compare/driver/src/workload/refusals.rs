//! Inputs with one fault, with two, and at each limit.

use super::check::{add_if, Tally};
use super::ours::FILLED;
use super::reading::Input;

/// A fault: the number it is refused with, and how it is brought about.
struct Fault {
    number: u32,
    make: fn(&mut Input),
}

pub fn check(tally: &Tally) {
    // Of 4 and 8 frames, so that 2^62 bands more change no product of 64 bits.
    for sound in [
        Input::fitting(7, 20.0, 3, 4),
        Input::fitting(u64::MAX, 23.22, 1, 8),
    ] {
        for fault in alone().iter().chain(&faults()) {
            let mut input = sound;
            (fault.make)(&mut input);
            attempt(tally, &input, fault.number);
        }
        pairs(tally, sound);
    }
    for input in limits() {
        add_if(&tally.limits, true);
        attempt(tally, &input, FILLED);
    }
}

fn pairs(tally: &Tally, sound: Input) {
    let faults = faults();
    for (at, first) in faults.iter().enumerate() {
        let later = faults[at + 1..].iter();
        for second in later.filter(|second| second.number != first.number) {
            let mut input = sound;
            (first.make)(&mut input);
            (second.make)(&mut input);
            if !input.faults().contains(&second.number) {
                tally.differs(&input, &format!("no fault {} is made", second.number));
            }
            add_if(&tally.pairs, true);
            attempt(tally, &input, first.number);
        }
    }
}

fn attempt(tally: &Tally, input: &Input, expected: u32) {
    let read = input.answer();
    if read != expected {
        tally.differs(input, &format!("the reading says {read}, not {expected}"));
    }
    tally.compare(input);
}

/// In the order in which they are looked for; none undoes an earlier one.
fn faults() -> Vec<Fault> {
    let fault = |number, make| Fault { number, make };
    vec![
        fault(16, |i| i.seed = 0),
        fault(2, |i| i.hop = 1.0_f64.next_down()),
        fault(2, |i| i.hop = 1_000.0_f64.next_up()),
        fault(2, |i| i.hop = f64::NAN),
        fault(2, |i| i.hop = -f64::NAN),
        fault(2, |i| i.hop = 0.0),
        fault(2, |i| i.hop = -0.0),
        fault(2, |i| i.hop = 5e-324),
        fault(2, |i| i.hop = -20.0),
        fault(2, |i| i.hop = f64::MAX),
        fault(2, |i| i.hop = f64::INFINITY),
        fault(2, |i| i.hop = f64::NEG_INFINITY),
        fault(3, |i| *i = sized(i, 65_536, i.bands)),
        fault(3, |i| *i = sized(i, i.times, 65)),
        fault(3, |i| *i = sized(i, 65_536, 65)),
        fault(3, |i| i.bands = usize::MAX),
        fault(3, |i| i.bands += 1 << 62),
        fault(4, |i| i.energies -= 1),
        fault(4, |i| i.energies += 1),
        fault(4, |i| i.energies = 0),
        fault(4, |i| i.values -= 1),
        fault(4, |i| i.values += 1),
        fault(4, |i| i.values = 0),
    ]
}

/// Those that another fault would undo, or that would undo it.
fn alone() -> Vec<Fault> {
    let fault = |number, make| Fault { number, make };
    vec![
        fault(3, |i| *i = sized(i, 65_536, 0)),
        fault(3, |i| *i = sized(i, 0, 65)),
        fault(3, |i| *i = sized(i, 0, usize::MAX)),
        fault(4, |i| i.times -= 1),
        fault(4, |i| i.times += 1),
        fault(4, |i| i.times = 0),
        fault(4, |i| i.bands += 1),
        fault(4, |i| i.bands -= 1),
        fault(4, |i| i.bands = 0),
        fault(4, |i| {
            *i = sized(i, 0, 0);
            i.energies = 1;
        }),
        fault(4, |i| {
            *i = sized(i, 0, 64);
            i.values = 1;
        }),
        fault(4, |i| {
            *i = sized(i, 65_535, 0);
            i.values = 1;
        }),
    ]
}

fn sized(input: &Input, frames: usize, bands: usize) -> Input {
    Input::fitting(input.seed, input.hop, bands, frames)
}

/// What is not refused, though it is near.
fn limits() -> Vec<Input> {
    let mut inputs = Vec::new();
    for hop in [1.0, f64::next_up(1.0), f64::next_down(1_000.0), 1_000.0] {
        for seed in [1, u64::MAX] {
            let sizes = [(3, 4), (64, 4), (3, 65_535), (0, 65_535), (64, 0), (0, 0)];
            inputs.extend(sizes.map(|(bands, frames)| Input::fitting(seed, hop, bands, frames)));
        }
    }
    inputs.push(Input::fitting(1, 20.0, 64, 65_535));
    inputs
}

#[cfg(test)]
mod tests {
    use super::*;

    #[test]
    fn every_two_numbers_meet_in_order() {
        let numbers: Vec<u32> = faults().iter().map(|fault| fault.number).collect();
        let mut order = numbers.clone();
        order.dedup();
        assert_eq!(order, super::super::reading::REFUSALS);
    }

    #[test]
    fn limits_are_no_faults() {
        assert!(limits().iter().all(|input| input.answer() == FILLED));
    }
}
