//! The port and the two builds of the Rust over one case.

use super::super::case::Case;
use super::super::{cases, ours, theirs};
use sonalign::FeatureFrame;
use std::hint::black_box;

const HOP: f64 = 20.0;

#[derive(Clone, Copy, PartialEq)]
pub enum Side {
    Ours,
    /// The comparison build, with document 01's functions.
    Replaced,
    /// The Rust with its own.
    Own,
}

impl Side {
    pub const ALL: [Side; 3] = [Side::Ours, Side::Replaced, Side::Own];

    pub fn word(self) -> &'static str {
        match self {
            Side::Ours => "ours",
            Side::Replaced => "replaced",
            Side::Own => "own",
        }
    }
}

#[derive(Clone, Copy)]
pub enum Operation {
    Whole,
    Local,
    Opening,
}

impl Operation {
    pub const ALL: [Operation; 3] = [Operation::Whole, Operation::Local, Operation::Opening];
    pub const SEARCHES: [Operation; 2] = [Operation::Whole, Operation::Local];

    pub fn word(self) -> &'static str {
        match self {
            Operation::Whole => "whole",
            Operation::Local => "local",
            Operation::Opening => "opening",
        }
    }

    pub fn name(self) -> &'static str {
        match self {
            Operation::Whole => "whole search",
            Operation::Local => "local search",
            Operation::Opening => "opening",
        }
    }
}

#[derive(Clone, Copy)]
pub struct Size {
    pub bands: usize,
    pub frames: usize,
    pub window: usize,
}

impl Size {
    pub const SMALL: Size = Size {
        bands: 16,
        frames: 8_000,
        window: 150,
    };

    /// Of 64 bands.
    pub fn new(frames: usize, window: usize) -> Self {
        Self {
            bands: 64,
            frames,
            window,
        }
    }

    /// How many averages a band of the query has.
    pub fn averaged(self) -> usize {
        (self.window - 2 * cases::radius(HOP)) / 4
    }
}

pub struct Sides {
    size: Size,
    case: Case,
    /// The reference as either side takes it.
    values: Vec<f32>,
    frames: Vec<FeatureFrame>,
    /// The window as either side takes it.
    our_query: ours::Query,
    their_query: theirs::Query,
    index: ours::Index,
    replaced: theirs::Matcher,
    own: theirs::Own,
}

impl Sides {
    pub fn new(size: Size) -> Self {
        let case = cases::measured(HOP, size.bands, size.frames, size.window);
        let values = case.reference.by_band();
        let frames = theirs::frames(&case.reference);
        let mut index = ours::Index::empty(&case.reference, HOP, 0);
        assert!(index.fill(&case.reference.times, &values));
        Self {
            size,
            our_query: ours::Query::new(&case.window, size.frames, 0),
            their_query: theirs::Query::new(&case.window),
            index,
            replaced: theirs::Matcher::of(&frames, HOP).expect("a regular reference"),
            own: theirs::Own::of(&frames, HOP).expect("a regular reference"),
            case,
            values,
            frames,
        }
    }

    /// Does the operation once.
    pub fn act(&mut self, operation: Operation, side: Side) {
        let found = self.found(operation, side);
        assert!(found > 0, "nothing was found");
    }

    /// How many candidates, or 1 where the reference is accepted. Ours fills lent buffers; the Rust
    /// makes its own, and takes frames.
    fn found(&mut self, operation: Operation, side: Side) -> usize {
        let (lower, upper) = self.case.ranges[0];
        let range = Some((lower, upper));
        let frames = black_box(&self.frames);
        match (operation, side) {
            (Operation::Whole, Side::Ours) => self.index.whole(&mut self.our_query).len(),
            (Operation::Whole, Side::Replaced) => {
                self.replaced.search(&self.their_query, None).len()
            }
            (Operation::Whole, Side::Own) => self.own.search(&self.their_query, None),
            (Operation::Local, Side::Ours) => {
                self.index.local(&mut self.our_query, lower, upper).len()
            }
            (Operation::Local, Side::Replaced) => {
                self.replaced.search(&self.their_query, range).len()
            }
            (Operation::Local, Side::Own) => self.own.search(&self.their_query, range),
            (Operation::Opening, Side::Ours) => {
                usize::from(self.index.fill(&self.case.reference.times, &self.values))
            }
            (Operation::Opening, Side::Replaced) => {
                usize::from(theirs::Matcher::of(frames, HOP).is_some())
            }
            (Operation::Opening, Side::Own) => usize::from(theirs::Own::of(frames, HOP).is_some()),
        }
    }

    /// The places of a search × bands, or the values of an opening.
    pub fn count(&self, operation: Operation) -> usize {
        let (lower, upper) = self.case.ranges[0];
        self.size.bands
            * match operation {
                Operation::Whole => self.size.frames / 4 - self.size.averaged() + 1,
                // Both ends lie on places.
                Operation::Local => ((upper - lower) / HOP) as usize + 1,
                Operation::Opening => self.size.frames,
            }
    }
}
