//! A reel that is rerun: the unit's state is kept at a mark, and restored when the reel is set back.

use crate::seat;
use crate::session::{Moment, Unit};
use kistovab::STORE_WORDS;

/// The name under which the state is kept.
pub const NAME: usize = 1;

/// What the unit answers in each part of the third screening.
pub struct Rerun {
    /// Up to the mark.
    pub before: Vec<Moment>,
    /// On from the mark, until the sound fails and the unit is lost.
    pub failing: Vec<Moment>,
    /// From the mark again, with the state that was kept there. The mark's own window comes first.
    pub again: Vec<Moment>,
    /// The same windows, where the state is not restored.
    pub unrestored: Vec<Moment>,
}

pub fn rerun() -> Rerun {
    let [to_the_mark, until_lost, set_back] = seat::rerun();
    let mut unit = Unit::new(to_the_mark.known);
    let before = unit.hear(&to_the_mark);

    let mut store = [0; STORE_WORDS];
    let marked_ms = unit.last_endpoint_ms;
    let kept = unit.engine.keep(NAME, &mut store);
    kept.unwrap_or_else(|refusal| panic!("{refusal}"));
    let failing = unit.hear(&until_lost);

    let unrestored = unit.clone().hear(&set_back);
    let restored = unit.engine.restore(NAME, &store);
    restored.unwrap_or_else(|refusal| panic!("{refusal}"));
    unit.last_endpoint_ms = marked_ms;
    let again = unit.hear(&set_back);
    Rerun {
        before,
        failing,
        again,
        unrestored,
    }
}

impl Rerun {
    /// All windows up to the mark, with those after it: the first time, and again.
    pub fn takes(&self) -> [Vec<Moment>; 2] {
        [&self.failing, &self.again].map(|take| [&self.before[..], take].concat())
    }

    /// The windows after the mark that hold the same sound both times, with both answers.
    pub fn twice(&self) -> impl Iterator<Item = (&Moment, &Moment)> {
        let whole = |moment: &&Moment| moment.handed.endpoint_ms < seat::FAILURE_MS;
        self.failing.iter().filter(whole).zip(&self.again[1..])
    }
}
