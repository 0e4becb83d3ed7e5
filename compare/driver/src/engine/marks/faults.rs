//! Calls with one fault, with two and with three. None writes anything.

use super::kinds::{Counts, Kind};
use crate::engine::ours::{
    self, NAME_OUT_OF_RANGE, NOTHING_KEPT, STORE_TOO_SHORT, WORDS_TOO_SHORT,
};
use crate::engine::words::{self, LAYOUT, PLACES, STATE, STORE};

/// Names that there are not, and what each is counted as. Of those that lose their high bits to a
/// narrower count some would be there.
const NAMES: [(usize, Option<Kind>); 6] = [
    (0, Some(Kind::Name0)),
    (9, Some(Kind::Name9)),
    (1 << 32, Some(Kind::Name32)),
    (usize::MAX, Some(Kind::Name64)),
    ((1 << 32) + 1, None),
    ((1 << 8) + 1, None),
];

/// By the two numbers, in the order in which they are looked for.
const PAIRS: [([u32; 2], Kind); 5] = [
    ([WORDS_TOO_SHORT, NAME_OUT_OF_RANGE], Kind::Faults255And14),
    ([WORDS_TOO_SHORT, STORE_TOO_SHORT], Kind::Faults255And6),
    ([WORDS_TOO_SHORT, NOTHING_KEPT], Kind::Faults255And15),
    ([NAME_OUT_OF_RANGE, STORE_TOO_SHORT], Kind::Faults14And6),
    ([STORE_TOO_SHORT, NOTHING_KEPT], Kind::Faults6And15),
];

/// What is lent to one call.
struct Lent<'a> {
    state: &'a [u64],
    name: usize,
    store: &'a [u64],
}

/// Every call with faults that this state and store can be lent to, under a name that there is and
/// under those that there are not. Gives how many they were.
pub fn check(state: &[u64], name: usize, store: &[u64], counts: &Counts) -> Result<u64, String> {
    let mut calls = 0;
    let names = NAMES.iter().map(|&(name, _)| name).chain([name]);
    for name in names {
        for state in [state, &state[..STATE - 1], &state[..0]] {
            for store in [store, &store[..STORE - 1], &store[..0]] {
                let lent = Lent { state, name, store };
                calls += lent.keep(counts)? + lent.restore(counts)?;
            }
        }
    }
    Ok(calls)
}

impl Lent<'_> {
    /// All that are refused, in the order in which they are looked for.
    fn faults(&self, restoring: bool) -> Vec<u32> {
        let named = (1..=PLACES).contains(&self.name);
        let empty = named && self.store.get(words::under(self.name).start) != Some(&LAYOUT);
        let faults = [
            (self.state.len() < STATE, WORDS_TOO_SHORT),
            (!named, NAME_OUT_OF_RANGE),
            (self.store.len() < STORE, STORE_TOO_SHORT),
            (restoring && empty, NOTHING_KEPT),
        ];
        let number = |(there, number): (bool, u32)| there.then_some(number);
        faults.into_iter().filter_map(number).collect()
    }

    /// Where it has a fault. Gives how many calls that were.
    fn keep(&self, counts: &Counts) -> Result<u64, String> {
        let faults = self.faults(false);
        let mut store = self.store.to_vec();
        if faults.is_empty() {
            return Ok(0);
        }
        let code = ours::keep(self.state, self.name, &mut store);
        self.judge("keeping", &faults, code, store == self.store, counts)
    }

    fn restore(&self, counts: &Counts) -> Result<u64, String> {
        let faults = self.faults(true);
        let mut state = self.state.to_vec();
        if faults.is_empty() {
            return Ok(0);
        }
        let code = ours::restore(&mut state, self.name, self.store);
        self.judge("restoring", &faults, code, state == self.state, counts)
    }

    fn judge(
        &self,
        call: &str,
        faults: &[u32],
        code: u32,
        kept: bool,
        counts: &Counts,
    ) -> Result<u64, String> {
        let (name, state, store) = (self.name, self.state.len(), self.store.len());
        let lent = format!("{call}, name {name}, a state of {state} words, a store of {store}");
        if code != faults[0] {
            return Err(format!("{lent}: answer {code}, not {}", faults[0]));
        }
        if !kept {
            return Err(format!("{lent}: answer {code}, and written"));
        }
        self.note(faults, counts);
        Ok(1)
    }

    fn note(&self, faults: &[u32], counts: &Counts) {
        for (pair, kind) in PAIRS {
            let both = pair.iter().all(|number| faults.contains(number));
            counts.add_if(kind, both);
        }
        if faults.len() > 1 {
            return;
        }
        for (name, kind) in NAMES {
            if let Some(kind) = kind.filter(|_| self.name == name) {
                counts.add(kind);
            }
        }
        counts.add_if(Kind::StoreEmpty, self.store.is_empty());
        counts.add_if(Kind::Store847, self.store.len() == STORE - 1);
        counts.add_if(Kind::StateEmpty, self.state.is_empty());
        counts.add_if(Kind::State105, self.state.len() == STATE - 1);
    }
}

#[cfg(test)]
mod tests {
    use super::*;

    #[test]
    fn faults_stand_in_their_order() {
        let (words, store) = ([LAYOUT; STATE], [0; STORE]);
        let lent = Lent {
            state: &words[1..],
            name: 8,
            store: &store[1..],
        };
        assert_eq!(lent.faults(true), [255, 6, 15]);
        assert_eq!(lent.faults(false), [255, 6]);
        let named = Lent { name: 9, ..lent };
        assert_eq!(named.faults(true), [255, 14, 6]);
    }

    #[test]
    fn what_has_no_fault_is_not_called() {
        let (words, store) = ([LAYOUT; STATE], [LAYOUT; STORE]);
        let lent = Lent {
            state: &words,
            name: 8,
            store: &store,
        };
        let counts = Counts::new();
        assert_eq!(lent.keep(&counts), Ok(0));
        assert_eq!(lent.restore(&counts), Ok(0));
    }
}
