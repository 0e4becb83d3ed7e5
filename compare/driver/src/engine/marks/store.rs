//! A lent store beside all that it has to hold: a clone of the Rust's engine in each place.

use crate::engine::both::{compare_words, Both};
use crate::engine::ours::{self, COMPUTED, NOTHING_KEPT, OLD_WORD};
use crate::engine::theirs::{Seen, Theirs};
use crate::engine::words::{self, PLACES, STORE};
use sonalign::engine::Engine;

pub struct Store {
    pub words: Vec<u64>,
    /// By their names less 1.
    pub marks: [Option<Mark>; PLACES],
}

/// What is kept under a name.
pub struct Mark {
    pub theirs: Theirs<Engine>,
    /// The submission to come when it was kept.
    pub next: usize,
    /// Whether the place held another state before.
    pub replaces: bool,
    /// What came of the submissions after it.
    followed: Vec<Answer>,
    /// How many of them both sides were given since the mark, and nothing else; none if something
    /// else came between.
    since: Option<usize>,
}

/// What came of a submission.
#[derive(Clone, Debug, PartialEq)]
pub struct Answer {
    code: u32,
    snapshot: Option<Vec<u64>>,
    state: Vec<u64>,
}

impl Answer {
    pub fn of(seen: &Seen, state: &[u64]) -> Self {
        Self {
            code: seen.code,
            snapshot: seen.snapshot.as_ref().map(words::snapshot),
            state: state.to_vec(),
        }
    }
}

impl Mark {
    /// Notes an answer to the next of the submissions after the mark. Says which of them it is where
    /// it was answered after the mark before: then it has to be answered the same.
    pub fn follow(&mut self, answer: &Answer) -> Result<Option<usize>, String> {
        let Some(at) = self.since else {
            return Ok(None);
        };
        self.since = Some(at + 1);
        match self.followed.get(at) {
            Some(first) if first == answer => Ok(Some(at)),
            Some(_) => Err(format!("not answered as after the mark, {at} after it")),
            None => {
                self.followed.push(answer.clone());
                Ok(None)
            }
        }
    }
}

impl Store {
    /// One that keeps nothing.
    pub fn new(tail: usize) -> Self {
        let mut words = vec![0; STORE];
        words.resize(STORE + tail, OLD_WORD);
        Self {
            words,
            marks: Default::default(),
        }
    }

    /// Keeps both sides' state before submission `next`. All other words stay.
    pub fn keep(&mut self, both: &Both<Engine>, name: usize, next: usize) -> Result<(), String> {
        let (mut expected, state) = (self.words.clone(), both.theirs.state());
        let other = self.words[words::under(name)] != state;
        expected[words::under(name)].copy_from_slice(&state);
        match ours::keep(&both.ours.state, name, &mut self.words) {
            COMPUTED => {}
            code => return Err(format!("keeping under {name} answers {code}")),
        }
        compare_words(&self.words, &expected, words::store_name)?;
        both.compare()?;
        let mark = &mut self.marks[name - 1];
        *mark = Some(Mark {
            theirs: both.theirs.clone(),
            next,
            replaces: mark.is_some() && other,
            followed: Vec::new(),
            since: Some(0),
        });
        Ok(())
    }

    /// Restores into both sides. Refused where nothing is kept under the name, which is then told by
    /// false.
    pub fn restore(&mut self, both: &mut Both<Engine>, name: usize) -> Result<bool, String> {
        let before = self.words.clone();
        let mark = self.marks[name - 1].as_ref();
        let code = ours::restore(&mut both.ours.state, name, &self.words);
        let expected = mark.map_or(NOTHING_KEPT, |_| COMPUTED);
        if code != expected {
            return Err(format!("restoring {name} answers {code}, not {expected}"));
        }
        compare_words(&self.words, &before, words::store_name)?;
        if let Some(mark) = mark {
            both.theirs = mark.theirs.clone();
        }
        both.compare()?;
        Ok(mark.is_some())
    }

    /// From here on the submissions after this mark are given again, or after none.
    pub fn follow(&mut self, name: Option<usize>) {
        for (at, mark) in self.marks.iter_mut().enumerate() {
            if let Some(mark) = mark {
                mark.since = (name == Some(at + 1)).then_some(0);
            }
        }
    }
}

#[cfg(test)]
mod tests {
    use super::super::walk::open;
    use super::*;
    use crate::engine::both::Opened;
    use crate::engine::generate;
    use crate::engine::words::place::HOP;

    fn opened() -> Box<Both<Engine>> {
        match Both::open_with(open, &generate::session(0).opening, 0) {
            Ok(Opened::Opened(both)) => both,
            _ => panic!("session 0 opens"),
        }
    }

    #[test]
    fn what_is_kept_is_restored() {
        let (mut both, mut store) = (opened(), Store::new(1));
        assert_eq!(store.restore(&mut both, 3), Ok(false));
        assert_eq!(store.keep(&both, 3, 0), Ok(()));
        assert_eq!(store.restore(&mut both, 3), Ok(true));
        assert_eq!(store.restore(&mut both, 2), Ok(false));
    }

    #[test]
    fn a_changed_place_is_told() {
        let (mut both, mut store) = (opened(), Store::new(0));
        assert_eq!(store.keep(&both, 8, 0), Ok(()));
        store.words[words::under(8).start + HOP] ^= 1;
        assert!(store.restore(&mut both, 8).is_err());
    }

    #[test]
    fn other_answers_than_after_the_mark_are_told() {
        let (both, mut store) = (opened(), Store::new(0));
        let answer = |code| Answer {
            code,
            snapshot: None,
            state: Vec::new(),
        };
        assert_eq!(store.keep(&both, 1, 0), Ok(()));
        let mut follow = |again, code| {
            if again {
                store.follow(Some(1));
            }
            let mark = store.marks[0].as_mut();
            mark.map(|mark| mark.follow(&answer(code)))
        };
        assert_eq!(follow(false, 0), Some(Ok(None)));
        assert_eq!(follow(false, 9), Some(Ok(None)));
        assert_eq!(follow(true, 0), Some(Ok(Some(0))));
        assert_eq!(follow(false, 9), Some(Ok(Some(1))));
        assert!(follow(true, 100).is_some_and(|told| told.is_err()));
        store.follow(None);
        let mark = store.marks[0].as_mut();
        assert_eq!(mark.map(|mark| mark.follow(&answer(1))), Some(Ok(None)));
    }
}
