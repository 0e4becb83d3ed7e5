//! The port and the comparison build in step: after every call all that can be seen of the two is
//! compared, bit for bit.

use super::ours::{self, Ours, COMPUTED, NO_AGE, OLD, REREAD};
use super::reading;
use super::session::{Lent, Opening, Settings, Submission};
use super::theirs::{OpenAs, Seen, Theirs};
use super::words::{self, place};
use crate::value::{same, Value};
use sonalign::running::{self, Kept, Running};

pub struct Both<E: ?Sized = dyn Running> {
    pub ours: Ours,
    pub theirs: Theirs<E>,
}

pub enum Opened<E: ?Sized = dyn Running> {
    Refused(u32),
    Opened(Box<Both<E>>),
}

impl Both {
    /// Buffers are longer by `tail` than they need be. An error says what differs.
    pub fn open(opening: &Opening, tail: usize) -> Result<Opened, String> {
        Self::open_with(running::open, opening, tail)
    }
}

impl<E: Running + ?Sized> Both<E> {
    /// With another build of the Rust.
    pub fn open_with(open: OpenAs<E>, opening: &Opening, tail: usize) -> Result<Opened<E>, String> {
        let (code, ours) = Ours::open(opening, tail);
        let expected = reading::opening_refusal(opening, ours.index.lengths()).unwrap_or(0);
        if code != expected {
            return Err(format!("opening answers {code}, not {expected}"));
        }
        if code != 0 {
            untouched(&ours)?;
            return Ok(Opened::Refused(code));
        }
        let theirs = Theirs::open(open, opening, tail);
        if theirs.is_indexed() != reading::is_accepted(opening) {
            return Err("the Rust and document 01 do not accept the same reference".into());
        }
        let both = Self { ours, theirs };
        both.compare()?;
        both.compare_index()?;
        Ok(Opened::Opened(Box::new(both)))
    }

    pub fn submit<'a>(&mut self, submission: &'a Submission) -> Result<Seen<'a>, String> {
        let spoilt = submission.lent == Lent::SpoiltState;
        let (hop, word) = (self.theirs.settings.hop, self.ours.state[place::HOP]);
        if spoilt {
            self.theirs.settings.hop = f64::NAN;
            self.ours.state[place::HOP] = words::float(f64::NAN);
        }
        let seen = self.call(submission);
        if spoilt {
            self.theirs.settings.hop = hop;
            self.ours.state[place::HOP] = word;
        }
        seen
    }

    fn call<'a>(&mut self, submission: &'a Submission) -> Result<Seen<'a>, String> {
        let handed = self.theirs.handed(submission);
        let seen = self.theirs.submit(&handed);
        if seen.snapshot.is_some() {
            let reread = reading::is_reread(&seen.settings, &seen.before, seen.window);
            if reread != (seen.code == REREAD) {
                return Err(format!(
                    "document 01 says re-read: {reread}, the Rust does not"
                ));
            }
        }
        let ours = self.ours.submit(&handed)?;
        if ours.code != seen.code {
            return Err(format!("ours answers {}, Rust {}", ours.code, seen.code));
        }
        if let (Some(our), Some(their)) = (&ours.snapshot, &seen.snapshot) {
            compare_words(our, &words::snapshot(their), |word| match word {
                0 => "layout".into(),
                _ => words::snapshot_name(word - 1),
            })?;
        }
        self.compare()?;
        Ok(seen)
    }

    /// Sets both to a state made by a caller.
    pub fn set(&mut self, settings: Settings, kept: Kept) {
        self.theirs.settings = settings;
        self.ours.set(&words::state(&settings, &kept));
        self.theirs.keep(kept);
    }

    /// State and support age.
    pub fn compare(&self) -> Result<(), String> {
        self.compare_state()?;
        self.compare_age()
    }

    fn compare_state(&self) -> Result<(), String> {
        compare_words(self.ours.words(), &self.theirs.state(), words::state_name)?;
        match self.ours.keeps_tail() {
            true => Ok(()),
            false => Err("the state's tail was written".into()),
        }
    }

    fn compare_age(&self) -> Result<(), String> {
        let (code, age) = ours::support_age(&self.ours.state, OLD);
        let kept = self.theirs.kept();
        let expected = match reading::support_age(&kept) {
            _ if !reading::is_state(&self.theirs.settings, &kept) => (7, OLD),
            Some(age) => (COMPUTED, age),
            None => (NO_AGE, OLD),
        };
        if code == expected.0 && same(age, expected.1) {
            Ok(())
        } else {
            Err(format!(
                "support age answers {code} and {}, not {} and {}",
                age.shown(),
                expected.0,
                expected.1.shown()
            ))
        }
    }

    /// The index is the Rust's and the tails stay; without one nothing is written.
    fn compare_index(&self) -> Result<(), String> {
        let rows = self.theirs.index().unwrap_or_default();
        let index = &self.ours.index;
        let same = begins(&index.fine, &rows.fine, OLD as f32)
            && begins(&index.coarse, &rows.coarse, OLD as f32)
            && begins(&index.fine_energy, &rows.fine_energy, OLD)
            && begins(&index.coarse_energy, &rows.coarse_energy, OLD);
        match same {
            true => Ok(()),
            false => Err("the index differs".into()),
        }
    }
}

/// A refused opening writes nothing.
fn untouched(ours: &Ours) -> Result<(), String> {
    let blank = ours::Index::new(ours.index.lengths());
    if ours.index.is(&blank) && ours.state.iter().all(|&word| word == ours::OLD_WORD) {
        Ok(())
    } else {
        Err("a refused opening wrote".into())
    }
}

/// Whether the buffer begins with the row and goes on as it was.
fn begins<V: Value>(buffer: &[V], row: &[V], old: V) -> bool {
    let Some((front, tail)) = buffer.split_at_checked(row.len()) else {
        return false;
    };
    front.iter().zip(row).all(|(&x, &y)| same(x, y)) && tail.iter().all(|&x| same(x, old))
}

pub fn compare_words(
    ours: &[u64],
    theirs: &[u64],
    name: impl Fn(usize) -> String,
) -> Result<(), String> {
    if ours.len() != theirs.len() {
        return Err(format!("{} words, not {}", ours.len(), theirs.len()));
    }
    match ours.iter().zip(theirs).position(|(x, y)| x != y) {
        None => Ok(()),
        Some(word) => Err(format!(
            "{}: ours {}, Rust {}",
            name(word),
            f64::from_bits(ours[word]).shown(),
            f64::from_bits(theirs[word]).shown()
        )),
    }
}
