//! A generated session in which states are kept and restored now and then.

use super::faults;
use super::kinds::{Counts, Kind};
use super::store::{Answer, Store};
use crate::engine::both::{Both, Opened};
use crate::engine::session::{Lent, Session, Settings, Submission};
use crate::engine::theirs::Seen;
use crate::engine::words::{PLACES, STORE};
use crate::engine::{readable, reading};
use crate::family::pattern;
use crate::random::Random;
use sonalign::engine::Engine;
use sonalign::running::Kept;
use sonalign::types::{Configuration, FeatureFrame};

pub struct Walk<'a> {
    random: Random,
    session: &'a Session,
    counts: &'a Counts,
    both: Box<Both<Engine>>,
    store: Store,
    /// Names from 1 to this are kept under: where they are few, places are replaced often.
    names: usize,
    /// The submission to come.
    pub next: usize,
    /// How many more are handed in.
    left: usize,
    /// The name restored, where nothing was submitted since.
    restored: Option<usize>,
    pub calls: u64,
    pub submissions: u64,
    /// A line for each call, where they are asked for.
    pub lines: Option<String>,
}

pub fn open(frames: &[FeatureFrame], hop: f64, configuration: Configuration) -> Box<Engine> {
    Box::new(Engine::new(frames, hop, configuration))
}

const INDEX_TOO_SHORT: u32 = 6;

/// How a state is made invalid.
type Spoil = fn(&mut Settings, &mut Kept);

const SPOILS: [Spoil; 5] = [
    |settings, _| settings.hop = f64::NAN,
    |settings, _| settings.start = f64::INFINITY,
    |_, kept| kept.pending = Some([f64::NAN; 4]),
    |_, kept| kept.last_global_search_ms = f64::NAN,
    |_, kept| kept.milestones[2] = Some(f64::NEG_INFINITY),
];

impl<'a> Walk<'a> {
    /// Nothing where the opening is refused.
    pub fn new(
        number: u64,
        session: &'a Session,
        counts: &'a Counts,
    ) -> Result<Option<Self>, String> {
        let mut random = Random::new(pattern(number ^ 0x3a4c_0000_5eed));
        let tail = random.one_of(&[0, 5, 10]);
        let Opened::Opened(both) = Both::open_with(open, &session.opening, tail)? else {
            return Ok(None);
        };
        Ok(Some(Self {
            session,
            counts,
            both,
            store: Store::new(random.one_of(&[0, 0, 1, 9])),
            names: random.one_of(&[2, 4, PLACES, PLACES]),
            next: 0,
            left: 2 * session.submissions.len(),
            restored: None,
            calls: 0,
            submissions: 0,
            lines: None,
            random,
        }))
    }

    pub fn run(&mut self) -> Result<(), String> {
        while self.left > 0 && self.next < self.session.submissions.len() {
            self.act()?;
            self.submit()?;
        }
        Ok(())
    }

    /// What comes before a submission: mostly nothing.
    fn act(&mut self) -> Result<(), String> {
        match self.random.below(24) {
            0..=5 => self.keep_some(),
            6..=9 => self.restore_kept(),
            10 => {
                let name = 1 + self.random.below(PLACES);
                self.restore(name)
            }
            11 => self.faults(),
            12 if self.random.one_in(3) => self.invalid(),
            _ => Ok(()),
        }
    }

    fn keep_some(&mut self) -> Result<(), String> {
        let name = 1 + self.random.below(self.names);
        self.keep(name)
    }

    /// One that is kept and valid, if there is any, and then mostly from its submission on.
    fn restore_kept(&mut self) -> Result<(), String> {
        let valid = |name: &usize| {
            let mark = self.store.marks[name - 1].as_ref();
            mark.is_some_and(|m| reading::is_state(&m.theirs.settings, &m.theirs.kept()))
        };
        let kept: Vec<usize> = (1..=PLACES).filter(valid).collect();
        if kept.is_empty() {
            return Ok(());
        }
        let name = self.random.one_of(&kept);
        self.restore(name)?;
        if !self.random.one_in(5) {
            self.rewind(name);
        }
        match self.random.below(8) {
            0 => self.restore_kept(),
            1 => self.keep_some(),
            2 => self.short_index(),
            _ => Ok(()),
        }
    }

    // ---- the calls

    fn keep(&mut self, name: usize) -> Result<(), String> {
        let taken = self.store.marks[name - 1].is_some();
        self.tell(|| format!("keep under {name}"));
        self.calls += 1;
        self.store.keep(&self.both, name, self.next)?;
        self.counts.add(Kind::Kept);
        self.counts.add_if(Kind::KeptAnew, taken);
        let other = self.restored.is_some_and(|restored| restored != name);
        self.counts.add_if(Kind::KeptAfterRestore, other);
        Ok(())
    }

    /// Refused where nothing is kept under the name.
    fn restore(&mut self, name: usize) -> Result<(), String> {
        let before = self.both.theirs.kept();
        self.calls += 1;
        let restored = self.store.restore(&mut self.both, name)?;
        self.tell(|| match restored {
            true => format!("restore {name}"),
            false => format!("restore {name}: refused 15"),
        });
        let Some(mark) = self.store.marks[name - 1].as_ref().filter(|_| restored) else {
            self.counts.add(Kind::Nothing);
            return Ok(());
        };
        self.counts.note_restored(name, mark, &before);
        let length = self.store.words.len();
        self.counts.add_if(Kind::Store848, length == STORE);
        self.counts.add_if(Kind::Store849, length == STORE + 1);
        let twice = self.restored.is_some();
        self.counts.add_if(Kind::RestoredTwice, twice);
        self.store.follow(None);
        self.restored = Some(name);
        Ok(())
    }

    /// The submissions after that mark come again.
    fn rewind(&mut self, name: usize) {
        if let Some(mark) = &self.store.marks[name - 1] {
            self.next = mark.next;
            self.store.follow(Some(name));
        }
    }

    fn faults(&mut self) -> Result<(), String> {
        let name = 1 + self.random.below(PLACES);
        let state = &self.both.ours.state;
        self.calls += faults::check(state, name, &self.store.words, self.counts)?;
        self.both.compare()
    }

    /// The state spoilt, kept and restored: the next submission is refused, and what was kept is
    /// restored again as it was. Then the session goes on.
    fn invalid(&mut self) -> Result<(), String> {
        let name = 1 + self.random.below(PLACES);
        let valid = name % PLACES + 1;
        self.keep(valid)?;
        let (settings, kept) = (self.both.theirs.settings, self.both.theirs.kept());
        let (mut spoilt, mut lock) = (settings, kept.clone());
        self.random.one_of(&SPOILS)(&mut spoilt, &mut lock);
        self.both.set(spoilt, lock);
        self.keep(name)?;
        self.both.set(settings, kept);
        self.restore(name)?;
        let session = self.session;
        match self.hand_in(&session.submissions[self.next])?.code {
            7 => {}
            code => return Err(format!("an invalid state is answered with {code}")),
        }
        self.restore(name)?;
        self.counts.add(Kind::Refused7);
        self.restore(valid)?;
        self.rewind(valid);
        Ok(())
    }

    // ---- submissions

    /// The next one. What comes of it is what came of it after each mark that it follows again.
    fn submit(&mut self) -> Result<(), String> {
        let session = self.session;
        let seen = self.hand_in(&session.submissions[self.next])?;
        let answer = Answer::of(&seen, self.both.ours.words());
        for mark in self.store.marks.iter_mut().flatten() {
            if let Some(at) = mark.follow(&answer)? {
                self.counts.note_again(&seen, at);
            }
        }
        self.next += 1;
        self.left -= 1;
        Ok(())
    }

    /// The next one over an index one short: refused, so nothing has happened.
    fn short_index(&mut self) -> Result<(), String> {
        let next = self.session.submissions.get(self.next);
        // Of four frames on every buffer of the index has something to be short of.
        let Some(next) = next.filter(|_| self.both.theirs.settings.frames >= 4) else {
            return Ok(());
        };
        let short = Submission {
            lent: Lent::ShortIndex(self.random.below(4)),
            ..next.clone()
        };
        match self.hand_in(&short)?.code {
            INDEX_TOO_SHORT => Ok(()),
            code => Err(format!("an index one short is answered with {code}")),
        }
    }

    fn hand_in<'s>(&mut self, submission: &'s Submission) -> Result<Seen<'s>, String> {
        let answer = self.both.submit(submission);
        self.submissions += 1;
        if let Some(lines) = &mut self.lines {
            *lines += &readable::line(self.next + 1, submission, &answer, &self.both);
        }
        let seen = answer?;
        if self.restored.take().is_some() {
            self.counts.note_straight(&seen);
        }
        Ok(seen)
    }

    fn tell(&mut self, line: impl FnOnce() -> String) {
        if let Some(lines) = &mut self.lines {
            *lines += &format!("  {}\n", line());
        }
    }
}
