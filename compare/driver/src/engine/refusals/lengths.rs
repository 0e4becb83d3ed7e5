//! The lengths that the library tells, beside document 01's.

use super::Tally;
use crate::engine::session::{index_lengths, work_lengths};
use crate::engine::{ours, words};

pub fn lengths(tally: &mut Tally) {
    let note = |tally: &mut Tally, what: &str, same: bool| {
        tally.calls += 1;
        if !same {
            tally.differs(what);
        }
    };
    note(
        tally,
        "words",
        ours::words() == [words::STATE, words::SNAPSHOT, words::STORE],
    );
    let counts = [
        0, 1, 2, 3, 4, 5, 7, 8, 43, 1_023, 1_024, 1_025, 65_534, 65_535, 65_536,
    ];
    let huge = [usize::MAX, usize::MAX / 2 + 1, 1 << 32];
    for &frames in counts.iter().chain(&huge) {
        for bands in [0, 1, 2, 63, 64, 65, 1 << 60, usize::MAX] {
            let fits = frames <= 65_535 && bands <= 64;
            let index = if fits {
                index_lengths(frames, bands)
            } else {
                [0; 4]
            };
            let same = ours::index(frames, bands) == index;
            note(
                tally,
                &format!("index lengths of {frames} and {bands}"),
                same,
            );
            for of in [0, 1, 40, 65_535, 65_536, usize::MAX] {
                let work = match frames <= 1_024 && bands <= 64 {
                    false => [0; 2],
                    true => work_lengths(bands, frames, of),
                };
                let expected = if of > 65_535 { [work[0], 0] } else { work };
                let same = ours::work(frames, bands, of) == expected;
                note(
                    tally,
                    &format!("work lengths of {frames}, {bands}, {of}"),
                    same,
                );
            }
        }
    }
}
