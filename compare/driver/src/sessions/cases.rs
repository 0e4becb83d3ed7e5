//! The session that the proof checker works out: a lock by a chain of several answers, with a search
//! between them that fails and is held, a refusal, a coast, local support and a second coast.
//!
//! It is as small as it can be: 19 frames are the fewest that are searched at this hop, and fewer
//! are searched without candidates.

use super::material::Rows;
use super::session::{Lent, Session};
use sonalign::types::Configuration;

/// The fewest frames that a search takes at radius 1.
const FEWEST: usize = 19;

pub fn all() -> Vec<Session> {
    vec![by_a_chain(&film(), &noise())]
}

/// The references are its first frames.
fn film() -> Rows {
    Rows::new(&["137673506153217156623731", "164666145705654342561465"])
}

/// Sound of something else.
fn noise() -> Rows {
    Rows::new(&["4445631055353024157", "3764576102530420465"])
}

fn configuration() -> Configuration {
    Configuration {
        minimum_readiness_duration_ms: 2_000.0,
        tracking_query_duration_ms: 1_500.0,
        minimum_active_frame_energy_dbfs: -26.0,
        minimum_average_energy_dbfs: -31.0,
        minimum_active_frame_fraction: 0.125,
    }
}

/// One band at hop 250, where a chain takes 750 of fresh evidence.
fn by_a_chain(film: &Rows, noise: &Rows) -> Session {
    let (film, noise, hop) = (film.band(0), noise.band(0), 250.0);
    let start = 1_000.0;
    let heard = |from| film.part(from, FEWEST).worn();
    let half = film.part(2, FEWEST).until(10, &noise);
    let changed = heard(5).until(FEWEST - 5, &noise);
    Session {
        name: "by a chain",
        hop,
        configuration: Configuration {
            tracking_query_duration_ms: 1_000.0,
            ..configuration()
        },
        reference: film.part(0, 23).reference(-2_000.0, hop),
        submissions: vec![
            heard(0)
                .window(start, hop)
                .submitted(1.0, "a first passing search"),
            heard(1)
                .window(start + 250.0, hop)
                .submitted(2.0, "too early for a whole search"),
            half.window(start + 500.0, hop)
                .submitted(3.0, "a search that fails by a half, at the same place"),
            heard(4)
                .window(start + 1_000.0, hop)
                .submitted(4.0, "refused: no working buffers")
                .lent(Lent::NoWork),
            heard(4)
                .window(start + 1_000.0, hop)
                .submitted(5.0, "a second passing search: a lock"),
            changed
                .window(start + 1_190.0, hop)
                .submitted(6.0, "a coast: no recent support"),
            heard(5)
                .window(start + 1_300.0, hop)
                .submitted(7.0, "local support, which moves the track"),
            noise
                .part(0, 4)
                .window(start + 6_300.0, hop)
                .submitted(8.0, "a coast: two hops after the last, no jump"),
        ],
    }
}
