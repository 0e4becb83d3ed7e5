//! The Rust that the port is compared with: its three files as build.rs has edited them, over the
//! functions of [`replaced`]. Internals are public, so that states and indexes can be compared as
//! well as answers.

pub mod replaced;
pub mod running;

#[allow(dead_code, clippy::all)]
pub mod types {
    include!(concat!(env!("OUT_DIR"), "/types.rs"));
}

#[allow(dead_code, clippy::all)]
pub mod matcher {
    include!(concat!(env!("OUT_DIR"), "/matcher.rs"));
}

#[allow(dead_code, clippy::all)]
pub mod engine {
    include!(concat!(env!("OUT_DIR"), "/engine.rs"));
}

/// The Rust with its own functions, for measuring only.
pub mod own {
    #[allow(dead_code, clippy::all)]
    pub mod matcher {
        include!(concat!(env!("OUT_DIR"), "/own/matcher.rs"));
    }

    #[allow(dead_code, clippy::all)]
    pub mod engine {
        include!(concat!(env!("OUT_DIR"), "/own/engine.rs"));
    }
}

// matcher.rs names these two at the root of the crate.
pub use types::{FeatureFrame, FeatureWindow};
