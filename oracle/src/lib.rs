//! Judges our picture manager by the original Rust.
//!
//! The modules `api`, `def`, `enc`, `picman` and `util` hold the original's own text under its own paths, cut
//! out by build.rs; only `api::frame` and the context in `enc::gop` are ours. Around them: `original` drives that text on the
//! image of a machine, `papers` is the specification in plain Rust, `ours` is the static library, and `judge` compares them.

// Nothing here changes the text, so its warnings are not ours to mend.
#[allow(warnings)]
mod api {
    pub mod frame;
    use frame::*;

    include!(concat!(env!("OUT_DIR"), "/api.rs"));
}

#[allow(warnings)]
mod def {
    use crate::api::*;

    include!(concat!(env!("OUT_DIR"), "/def.rs"));
}

#[allow(warnings)]
mod enc {
    pub mod gop;

    pub mod tbl {
        use super::*;

        include!(concat!(env!("OUT_DIR"), "/tbl.rs"));
    }

    include!(concat!(env!("OUT_DIR"), "/enc.rs"));
}

#[allow(warnings)]
mod picman {
    include!(concat!(env!("OUT_DIR"), "/picman.rs"));
}

#[allow(warnings)]
mod util {
    use super::def::*;

    include!(concat!(env!("OUT_DIR"), "/util.rs"));
}

pub mod call;
pub mod children;
pub mod coverage;
pub mod generate;
pub mod image;
pub mod judge;
pub mod lines;
pub mod original;
pub mod ours;
pub mod ours_plan;
pub mod ours_why;
pub mod papers;
pub mod rng;
pub mod running;
pub mod runs;
pub mod samples;
pub mod watch;
