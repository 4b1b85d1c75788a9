//! The published overlap.rs, with one line of utils.rs patched, for the comparisons: its draws read the lent choices by place.
//!
//! The crates and files that the published sources name and that are not here are stood in for:
//! `rand`, `rand_xoshiro`, `rayon` and `validator` are this crate under those names, `geometry` and `mcmc` its modules.

#[cfg(published)]
extern crate self as rand;
#[cfg(published)]
extern crate self as rand_xoshiro;
#[cfg(published)]
extern crate self as rayon;
#[cfg(published)]
extern crate self as validator;

/// Whether the published sources were there when this was built.
pub const PRESENT: bool = cfg!(published);

/// Which of the one-cluster form's two branches runs: with outputs the Rust labels, without it grows depth first.
#[derive(Clone, Copy, Debug, PartialEq, Eq)]
pub enum Branch {
    UnionFind,
    DepthFirst,
}

#[cfg(published)]
#[allow(dead_code, private_interfaces)]
mod clusters {
    pub mod overlap {
        include!(concat!(env!("OUT_DIR"), "/overlap.rs"));
    }
    pub mod utils {
        include!(concat!(env!("OUT_DIR"), "/utils.rs"));
    }
}
#[cfg(published)]
#[allow(dead_code)]
mod config {
    include!(concat!(env!("OUT_DIR"), "/config.rs"));
}
#[cfg(published)]
mod geometry;
#[cfg(published)]
mod lent;
#[cfg(published)]
mod run;

#[cfg(all(test, published))]
mod differences;

#[cfg(published)]
pub(crate) use lent::{mcmc, prelude, seq, Rng, ValidationError, Xoshiro256StarStar};
#[cfg(published)]
pub use run::{active, step, sweep, Prepared};
#[cfg(published)]
pub(crate) use validator_stand_in::Validate;

#[cfg(not(published))]
mod absent;
#[cfg(not(published))]
pub use absent::{active, step, sweep, Prepared};
