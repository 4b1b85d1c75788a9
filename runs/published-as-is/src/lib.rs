//! The published overlap.rs as the benchmarks' other side: unpatched, with a generator that generates.
//!
//! The generator is xoshiro256** with this crate's own reading of `gen`, `gen_range` and `shuffle`; its numbers are
//! not those of the crates `rand` and `rand_xoshiro`, its cost is close to theirs.

#[cfg(published)]
extern crate self as rand;
#[cfg(published)]
extern crate self as rand_xoshiro;
#[cfg(published)]
extern crate self as rayon;
#[cfg(published)]
extern crate self as validator;

pub const PRESENT: bool = cfg!(published);

#[cfg(published)]
#[allow(dead_code, private_interfaces)]
mod clusters {
    pub mod overlap {
        include!(concat!(env!("OUT_DIR"), "/overlap.rs"));
    }
    pub mod utils {
        include!(concat!(env!("OUT_DIR"), "/utils.rs"));
    }

    use crate::geometry::Lattice;

    /// The published labelling over a table of holding bonds, as the moves call it.
    pub fn label(
        lattice: &Lattice,
        holds: &[u8],
        labels: &mut Vec<u32>,
        counts: &mut [u64],
        sizes: &mut [u32; 4],
    ) {
        let directions = lattice.n_neighbors;
        let mut uf = utils::uf_bonds(lattice, |i, d| holds[i * directions + d] == 1);
        let by_root = utils::uf_flatten_counts(&mut uf.parent);
        utils::uf_histogram(&by_root, counts);
        *sizes = utils::top4_sizes(&by_root);
        labels.clear();
        labels.extend_from_slice(&uf.parent[..lattice.n_spins]);
    }
}
#[cfg(published)]
#[allow(dead_code)]
mod config {
    include!(concat!(env!("OUT_DIR"), "/config.rs"));
}
#[cfg(published)]
mod generator;
#[cfg(published)]
mod geometry;
#[cfg(published)]
mod run;

#[cfg(published)]
pub(crate) use generator::{mcmc, prelude, seq, Rng, ValidationError, Xoshiro256StarStar};
#[cfg(published)]
pub use run::{Labelling, Sweeper};
#[cfg(published)]
pub(crate) use validator_stand_in::Validate;

#[cfg(all(test, published))]
mod differences;

#[cfg(not(published))]
mod absent;
#[cfg(not(published))]
pub use absent::{Labelling, Sweeper};
