//! Replica-overlap cluster moves: the proved library, for Rust.
//!
//! A panel is a lattice of `n` sites with `d` directions and `s` systems of +1 and -1 spins on it. A call is a struct of
//! named fields that borrows its buffers. What its mode and form do not take is ignored and may be left out, by
//! `..Default::default()`; a buffer left out is empty and a number left out is 0.
//!
//! No caller is trusted: every call is answered, whatever it is lent. A refusal is an `Err` with its number, and leaves
//! every buffer as it was. For every input the library is proved to give one answer and one content of every buffer.
//! A move draws nothing itself (cuts, flips, permutations and seeds are lent), allocates nothing and keeps nothing between
//! calls, so calls on different buffers may run at the same time. A `Source` draws such choices, all but the cuts, from a
//! seed of four words, so that a day can be repeated. A move or sweep may keep each system's energy current beside the
//! spins ([`Keeps::Totals`]). A permutation of five may be lent as one byte, its number ([`Coding::Numbers`]). Sites may be
//! pinned ([`Step::pins`]): what hangs together with one does not move. A group may be lent as one byte for each site
//! ([`PackedStep`]) instead of a row for each system. Two teams may have systems of their own on one panel ([`Teams`]): neither's
//! calls see the other's. Spins before and after a move that another made are checked ([`CheckVendor`]). A sweep's tasks may be run in
//! any order, and at the same time ([`Sweep::test`]).
//!
//! ```
//! use tsorvenk::{step, Form, Mode, Refusal, Step, Stepped};
//!
//! // two sites, each the other's neighbour, and two systems that differ at both
//! let mut spins = [1, 1, -1, -1];
//! let (mut labels, mut counts, mut sizes, mut found) = ([0; 2], [0; 3], [0; 4], [0]);
//! let mut move_from = |seed| {
//!     step(Step {
//!         mode: Mode::Pair,
//!         form: Form::Wolff,
//!         n: 2,
//!         d: 1,
//!         s: 2,
//!         spins: &mut spins,
//!         fwd: &[1, 0],
//!         bwd: &[1, 0],
//!         group: &[0, 1],
//!         seed,
//!         labels: &mut labels,
//!         counts: &mut counts,
//!         sizes: &mut sizes,
//!         found: &mut found,
//!         ..Default::default()
//!     })
//! };
//! assert_eq!(move_from(0), Ok(Stepped::Moved));
//! assert_eq!(move_from(2), Err(Refusal { number: 10 }));
//! assert_eq!(spins, [-1, -1, 1, 1]);
//! assert_eq!((labels, found), ([0, 0], [1]));
//! assert_eq!((counts, sizes), ([0, 0, 1], [2, 0, 0, 0]));
//! ```
//!
//! The build links `libtsorvenk.a` where `build-library` at the top of the repository leaves it, or where the environment
//! variable TSORVENK_LIB says. With the feature `optional-library` a missing archive is no error, and the functions are
//! then missing from the crate.
#![deny(missing_docs)]

mod answers;
mod calls;
#[cfg(linked)]
mod draws;
#[cfg(linked)]
mod foreign;
#[cfg(linked)]
mod meter;
#[cfg(linked)]
mod orders;
#[cfg(linked)]
mod packed;
#[cfg(linked)]
mod safe;
#[cfg(linked)]
mod steps;
#[cfg(linked)]
mod tasks;
mod teams;
#[cfg(linked)]
mod vendor;

pub use answers::{refusal_words, Checked, NoRoom, Refusal, Stepped, Swept};
pub use calls::{
    CheckVendor, Coding, Energy, Form, Frames, HandOver, Keeps, Label, MeterAll, Mode, Pack,
    PackedStep, ReadEdges, Step, Sweep, TaskChoose, TaskLabel, TaskWrite, Unpack, WriteEdges,
    EDGES_ROOM, FRAMES_ROOM,
};
#[cfg(linked)]
pub use draws::Source;
#[cfg(linked)]
pub use meter::{energy, hand_over, meter_all};
#[cfg(linked)]
pub use orders::{number_of, row_of};
#[cfg(linked)]
pub use packed::{pack, packed_step, unpack};
#[cfg(linked)]
pub use safe::{frames, label, read_edges, step, sweep, write_edges};
#[cfg(linked)]
pub use steps::{task_choose, task_label, task_write, test_sweep};
#[cfg(linked)]
pub use tasks::{Accepted, Chosen, Labelled, Merging, NotMerged, Task, Written};
pub use teams::{OwnSystem, Team, Teams};
#[cfg(linked)]
pub use vendor::check_vendor;
