//! Calls on one byte for a site's whole group (11/14).
use super::{Coding, Form, Keeps, Mode};

/// Rows to be packed: every field is taken.
#[derive(Debug, Default)]
pub struct Pack<'a> {
    /// Sites, 1 to 4096.
    pub n: usize,
    /// The group's size N, 2 to 8.
    pub members: usize,
    /// N * n, row by row: the spin of member k at site i is at k * n + i, +1 or -1.
    pub rows: &'a [i8],
    /// n. Written: bit k of a site's byte is set where member k is +1 there, and bits from N upwards are 0.
    pub columns: &'a mut [u8],
}

/// Columns to be unpacked: every field is taken.
#[derive(Debug, Default)]
pub struct Unpack<'a> {
    /// Sites, 1 to 4096.
    pub n: usize,
    /// The group's size N, 2 to 8.
    pub members: usize,
    /// n, each without a bit from N upwards.
    pub columns: &'a [u8],
    /// N * n. Written: the spin of member k at site i at k * n + i.
    pub rows: &'a mut [i8],
}

/// One move or observation of one group of N = `members` systems, lent as a byte for each site: the [`Step`](crate::Step) on the
/// unpacked rows, with s = N, one owner and the group 0, 1 .. N - 1. It answers, writes and refuses the same; 5 does not occur, since no
/// system has a number.
#[derive(Debug, Default)]
pub struct PackedStep<'a> {
    /// Houd if left out.
    pub mode: Mode,
    /// SW if left out.
    pub form: Form,
    /// Rows if left out: how `perms` spells permutations, which has nothing to do with `columns`.
    pub coding: Coding,
    /// Nothing if left out.
    pub keeps: Keeps,
    /// Sites, 1 to 4096.
    pub n: usize,
    /// Directions, 1 to 4.
    pub d: usize,
    /// The group's size N, 2 to 8 (CMR: 2, houd: 2 unless it observes).
    pub members: usize,
    /// n: bit k of a site's byte is set where member k is +1 there, and bits from N upwards are 0. Moved; the spins themselves in
    /// every mode, gperm's too. Idle, held and observe leave them as they are.
    pub columns: &'a mut [u8],
    /// N, in the members' order, as in a step. Totals kept, in SW, Wolff and grow.
    pub totals: &'a mut [i64],
    /// n * d, as in a step.
    pub fwd: &'a [u32],
    /// n * d, as in a step.
    pub bwd: &'a [u32],
    /// n, as in a step. Left out, `None`, nothing is pinned.
    pub pins: Option<&'a [u8]>,
    /// n * d, as in a step. Jörg, CMR, in every form; totals kept, in every mode.
    pub couplings: &'a [i32],
    /// As in a step. Jörg, CMR, in every form.
    pub temperature: f32,
    /// n * d, as in a step. Jörg, CMR, in every form.
    pub cuts: &'a [f32],
    /// A site. Gperm, in every form.
    pub reference: usize,
    /// A site that acts, if any does. Wolff and grow.
    pub seed: usize,
    /// n, as in a step. SW of houd, pair, Jörg, CMR.
    pub flips: &'a [u8],
    /// SW: n rows of N, Wolff and grow: one, as in a step; by numbers SW: n, Wolff and grow: one. SW, Wolff and grow of perm,
    /// gperm.
    pub perms: &'a [u8],
    /// SW: n, Wolff and grow: one, as in a step. SW, Wolff and grow of CMR.
    pub greys: &'a [u8],
    /// n. Written, as by a step. All forms but grow.
    pub labels: &'a mut [u32],
    /// n. Written, as by a step. SW and Wolff of CMR.
    pub grey_labels: &'a mut [u32],
    /// n + 1. Written, as by a step. All forms but grow.
    pub counts: &'a mut [u32],
    /// 4. Written, as by a step. All forms but grow.
    pub sizes: &'a mut [u32],
    /// n. Written, as by a step. Grow.
    pub member_sites: &'a mut [u8],
    /// 1. Written, as by a step. All forms but grow.
    pub found: &'a mut [u32],
    /// 1. Written, as by a step. SW and Wolff of CMR.
    pub grey_found: &'a mut [u32],
}
