//! The check of a vendor's moves (13/14).
use super::Mode;

/// A vendor's spins of one group of N = `members` systems, before and after a move in perm or gperm. The systems have no numbers: their
/// rows stand in the group's order. Components are those of `before`, with the numbers that an observation gives; a site that does not
/// act is one of its own.
#[derive(Debug, Default)]
pub struct CheckVendor<'a> {
    /// Perm or gperm; any other, and houd if left out, is refused with 1.
    pub mode: Mode,
    /// Sites, 1 to 4096.
    pub n: usize,
    /// Directions, 1 to 4.
    pub d: usize,
    /// The group's size N, 2 to 8.
    pub members: usize,
    /// A site. Gperm; its spins in `before` gauge both buffers.
    pub reference: usize,
    /// n * d, as in a step.
    pub fwd: &'a [u32],
    /// n * d, as in a step.
    pub bwd: &'a [u32],
    /// n, as in a step: a component with a pinned site must be as it was. Left out, `None`, nothing is pinned.
    pub pins: Option<&'a [u8]>,
    /// N * n, row by row: the spin of member k at site i is at k * n + i, +1 or -1.
    pub before: &'a [i8],
    /// N * n, likewise.
    pub after: &'a [i8],
    /// n * N. Written if accepted: in row c, of the component of number c that acts, the smallest permutation, as a word, that makes
    /// its spins after of those before; 0 to N - 1 in all other rows. They are the `perms` of an SW move that makes `after` of `before`.
    pub rows: &'a mut [u8],
}
