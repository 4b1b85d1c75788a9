//! A vendor's spins of one group before and after a move (13/14).
use crate::Mode;

/// N rows of n spins each in the group's order, before and after, and where the permutations go, n rows of N.
pub struct CheckVendor<'a> {
    pub mode: Mode,
    pub n: usize,
    pub d: usize,
    pub members: usize,
    pub reference: usize,
    pub fwd: &'a [u32],
    pub bwd: &'a [u32],
    pub pins: &'a [u8],
    pub before: &'a [i8],
    pub after: &'a [i8],
    pub rows: &'a mut [u8],
}

#[derive(Clone, Copy, Debug, PartialEq, Eq)]
pub enum VendorAnswer {
    Accepted,
    /// The smallest number of a component at fault.
    No(u32),
    Refused(u8),
}
