//! One byte for a site's whole group (11/14): bit k is set where member k is +1.
use crate::{Coding, Form, Keeps, Mode};

/// Rows, N of n spins each in the members' order, and where their columns go.
pub struct Pack<'a> {
    pub n: usize,
    pub members: usize,
    pub rows: &'a [i8],
    pub columns: &'a mut [u8],
}

/// Columns, and where their rows go.
pub struct Unpack<'a> {
    pub n: usize,
    pub members: usize,
    pub columns: &'a [u8],
    pub rows: &'a mut [i8],
}

/// One move of one group of `members` systems, which have no numbers; the totals are in the members' order.
pub struct PackedStep<'a> {
    pub mode: Mode,
    pub form: Form,
    pub coding: Coding,
    pub keeps: Keeps,
    pub n: usize,
    pub d: usize,
    pub members: usize,
    pub columns: &'a mut [u8],
    pub totals: &'a mut [i64],
    pub fwd: &'a [u32],
    pub bwd: &'a [u32],
    pub pins: &'a [u8],
    pub couplings: &'a [i32],
    pub temperature: f32,
    pub cuts: &'a [f32],
    pub reference: usize,
    pub seed: usize,
    pub flips: &'a [u8],
    pub perms: &'a [u8],
    pub greys: &'a [u8],
    pub labels: &'a mut [u32],
    pub grey_labels: &'a mut [u32],
    pub counts: &'a mut [u32],
    pub sizes: &'a mut [u32],
    pub member_sites: &'a mut [u8],
    pub found: &'a mut [u32],
    pub grey_found: &'a mut [u32],
}
