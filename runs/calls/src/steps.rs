//! A task's three steps (14/14), on rows of its own in the group's order. A task by numbers has its rows spelt out first.
use crate::{Form, Keeps, Mode};

/// The first step: it writes what the move writes beside the spins, and in CMR's grow the sites that are blue.
pub struct TaskLabel<'a> {
    pub mode: Mode,
    pub form: Form,
    pub n: usize,
    pub d: usize,
    pub members: usize,
    pub rows: &'a [i8],
    pub fwd: &'a [u32],
    pub bwd: &'a [u32],
    pub pins: &'a [u8],
    pub couplings: &'a [i32],
    pub temperature: f32,
    pub cuts: &'a [f32],
    pub reference: usize,
    pub seed: usize,
    pub flips: &'a [u8],
    pub perms: &'a [u8],
    pub greys: &'a [u8],
    pub labels: &'a mut [u32],
    pub grey_labels: &'a mut [u32],
    pub counts: &'a mut [u32],
    pub sizes: &'a mut [u32],
    pub member_sites: &'a mut [u8],
    pub found: &'a mut [u32],
    pub grey_found: &'a mut [u32],
    pub blue: &'a mut [u8],
}

/// The second: the column of each site after the move.
pub struct TaskChoose<'a> {
    pub mode: Mode,
    pub form: Form,
    pub n: usize,
    pub d: usize,
    pub members: usize,
    pub rows: &'a [i8],
    pub pins: &'a [u8],
    pub reference: usize,
    pub seed: usize,
    pub flips: &'a [u8],
    pub perms: &'a [u8],
    pub greys: &'a [u8],
    pub labels: &'a [u32],
    pub grey_labels: &'a [u32],
    pub member_sites: &'a [u8],
    pub blue: &'a [u8],
    pub area: &'a mut [u8],
}

/// The third: rows and totals.
pub struct TaskWrite<'a> {
    pub mode: Mode,
    pub form: Form,
    pub keeps: Keeps,
    pub n: usize,
    pub d: usize,
    pub members: usize,
    pub rows: &'a mut [i8],
    pub totals: &'a mut [i64],
    pub fwd: &'a [u32],
    pub bwd: &'a [u32],
    pub couplings: &'a [i32],
    pub member_sites: &'a [u8],
    pub area: &'a [u8],
}
