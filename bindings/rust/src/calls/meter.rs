//! Calls that meter (6/14).

/// The energy of one system: every field is taken.
#[derive(Clone, Copy, Debug, Default)]
pub struct Energy<'a> {
    /// Sites, 1 to 4096.
    pub n: usize,
    /// Directions, 1 to 4.
    pub d: usize,
    /// Systems, 1 to 64.
    pub s: usize,
    /// The caller's team, 0 or 1. 0 if left out.
    pub team: u8,
    /// s, as in a step. Left out, `None`, every system is of team 0.
    pub owners: Option<&'a [u8]>,
    /// s * n, as in a step; all rows but the system's own may hold anything.
    pub spins: &'a [i8],
    /// n * d, as in a step.
    pub fwd: &'a [u32],
    /// n * d, as in a step.
    pub bwd: &'a [u32],
    /// n * d, as in a step.
    pub couplings: &'a [i32],
    /// Below s, and the team's.
    pub system: usize,
}

/// The energy of every system of the team, which totals start from: every field is taken.
#[derive(Debug, Default)]
pub struct MeterAll<'a> {
    /// Sites, 1 to 4096.
    pub n: usize,
    /// Directions, 1 to 4.
    pub d: usize,
    /// Systems, 1 to 64.
    pub s: usize,
    /// The caller's team, 0 or 1. 0 if left out.
    pub team: u8,
    /// s, as in a step. Left out, `None`, every system is of team 0.
    pub owners: Option<&'a [u8]>,
    /// s * n, as in a step; the other team's rows may hold anything.
    pub spins: &'a [i8],
    /// s. Written: the energy of each system of the team. Those of the other team are kept.
    pub totals: &'a mut [i64],
    /// n * d, as in a step.
    pub fwd: &'a [u32],
    /// n * d, as in a step.
    pub bwd: &'a [u32],
    /// n * d, as in a step.
    pub couplings: &'a [i32],
}

/// Totals that a team brings, to be held to the energies of its systems: every field is taken, and nothing is written.
#[derive(Clone, Copy, Debug, Default)]
pub struct HandOver<'a> {
    /// Sites, 1 to 4096.
    pub n: usize,
    /// Directions, 1 to 4.
    pub d: usize,
    /// Systems, 1 to 64.
    pub s: usize,
    /// The caller's team, 0 or 1. 0 if left out.
    pub team: u8,
    /// s, as in a step. Left out, `None`, every system is of team 0.
    pub owners: Option<&'a [u8]>,
    /// s * n, as in a step; the other team's rows may hold anything.
    pub spins: &'a [i8],
    /// s, one for each system; the other team's may be anything.
    pub totals: &'a [i64],
    /// n * d, as in a step.
    pub fwd: &'a [u32],
    /// n * d, as in a step.
    pub bwd: &'a [u32],
    /// n * d, as in a step.
    pub couplings: &'a [i32],
}
