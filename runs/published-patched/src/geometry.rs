//! Stand-in for the published `Lattice`, which is not supplied: any tables, and the bond last asked for.
use std::cell::Cell;

thread_local! {
    /// The bond (site * D + direction) that the last neighbour call went along. Each published call of
    /// `BondSampler::sample` follows such a call for its own bond, so a draw reads its place here.
    static LAST: Cell<usize> = const { Cell::new(usize::MAX) };
}

pub fn last_bond() -> usize {
    LAST.get()
}

pub struct Lattice {
    pub n_spins: usize,
    pub n_neighbors: usize,
    fwd: Vec<u32>,
    bwd: Vec<u32>,
}

impl Lattice {
    pub fn new(n_spins: usize, n_neighbors: usize, fwd: &[u32], bwd: &[u32]) -> Self {
        Self {
            n_spins,
            n_neighbors,
            fwd: fwd.to_vec(),
            bwd: bwd.to_vec(),
        }
    }

    #[inline]
    pub fn neighbor_fwd(&self, site: usize, d: usize) -> usize {
        let bond = site * self.n_neighbors + d;
        LAST.set(bond);
        self.fwd[bond] as usize
    }

    /// The bond between a site and its backward neighbour is the neighbour's.
    #[inline]
    pub fn neighbor_bwd(&self, site: usize, d: usize) -> usize {
        let neighbour = self.bwd[site * self.n_neighbors + d] as usize;
        LAST.set(neighbour * self.n_neighbors + d);
        neighbour
    }

    /// Named by `BondMetrics` alone, which no run asks for.
    pub fn square_shape(&self) -> Option<(usize, usize)> {
        None
    }
}
