//! Stand-in for the published `Lattice`, which is not supplied: two tables of neighbours.

pub struct Lattice {
    pub n_spins: usize,
    pub n_neighbors: usize,
    fwd: Vec<u32>,
    bwd: Vec<u32>,
}

impl Lattice {
    pub fn new(n_spins: usize, n_neighbors: usize, fwd: &[u32], bwd: &[u32]) -> Self {
        Self {
            n_spins,
            n_neighbors,
            fwd: fwd.to_vec(),
            bwd: bwd.to_vec(),
        }
    }

    #[inline]
    pub fn neighbor_fwd(&self, site: usize, d: usize) -> usize {
        self.fwd[site * self.n_neighbors + d] as usize
    }

    #[inline]
    pub fn neighbor_bwd(&self, site: usize, d: usize) -> usize {
        self.bwd[site * self.n_neighbors + d] as usize
    }

    /// Named by `BondMetrics` alone, which no run asks for.
    pub fn square_shape(&self) -> Option<(usize, usize)> {
        None
    }
}
