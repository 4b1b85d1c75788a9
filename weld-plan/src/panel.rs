//! The panel of a day: tables, couplings and pins, and the library's meter on it.
use crate::diagnose::diagnose;
use crate::fault::Fault;
use crate::files::read_at_most;
use crate::grid::{Grid, D};
use crate::sha256;
use std::path::Path;
use tsorvenk::{Energy, HandOver, MeterAll, ReadEdges, EDGES_ROOM};

/// Everything about the panel that a day does not change.
pub struct Panel {
    pub grid: Grid,
    pub n: usize,
    pub fwd: Vec<u32>,
    pub bwd: Vec<u32>,
    pub couplings: Vec<i32>,
    /// For each site, 1 where it is pinned.
    pub pins: Vec<u8>,
    /// The faces of pinned sites, +1 or -1, and 0 elsewhere.
    pub faces: Vec<i8>,
    /// The four neighbours of each site and the couplings to them, for single-seam updates.
    pub around: Vec<[(u32, i32); 4]>,
    /// The list's SHA-256.
    pub checksum: String,
}

impl Panel {
    /// The yard's list from its file, for this grid.
    pub fn read(path: &Path, grid: Grid) -> Result<Panel, Fault> {
        let text = read_at_most(path, EDGES_ROOM)?;
        Panel::from_list(&text, grid).map_err(|why| Fault::input(format!("{}, {why}", path.display())))
    }

    /// The library reads the list. Where it refuses, or accepts a bond over the panel's edge, a plain reading says which line it is.
    pub fn from_list(text: &[u8], grid: Grid) -> Result<Panel, String> {
        let n = grid.seams();
        let (fwd, bwd) = grid.tables();
        let mut couplings = vec![0; n * D];
        let answer = tsorvenk::read_edges(ReadEdges { n, d: D, fwd: &fwd, bwd: &bwd, text, couplings: &mut couplings });
        let found = diagnose(text, grid);
        if let Err(wrong) = found {
            return Err(format!("line {}: {}", wrong.line, wrong.why));
        }
        answer.map_err(|refusal| format!("as a whole: the library {refusal}"))?;
        let around = around(n, &fwd, &bwd, &couplings);
        let (pins, faces) = (vec![0; n], vec![0; n]);
        Ok(Panel { grid, n, fwd, bwd, couplings, pins, faces, around, checksum: sha256::hex(text) })
    }

    /// Whether any seam is pinned.
    pub fn pinned(&self) -> bool {
        self.pins.contains(&1)
    }

    /// What turning a seam over would add to the total.
    #[inline]
    pub fn change(&self, spins: &[i8], site: usize) -> i32 {
        let field: i32 = self.around[site].iter().map(|&(other, coupling)| coupling * i32::from(spins[other as usize])).sum();
        2 * field * i32::from(spins[site])
    }

    /// The library's meter of one row of spins.
    pub fn meter(&self, spins: &[i8]) -> Result<i64, Fault> {
        let Panel { n, ref fwd, ref bwd, ref couplings, .. } = *self;
        Ok(tsorvenk::energy(Energy { n, d: D, s: 1, spins, fwd, bwd, couplings, ..Default::default() })?)
    }

    /// The meter of all rows: where a day's totals start.
    pub fn meter_all(&self, spins: &[i8], totals: &mut [i64]) -> Result<(), Fault> {
        let Panel { n, ref fwd, ref bwd, ref couplings, .. } = *self;
        let s = totals.len();
        Ok(tsorvenk::meter_all(MeterAll { n, d: D, s, spins, totals, fwd, bwd, couplings, ..Default::default() })?)
    }

    /// Whether every total is what the meter says, asked of the library.
    pub fn totals_hold(&self, spins: &[i8], totals: &[i64]) -> Result<(), Fault> {
        let Panel { n, ref fwd, ref bwd, ref couplings, .. } = *self;
        let s = totals.len();
        tsorvenk::hand_over(HandOver { n, d: D, s, spins, totals, fwd, bwd, couplings, ..Default::default() })
            .map_err(|refusal| Fault::internal(format!("a replica's total is not what the meter says ({refusal})")))
    }

    /// Each pair of neighbours that the list gave a coupling other than 0, by its bond: both sites and what the pair adds to the
    /// total of these spins.
    pub fn pairs(&self, spins: &[i8]) -> Vec<(usize, usize, i32)> {
        let bond = |(bond, &coupling): (usize, &i32)| {
            let (site, other) = (bond / D, self.fwd[bond] as usize);
            (site, other, -coupling * i32::from(spins[site]) * i32::from(spins[other]))
        };
        self.couplings.iter().enumerate().filter(|(_, &coupling)| coupling != 0).map(bond).collect()
    }
}

fn around(n: usize, fwd: &[u32], bwd: &[u32], couplings: &[i32]) -> Vec<[(u32, i32); 4]> {
    let forward = |bond: usize| (fwd[bond], couplings[bond]);
    let backward = |bond: usize| (bwd[bond], couplings[bwd[bond] as usize * D + bond % D]);
    (0..n).map(|site| [forward(site * D), backward(site * D), forward(site * D + 1), backward(site * D + 1)]).collect()
}
