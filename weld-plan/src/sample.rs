//! Lists as a yard might send them, for examples, tests and measurements.
use crate::grid::{Grid, D};
use tsorvenk::{Refusal, Source, WriteEdges, EDGES_ROOM};

/// For each pair of neighbours a size from 1 to `largest`, at most 4096, and a coin for its sign, drawn bond by bond from the seed, of
/// which 64 words are dropped first.
pub fn list(grid: Grid, seed: [u64; 4], largest: u32) -> Result<String, Refusal> {
    let mut source = Source::new(seed)?;
    for _ in 0..64 {
        source.word()?;
    }
    let (fwd, bwd) = grid.tables();
    let mut couplings = vec![0; grid.seams() * D];
    for bond in 0..couplings.len() {
        let (size, sign) = (source.below(largest)? as i32 + 1, i32::from(source.coin()?) * 2 - 1);
        let (from, to) = (bond / D, fwd[bond] as usize);
        // each pair once, and none over the edge
        if from < to && grid.neighbours(from, to) {
            couplings[bond] = size * sign;
        }
    }
    let mut room = vec![0; EDGES_ROOM];
    let call = WriteEdges { n: grid.seams(), d: D, fwd: &fwd, bwd: &bwd, couplings: &couplings, text: &mut room };
    Ok(String::from_utf8_lossy(tsorvenk::write_edges(call)?).into_owned())
}
