//! The plain reading of a list beside the library's: one finds a fault where the other refuses, on lists with random damage.
mod common;
use tsorvenk::{ReadEdges, Source};
use weld_plan::diagnose::diagnose;
use weld_plan::grid::{Grid, D};

/// Some bytes changed, left out, doubled or put in.
fn damage(text: &mut Vec<u8>, source: &mut Source) {
    let mut below = |m: usize| source.below(m as u32).unwrap() as usize;
    let at = below(text.len());
    let byte = b"0123456789 -\n\r+x"[below(16)];
    match below(4) {
        0 => text[at] = byte,
        1 => _ = text.remove(at),
        2 => text.insert(at, byte),
        _ => {
            let end = at + below((text.len() - at).min(12));
            let again = text[at..end].to_vec();
            text.splice(at..at, again);
        }
    }
}

#[test]
fn they_agree() {
    let mut source = Source::new([11, 12, 13, 14]).unwrap();
    let mut faults = [0; 2];
    for grid in ["5x4", "1x6", "6x1", "2x2", "3x2", "1x1"] {
        let list = common::list(grid, [1, 1, 1, 1], 1_000).into_bytes();
        let grid = Grid::parse(grid).unwrap();
        let (fwd, bwd) = grid.tables();
        for _ in 0..4_000 {
            let mut text = list.clone();
            for _ in 0..=source.below(2).unwrap() {
                damage(&mut text, &mut source);
            }
            let n = grid.seams();
            let mut couplings = vec![0; n * D];
            let call = ReadEdges { n, d: D, fwd: &fwd, bwd: &bwd, text: &text, couplings: &mut couplings };
            let library = tsorvenk::read_edges(call);
            let shown = String::from_utf8_lossy(&text);
            match (library, diagnose(&text, grid)) {
                (Ok(()), Ok(())) => {}
                // what the library cannot know: that the panel has edges
                (Ok(()), Err(wrong)) => {
                    assert!(wrong.why.contains("no neighbours") || wrong.why.contains("already"), "{shown:?}: {wrong:?}");
                    faults[0] += 1;
                }
                (Err(refusal), Err(wrong)) => {
                    // a bond over the edge is told before what the library does not like behind it
                    let edge = wrong.why.contains("no neighbours") || wrong.why.contains("already");
                    assert_eq!(refusal.number == 6 && !edge, wrong.why.contains("above 1000000"), "{shown:?}: {wrong:?}");
                    faults[1] += 1;
                }
                (Err(refusal), Ok(())) => panic!("{shown:?} is {refusal}, and nothing is found"),
            }
        }
    }
    assert!(faults.iter().all(|&faults| faults > 50), "{faults:?}");
}
