//! Tables for the labelling's own entry.
use super::{flips, UNTOUCHED};
use crate::case::{Bonds, Lent, Panel};
use crate::rand::Rand;

/// A table of holding bonds on a panel's lattice. All components count, or none, or some.
pub fn bonds(rand: &mut Rand, panel: &Panel) -> Bonds {
    let (n, d) = (panel.n, panel.d);
    let all = rand.pick(&[None, None, None, None, Some(1), Some(1), Some(1), Some(0)]);
    Bonds {
        n,
        d,
        fwd: panel.fwd.clone(),
        holds: flips(rand, n * d),
        counted: (0..n)
            .map(|_| all.unwrap_or_else(|| rand.range(0, 1) as u8))
            .collect(),
        lent: Lent {
            labels: vec![UNTOUCHED; n],
            counts: vec![UNTOUCHED; n + 1],
            sizes: vec![UNTOUCHED; 4],
            found: vec![UNTOUCHED],
            ..Lent::default()
        },
    }
}
