//! The totals of random calls.
use super::{couplings, untaken};
use crate::case::{Lent, Panel};
use crate::model::{energies, LARGEST};
use crate::rand::Rand;
use calls::Keeps;

/// Totals in half of the calls, right in half of those and else anything that is not refused. A mode that draws nothing then has couplings.
/// Its draws are aside, so that the calls are what they were before totals were kept.
pub fn keep(rand: &Rand, panel: &mut Panel, lent: &mut Lent) {
    let rand = &mut rand.aside();
    panel.keeps = rand.pick(&Keeps::ALL);
    if !panel.keeping() {
        lent.totals = untaken(rand, |word| word as i64);
        return;
    }
    if !panel.mode.draws() {
        panel.couplings = couplings(rand, panel.n * panel.d);
    }
    lent.totals = match rand.once_in(2) {
        true => energies(panel, &lent.spins),
        false => (0..panel.s).map(|_| total(rand)).collect(),
    };
}

/// A total that is not refused, often at the end of what is not.
fn total(rand: &mut Rand) -> i64 {
    let most = LARGEST as i64;
    let any = (rand.word() % (2 * LARGEST + 1)) as i64 - most;
    rand.pick(&[0, most, -most, any, any, any])
}
