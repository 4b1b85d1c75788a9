//! The part of the example panel that two teams share.
use crate::{lent, print_totals, Choices, Outputs, Panel, N, S};
use tsorvenk::{Mode, Refusal, Sweep, Swept, Teams};

/// At one temperature, what a sweep of the second team takes and writes.
fn of_two<'a>(panel: &'a Panel, c: &'a Choices, o: &'a mut Outputs) -> Sweep<'a> {
    Sweep {
        mode: Mode::Pair,
        t: 1,
        r: 2,
        masks: &[0],
        flips: &[1; N],
        labels: &mut o.labels[..N],
        counts: &mut o.counts[..N + 1],
        sizes: &mut o.sizes[..4],
        found: &mut o.found[..1],
        ..lent(panel, c, &mut o.spins, &mut o.totals)
    }
}

/// The second team has the systems 1 and 3: it exchanges them wherever they differ, and a system of the first is none to it. Its view of
/// the panel has no name for one, so that it is named by hand.
pub fn share(panel: &Panel, c: &Choices, o: &mut Outputs) -> Result<(), Refusal> {
    let team = Teams::new(&[0, 1, 0, 1])?.team::<1>();
    let before = o.clone();
    let Swept { idle, moved, .. } = team.sweep(&team.order(), of_two(panel, c, o))?;
    println!("two teams: {idle} idle, {moved} moved");
    let row = |system: usize| system * N..(system + 1) * N;
    let same =
        |k: usize| o.totals[k] == before.totals[k] && o.spins[row(k)] == before.spins[row(k)];
    let kept = match (0..S).step_by(2).all(same) {
        true => "are as they were",
        false => "were written",
    };
    println!("  the first team's rows and totals {kept}");
    let by_hand = tsorvenk::sweep(Sweep {
        team: 1,
        owners: Some(team.owners()),
        order: &[1, 2],
        ..of_two(panel, c, o)
    });
    let number = by_hand.map_or_else(|refusal| refusal.number, |_| 0);
    println!("  with a system of the first: refused with {number}");
    print_totals(panel, o)
}
