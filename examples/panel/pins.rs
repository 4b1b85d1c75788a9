//! The part of the example panel that pins sites.
use crate::{find_seeds, lent, print_totals, Choices, Outputs, Panel, D, N, S};
use tsorvenk::{refusal_words, Form, Keeps, Mode, Refusal, Step, Stepped, Sweep, Swept};

/// A move of the first group's cluster, from this seed.
fn move_pinned(panel: &Panel, pins: &[u8], seed: u32, o: &mut Outputs) -> Result<Stepped, Refusal> {
    tsorvenk::step(Step {
        mode: Mode::Pair,
        form: Form::Wolff,
        keeps: Keeps::Totals,
        n: N,
        d: D,
        s: S,
        spins: &mut o.spins,
        totals: &mut o.totals,
        fwd: &panel.fwd,
        bwd: &panel.bwd,
        pins: Some(pins),
        couplings: &panel.couplings,
        group: &[0, 1],
        seed: seed as usize,
        labels: &mut o.labels[..N],
        counts: &mut o.counts[..N + 1],
        sizes: &mut o.sizes[..4],
        found: &mut o.found[..1],
        ..Default::default()
    })
}

/// Two sites do not move any more, nor does what hangs together with them: first a sweep of one cluster in each task, then the
/// first of them alone.
pub fn hold_some(panel: &Panel, c: &Choices, o: &mut Outputs) -> Result<(), Refusal> {
    let mut pins = [0; N];
    (pins[9], pins[14]) = (1, 1);
    let seeds = find_seeds(&o.spins);
    let swept = tsorvenk::sweep(Sweep {
        mode: Mode::Pair,
        form: Form::Wolff,
        pins: Some(&pins),
        seeds: &seeds,
        labels: &mut o.labels,
        counts: &mut o.counts,
        sizes: &mut o.sizes,
        found: &mut o.found,
        ..lent(panel, c, &mut o.spins, &mut o.totals)
    })?;
    let Swept {
        idle, moved, held, ..
    } = swept;
    println!("pair pinned: {idle} idle, {moved} moved, {held} held");
    print_totals(panel, o)?;
    let number = match move_pinned(panel, &pins, seeds[0], o) {
        Ok(Stepped::Moved) => 0,
        Ok(Stepped::Idle) => 64,
        Ok(Stepped::Held) => 66,
        Err(refusal) => refusal.number,
    };
    println!("  from site {}: {}", seeds[0], refusal_words(number));
    print_totals(panel, o)
}
