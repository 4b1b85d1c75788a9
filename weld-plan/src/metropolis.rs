//! Single-seam updates, and the descent that a plan leaves by. Both keep the totals by what each turn adds.
use crate::config::Config;
use crate::fault::Fault;
use crate::logarithm::{minus_log, LARGEST};
use crate::panel::Panel;
use crate::state::{Rate, State};
use tsorvenk::Source;

/// One system at one temperature: each seam in its turn is turned over if that adds less than the temperature times a drawn cut, so
/// with the probability e to the minus (what it adds / temperature).
fn update(panel: &Panel, spins: &mut [i8], total: &mut i64, temperature: f64, source: &mut Source) -> Result<Rate, Fault> {
    let mut rate = Rate::default();
    // no cut is that large: nothing need be drawn
    let never = temperature * LARGEST;
    for site in 0..panel.n {
        if panel.pins[site] == 1 {
            continue;
        }
        rate.tried += 1;
        let change = panel.change(spins, site);
        let added = f64::from(change);
        if change <= 0 || (added < never && added < temperature * minus_log(source.word()?)) {
            spins[site] = -spins[site];
            *total += i64::from(change);
            rate.done += 1;
        }
    }
    Ok(rate)
}

/// All systems, in the order in which they stand at the temperatures.
pub fn update_all(panel: &Panel, config: &Config, state: &mut State) -> Result<(), Fault> {
    let n = panel.n;
    for (place, &system) in state.order.iter().enumerate() {
        let (j, system) = (place / config.replicas, system as usize);
        let spins = &mut state.spins[system * n..(system + 1) * n];
        let temperature = f64::from(config.temperatures[j]);
        let rate = update(panel, spins, &mut state.totals[system], temperature, &mut state.source)?;
        state.updates[j].tried += rate.tried;
        state.updates[j].done += rate.done;
    }
    Ok(())
}

/// Turns seams over as long as one of them lowers the total. The total falls with each, so that it ends.
fn descend(panel: &Panel, spins: &mut [i8], total: &mut i64) {
    loop {
        let before = *total;
        for site in 0..panel.n {
            let change = panel.change(spins, site);
            if change < 0 && panel.pins[site] == 0 {
                spins[site] = -spins[site];
                *total += i64::from(change);
            }
        }
        if *total == before {
            return;
        }
    }
}

/// What the coldest replicas come to where no single seam is left to gain by: candidates for the best. They are copies, and the
/// replicas stay as they are.
pub fn descend_coldest(panel: &Panel, config: &Config, state: &mut State) {
    let n = panel.n;
    for &system in &state.order[..config.replicas] {
        let system = system as usize;
        let (mut spins, mut total) = (state.spins[system * n..(system + 1) * n].to_vec(), state.totals[system]);
        descend(panel, &mut spins, &mut total);
        if total < state.best.total {
            (state.best.total, state.best.sweep, state.best.spins) = (total, state.sweep, spins);
        }
    }
}
