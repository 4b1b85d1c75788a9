//! Replica exchange through the order: systems keep their rows, and what moves is where they stand.
use crate::config::Config;
use crate::fault::Fault;
use crate::logarithm::minus_log;
use crate::state::State;

/// The systems at each temperature in another order, so that groups and exchanges meet other ones: from the last place down to the
/// second, each is exchanged with one that is not behind it.
pub fn shuffle(config: &Config, state: &mut State) -> Result<(), Fault> {
    for systems in state.order.chunks_mut(config.replicas) {
        for last in (1..systems.len()).rev() {
            systems.swap(last, state.source.below(last as u32 + 1)? as usize);
        }
    }
    Ok(())
}

/// Every second step from a temperature to the next, the even ones and the odd ones in turn. Two systems change places with the
/// probability e to the (1/colder - 1/hotter) * (total at the colder - total at the hotter), or 1 where that is more.
pub fn exchange(config: &Config, state: &mut State) -> Result<(), Fault> {
    let (t, r) = (config.temperatures.len(), config.replicas);
    for j in ((state.sweep % 2) as usize..t - 1).step_by(2) {
        let [colder, hotter] = [j, j + 1].map(|j| 1.0 / f64::from(config.temperatures[j]));
        for k in 0..r {
            let (a, b) = (j * r + k, (j + 1) * r + k);
            let [cold, hot] = [a, b].map(|place| state.totals[state.order[place] as usize]);
            let gain = (colder - hotter) * (cold - hot) as f64;
            state.exchanges[j].tried += 1;
            if gain >= 0.0 || -gain < minus_log(state.source.word()?) {
                state.order.swap(a, b);
                state.exchanges[j].done += 1;
            }
        }
    }
    Ok(())
}
