//! One sweep of a day after the other.
use crate::clusters::{self, Buffers};
use crate::config::Config;
use crate::exchange;
use crate::fault::Fault;
use crate::metropolis;
use crate::panel::Panel;
use crate::state::State;

/// A panel, what is done on it, and where it stands.
pub struct Day {
    pub panel: Panel,
    pub config: Config,
    pub state: State,
    buffers: Buffers,
}

impl Day {
    pub fn new(panel: Panel, config: Config, state: State) -> Day {
        Day { panel, config, state, buffers: Buffers::default() }
    }

    /// Single-seam updates of all systems, a sweep of each mode, exchange, and the descent of the coldest. Nothing in it knows the
    /// clock, or whether the day was broken.
    pub fn sweep(&mut self) -> Result<(), Fault> {
        let Day { panel, config, state, buffers } = self;
        state.sweep += 1;
        metropolis::update_all(panel, config, state)?;
        state.keep_best(panel.n);
        for which in 0..config.modes.len() {
            exchange::shuffle(config, state)?;
            clusters::sweep(panel, config, which, state, buffers)?;
            state.keep_best(panel.n);
        }
        exchange::shuffle(config, state)?;
        exchange::exchange(config, state)?;
        metropolis::descend_coldest(panel, config, state);
        if state.series.wants(state.sweep) {
            state.series.push(state.point(config.replicas));
        }
        Ok(())
    }

    /// The library's meter on every total, and on the best.
    pub fn held_to_the_meter(&self) -> Result<(), Fault> {
        let State { spins, totals, best, .. } = &self.state;
        self.panel.totals_hold(spins, totals)?;
        match self.panel.meter(&best.spins)? == best.total {
            true => Ok(()),
            false => Err(Fault::internal("the best plan's total is not what the meter says")),
        }
    }

    /// The plan that leaves: with nothing pinned a plan and its mirror image have one total, and the one whose first seam is welded
    /// from face A is taken.
    pub fn plan(&self) -> Vec<i8> {
        let best = &self.state.best.spins;
        let turn = if !self.panel.pinned() && best[0] < 0 { -1 } else { 1 };
        best.iter().map(|&spin| spin * turn).collect()
    }
}
