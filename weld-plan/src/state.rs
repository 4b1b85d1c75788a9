//! All that a day has made so far: what a checkpoint holds.
use crate::config::Config;
use crate::fault::Fault;
use crate::panel::Panel;
use crate::series::{Point, Series};
use tsorvenk::Source;

/// How often something was tried, and how often it was done.
#[derive(Clone, Copy, Debug, Default, PartialEq, Eq)]
pub struct Rate {
    pub tried: u64,
    pub done: u64,
}

impl Rate {
    /// The part that was done, from 0 to 1.
    pub fn part(self) -> f64 {
        if self.tried == 0 {
            0.0
        } else {
            self.done as f64 / self.tried as f64
        }
    }
}

/// What one of the modes did.
#[derive(Clone, Copy, Debug, Default, PartialEq, Eq)]
pub struct Tally {
    pub moved: u64,
    pub idle: u64,
    pub held: u64,
    /// Clusters that were counted or grown, their sites, and the largest.
    pub clusters: u64,
    pub sites: u64,
    pub largest: u64,
}

/// The lowest total of any system at any time.
#[derive(Clone, Debug, PartialEq, Eq)]
pub struct Best {
    pub total: i64,
    pub sweep: u64,
    pub spins: Vec<i8>,
}

#[derive(Clone, Debug, PartialEq, Eq)]
pub struct State {
    pub source: Source,
    pub sweep: u64,
    /// System by system.
    pub spins: Vec<i8>,
    pub totals: Vec<i64>,
    /// Which system stands where: temperature j owns the entries from j * replicas on. Exchange moves entries, never rows.
    pub order: Vec<u32>,
    pub best: Best,
    /// For each temperature, single-seam updates.
    pub updates: Vec<Rate>,
    /// For each step from a temperature to the next, exchanges.
    pub exchanges: Vec<Rate>,
    /// For each mode.
    pub tallies: Vec<Tally>,
    pub series: Series,
}

/// Words that are drawn and dropped at the start: a seed of small numbers gives small words at first.
const DROPPED: usize = 64;

impl State {
    /// The morning: every seam of every system drawn, but for pinned ones.
    pub fn new(panel: &Panel, config: &Config) -> Result<State, Fault> {
        let (n, s, t) = (panel.n, config.systems(), config.temperatures.len());
        let mut source = Source::new(config.seed)?;
        for _ in 0..DROPPED {
            source.word()?;
        }
        let mut coins = vec![0; s * n];
        source.fill_flips(&mut coins)?;
        let face = |(k, &coin): (usize, &u8)| match panel.faces[k % n] {
            0 => 2 * coin as i8 - 1,
            face => face,
        };
        let spins: Vec<i8> = coins.iter().enumerate().map(face).collect();
        let mut totals = vec![0; s];
        panel.meter_all(&spins, &mut totals)?;
        let best = Best { total: totals[0], sweep: 0, spins: spins[..n].to_vec() };
        let mut state = State {
            source,
            sweep: 0,
            spins,
            totals,
            order: (0..s as u32).collect(),
            best,
            updates: vec![Rate::default(); t],
            exchanges: vec![Rate::default(); t - 1],
            tallies: vec![Tally::default(); config.modes.len()],
            series: Series::new(),
        };
        state.keep_best(n);
        let point = state.point(config.replicas);
        state.series.push(point);
        Ok(state)
    }

    /// Takes over the lowest total, if it is below the best; of equal ones the first in the systems' order.
    pub fn keep_best(&mut self, n: usize) {
        for (system, &total) in self.totals.iter().enumerate() {
            if total < self.best.total {
                self.best.total = total;
                self.best.sweep = self.sweep;
                self.best.spins.copy_from_slice(&self.spins[system * n..(system + 1) * n]);
            }
        }
    }

    /// The course's point of now.
    pub fn point(&self, replicas: usize) -> Point {
        let sum = |systems: &[u32]| systems.iter().map(|&system| self.totals[system as usize]).sum();
        Point { sweep: self.sweep, best: self.best.total, sums: self.order.chunks(replicas).map(sum).collect() }
    }
}
