//! The published entry points with their buffers made beforehand, so that a benchmark times the calls alone.
use crate::clusters::{self, overlap::overlap_update};
use crate::config::{ClusterAction, ClusterMode, OverlapClusterBuildMode};
use crate::geometry::Lattice;
use crate::Xoshiro256StarStar;
use calls::{Form, Label, Mode, Sweep};

pub struct Sweeper {
    lattice: Lattice,
    couplings: Vec<f32>,
    temperatures: Vec<f32>,
    system_ids: Vec<usize>,
    active_temps: Vec<bool>,
    n_replicas: usize,
    n_temps: usize,
    build_mode: OverlapClusterBuildMode,
    form: Form,
    outputs: bool,
    sources: Vec<Xoshiro256StarStar>,
    counts: Vec<Vec<u64>>,
    top4: Vec<[u32; 4]>,
    labels: Vec<Vec<u32>>,
    blue_labels: Vec<Vec<u32>>,
}

impl Sweeper {
    /// Without outputs the one-cluster form grows its cluster depth first.
    pub fn new(call: &Sweep, outputs: bool) -> Self {
        let slots = call.t * (call.r / 2);
        Self {
            lattice: Lattice::new(call.n, call.d, call.fwd, call.bwd),
            couplings: call.couplings.iter().map(|&j| j as f32).collect(),
            temperatures: call.temperatures.to_vec(),
            system_ids: (0..call.r * call.t)
                .map(|at| call.order[at % call.t * call.r + at / call.t] as usize)
                .collect(),
            active_temps: call.masks.iter().map(|&mask| mask == 0).collect(),
            n_replicas: call.r,
            n_temps: call.t,
            build_mode: match call.mode {
                Mode::Houd => OverlapClusterBuildMode::Houdayer(call.members),
                Mode::Pair => OverlapClusterBuildMode::Pair(call.members),
                Mode::Perm => OverlapClusterBuildMode::Perm(call.members),
                Mode::Gperm => OverlapClusterBuildMode::GaugedPerm(call.members),
                Mode::Jorg => OverlapClusterBuildMode::Jorg(call.members),
                Mode::Cmr => OverlapClusterBuildMode::Cmr,
            },
            form: call.form,
            outputs,
            sources: (0..slots as u64)
                .map(Xoshiro256StarStar::from_word)
                .collect(),
            counts: vec![vec![0; call.n + 1]; slots],
            top4: vec![[0; 4]; slots],
            labels: vec![Vec::with_capacity(call.n); slots],
            blue_labels: vec![Vec::with_capacity(call.n); slots],
        }
    }

    /// Of one group of two systems: the next run leaves them in their order and draws these sites, gperm's reference and the seed.
    pub fn pin(&mut self, reference: usize, seed: usize) {
        let word = |site: usize| Xoshiro256StarStar::word_for(site, self.lattice.n_spins);
        let (reference, seed) = (word(reference), word(seed));
        self.sources[0] = Xoshiro256StarStar::before(match self.build_mode {
            OverlapClusterBuildMode::GaugedPerm(_) => [u64::MAX, reference, seed],
            _ => [u64::MAX, seed, 0],
        });
    }

    pub fn run(&mut self, spins: &mut [i8]) {
        let outputs = self.outputs;
        overlap_update(
            &self.lattice,
            spins,
            &self.couplings,
            &self.temperatures,
            &self.system_ids,
            self.n_replicas,
            self.n_temps,
            &self.active_temps,
            &mut self.sources,
            &self.build_mode,
            match self.form {
                Form::Wolff | Form::Grow => ClusterMode::Wolff,
                _ => ClusterMode::Sw,
            },
            match self.form {
                Form::Observe => ClusterAction::Observe,
                _ => ClusterAction::Update,
            },
            outputs.then_some(&mut self.counts[..]),
            outputs.then_some(&mut self.top4[..]),
            None,
            true,
            outputs.then_some(&mut self.labels[..]),
            outputs.then_some(&mut self.blue_labels[..]),
            None,
            None,
        );
    }
}

pub struct Labelling {
    lattice: Lattice,
    labels: Vec<u32>,
    counts: Vec<u64>,
    sizes: [u32; 4],
}

impl Labelling {
    pub fn new(call: &Label) -> Self {
        Self {
            lattice: Lattice::new(call.n, call.d, call.fwd, &[]),
            labels: Vec::with_capacity(call.n),
            counts: vec![0; call.n + 1],
            sizes: [0; 4],
        }
    }

    /// uf_bonds, uf_flatten_counts, uf_histogram and top4_sizes. The answer is the largest size.
    pub fn run(&mut self, holds: &[u8]) -> u32 {
        self.counts.fill(0);
        clusters::label(
            &self.lattice,
            holds,
            &mut self.labels,
            &mut self.counts,
            &mut self.sizes,
        );
        self.sizes[0]
    }
}
