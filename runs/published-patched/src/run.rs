//! Drives the published `overlap_update` over one sweep whose areas are laid out as the port's.
use crate::clusters::overlap::overlap_update;
use crate::config::{ClusterAction, ClusterMode, OverlapClusterBuildMode};
use crate::geometry::Lattice;
use crate::{Branch, Xoshiro256StarStar};
use calls::{Form, Mode, Step, Sweep};

/// What the published Rust is handed for one sweep, and its outputs. Slots are the Rust's, t * (r / 2) + g.
pub struct Prepared {
    lattice: Lattice,
    couplings: Vec<f32>,
    temperatures: Vec<f32>,
    system_ids: Vec<usize>,
    active_temps: Vec<bool>,
    n_replicas: usize,
    n_temps: usize,
    members: usize,
    mode: Mode,
    form: Form,
    branch: Branch,
    sources: Vec<Xoshiro256StarStar>,
    pub(crate) counts: Vec<Vec<u64>>,
    pub(crate) top4: Vec<[u32; 4]>,
    pub(crate) labels: Vec<Vec<u32>>,
    pub(crate) blue_labels: Vec<Vec<u32>>,
    /// Lends the blue labels even where no other output is lent.
    pub(crate) blue_labels_alone: bool,
}

impl Prepared {
    pub fn new(call: &Sweep, branch: Branch) -> Self {
        let mut prepared = Self::unfilled(call, branch);
        if call.form == Form::Sw {
            prepared.queue_by_numbers(call);
        }
        prepared
    }

    /// All but the all-clusters choices, whose order in the queues is not known yet.
    pub(crate) fn unfilled(call: &Sweep, branch: Branch) -> Self {
        let slots = call.t * (call.r / 2);
        let order = |k: usize, j: usize| call.order[j * call.r + k] as usize;
        let mut prepared = Self {
            lattice: Lattice::new(call.n, call.d, call.fwd, call.bwd),
            couplings: call.couplings.iter().map(|&j| j as f32).collect(),
            temperatures: call.temperatures.to_vec(),
            system_ids: (0..call.r * call.t)
                .map(|at| order(at / call.t, at % call.t))
                .collect(),
            active_temps: call.masks.iter().map(|&mask| mask == 0).collect(),
            n_replicas: call.r,
            n_temps: call.t,
            members: call.members,
            mode: call.mode,
            form: call.form,
            branch,
            sources: vec![Xoshiro256StarStar::default(); slots],
            counts: vec![vec![0; call.n + 1]; slots],
            top4: vec![[0; 4]; slots],
            labels: vec![Vec::new(); slots],
            blue_labels: vec![Vec::new(); slots],
            blue_labels_alone: false,
        };
        for (task, slot) in prepared.unmasked() {
            prepared.sources[slot] = by_turn(call, task);
        }
        prepared
    }

    /// Task numbers of the port with the Rust's slots, masked temperatures left out.
    fn unmasked(&self) -> Vec<(usize, usize)> {
        let groups = self.n_replicas / self.members;
        let pairs = self.n_replicas / 2;
        (0..self.n_temps * groups)
            .filter(|task| self.active_temps[task / groups])
            .map(|task| (task, task / groups * pairs + task % groups))
            .collect()
    }

    /// A scouting run on a copy of the spins tells from the Rust itself which components draw: its labels, and for
    /// permutations the acting sites, which are those that a rotation by one place changes. The Rust draws at a component's
    /// smallest site and in the order of these, so a component's draw is the choice at its number, and the queue rises.
    fn queue_by_numbers(&mut self, call: &Sweep) {
        let n = call.n;
        self.sources
            .iter_mut()
            .for_each(|source| source.scout = true);
        let mut spins = call.spins.to_vec();
        self.run(&mut spins, true);
        for (task, slot) in self.unmasked() {
            let first = self.blue_or_only(slot);
            let acting = self.changed(call, task, &spins);
            let source = &mut self.sources[slot];
            let scouted = source.taken;
            if call.mode.permutes() {
                for number in first.where_first(|site| acting[site]) {
                    let at = (task * n + number) * call.members;
                    source
                        .perms
                        .extend_from_slice(&call.perms[at..at + call.members]);
                }
            } else {
                let choice = |number: usize| call.flips[task * n + number];
                source.flips = first.of_two_or_more().map(choice).collect();
            }
            if call.mode == Mode::Cmr {
                let grey = Numbered::new(&self.labels[slot]);
                let choice = |number: usize| call.greys[task * n + number];
                source.greys = grey.of_two_or_more().map(choice).collect();
            }
            source.taken = scouted;
            assert!(
                source.used_up(call.members),
                "the Rust draws at other components than it labels"
            );
            source.scout = false;
        }
    }

    fn blue_or_only(&self, slot: usize) -> Numbered {
        Numbered::new(match self.mode {
            Mode::Cmr => &self.blue_labels[slot],
            _ => &self.labels[slot],
        })
    }

    fn changed(&self, call: &Sweep, task: usize, now: &[i8]) -> Vec<bool> {
        let groups = call.r / call.members;
        let from = task / groups * call.r + task % groups * call.members;
        let group = &call.order[from..from + call.members];
        (0..call.n)
            .map(|i| {
                group.iter().any(|&system| {
                    let at = system as usize * call.n + i;
                    now[at] != call.spins[at]
                })
            })
            .collect()
    }

    pub fn run(&mut self, spins: &mut [i8], sequential: bool) {
        for source in &mut self.sources {
            source.taken = Default::default();
        }
        for counts in &mut self.counts {
            counts.fill(0); // The published histogram adds.
        }
        self.update(spins, sequential);
    }

    pub(crate) fn update(&mut self, spins: &mut [i8], sequential: bool) {
        let labelled = self.branch == Branch::UnionFind;
        let build_mode = match self.mode {
            Mode::Houd => OverlapClusterBuildMode::Houdayer(self.members),
            Mode::Pair => OverlapClusterBuildMode::Pair(self.members),
            Mode::Perm => OverlapClusterBuildMode::Perm(self.members),
            Mode::Gperm => OverlapClusterBuildMode::GaugedPerm(self.members),
            Mode::Jorg => OverlapClusterBuildMode::Jorg(self.members),
            Mode::Cmr => OverlapClusterBuildMode::Cmr,
        };
        overlap_update(
            &self.lattice,
            spins,
            &self.couplings,
            &self.temperatures,
            &self.system_ids,
            self.n_replicas,
            self.n_temps,
            &self.active_temps,
            &mut self.sources,
            &build_mode,
            match self.form {
                Form::Wolff | Form::Grow => ClusterMode::Wolff,
                _ => ClusterMode::Sw,
            },
            match self.form {
                Form::Observe => ClusterAction::Observe,
                _ => ClusterAction::Update,
            },
            labelled.then_some(&mut self.counts[..]),
            labelled.then_some(&mut self.top4[..]),
            None,
            sequential,
            labelled.then_some(&mut self.labels[..]),
            (labelled || self.blue_labels_alone).then_some(&mut self.blue_labels[..]),
            None,
            None,
        );
    }

    /// The member sites of every task, in the port's layout: those that change on a copy of the spins, with a choice that leaves no site of a cluster
    /// as it is. That is the rotation by one place wherever a site acts, and the grey number 1: it turns one spin of every site, in the blue cluster,
    /// whose sites are flipped before, the second and elsewhere the first.
    fn write_members(&mut self, call: &mut Sweep, sequential: bool) {
        let lent = self.sources.clone();
        let rotation: Vec<u8> = (1..call.members as u8).chain([0]).collect();
        for source in self.sources.iter_mut() {
            source.greys.fill(1);
            if call.mode.permutes() {
                source.perms.clone_from(&rotation);
            }
        }
        let mut spins = call.spins.to_vec();
        self.run(&mut spins, sequential);
        self.sources = lent;
        for (task, _) in self.unmasked() {
            let members = self.changed(call, task, &spins);
            let area = &mut call.member_sites[task * call.n..(task + 1) * call.n];
            for (to, member) in area.iter_mut().zip(members) {
                *to = u8::from(member);
            }
        }
    }

    /// The outputs in the port's layout, labels renamed to numbers. Masked areas stay as they are.
    fn write(&self, call: &mut Sweep) {
        let n = call.n;
        for (task, slot) in self.unmasked() {
            let first = self.blue_or_only(slot);
            copy(&mut call.labels[task * n..], &first.labels);
            call.found[task] = first.smallest.len() as u32;
            if self.mode == Mode::Cmr && self.form != Form::Observe {
                let grey = Numbered::new(&self.labels[slot]);
                copy(&mut call.grey_labels[task * n..], &grey.labels);
                call.grey_found[task] = grey.smallest.len() as u32;
            }
            for (count, &rust) in call.counts[task * (n + 1)..]
                .iter_mut()
                .zip(&self.counts[slot])
            {
                *count = rust as u32;
            }
            call.sizes[task * 4..task * 4 + 4].copy_from_slice(&self.top4[slot]);
        }
    }
}

/// The choices whose turn does not depend on the components.
fn by_turn(call: &Sweep, task: usize) -> Xoshiro256StarStar {
    let mut source = Xoshiro256StarStar::default();
    if call.mode.draws() {
        let bonds = call.n * call.d;
        source.cuts = call.cuts[task * bonds..(task + 1) * bonds].to_vec();
    }
    if call.mode == Mode::Gperm {
        source.sites.push(call.references[task] as usize);
    }
    if call.form.one_cluster() {
        source.sites.push(call.seeds[task] as usize);
        if call.mode.permutes() {
            let at = task * call.members;
            source.perms = call.perms[at..at + call.members].to_vec();
        }
        if call.mode == Mode::Cmr {
            source.greys = vec![call.greys[task]];
        }
    }
    source
}

/// The published roots renamed (7/14): a root takes the next number at the first site that has it.
struct Numbered {
    labels: Vec<usize>,
    /// By number.
    smallest: Vec<usize>,
}

impl Numbered {
    fn new(roots: &[u32]) -> Self {
        let (mut labels, mut smallest) = (Vec::new(), Vec::new());
        let mut number_of = vec![None; roots.len()];
        for (site, &root) in roots.iter().enumerate() {
            labels.push(*number_of[root as usize].get_or_insert_with(|| {
                smallest.push(site);
                smallest.len() - 1
            }));
        }
        Self { labels, smallest }
    }

    /// The numbers of components by what is said of their smallest sites.
    fn where_first<'a>(
        &'a self,
        so: impl Fn(usize) -> bool + 'a,
    ) -> impl Iterator<Item = usize> + 'a {
        (0..self.smallest.len()).filter(move |&number| so(self.smallest[number]))
    }

    fn of_two_or_more(&self) -> impl Iterator<Item = usize> {
        let mut sizes = vec![0usize; self.smallest.len()];
        self.labels.iter().for_each(|&label| sizes[label] += 1);
        (0..sizes.len()).filter(move |&number| sizes[number] > 1)
    }
}

fn copy(to: &mut [u32], labels: &[usize]) {
    for (to, &label) in to.iter_mut().zip(labels) {
        *to = label as u32;
    }
}

/// Runs a sweep that document 01 accepts. In the one-cluster forms the answer says which tasks found no acting site,
/// by task number; a seed that acts is found at its first probe. The form that grows is the depth-first branch.
pub fn sweep(mut call: Sweep, branch: Branch, sequential: bool) -> Vec<bool> {
    let mut prepared = Prepared::new(&call, branch);
    if call.form == Form::Grow {
        prepared.write_members(&mut call, sequential);
    }
    prepared.run(call.spins, sequential);
    let mut none_acts = vec![false; call.t * (call.r / call.members)];
    for (task, slot) in prepared.unmasked() {
        let source = &prepared.sources[slot];
        let probes = source.taken.sites - usize::from(call.mode == Mode::Gperm);
        none_acts[task] = call.form.one_cluster() && call.mode != Mode::Cmr && probes == 64;
        assert!(
            none_acts[task] || source.used_up(call.members),
            "the Rust left a lent choice"
        );
    }
    if branch == Branch::UnionFind {
        prepared.write(&mut call);
    }
    none_acts
}

/// A single move is a sweep of one group at one temperature.
fn with_sweep<T>(call: Step, run: impl FnOnce(Sweep) -> T) -> T {
    let (temperature, sites) = ([call.temperature], [call.reference, call.seed]);
    run(call.as_sweep(&temperature, &sites.map(|site| site as u32)))
}

/// Runs a move that document 01 accepts; see `sweep` for the answer.
pub fn step(call: Step, branch: Branch) -> bool {
    with_sweep(call, |call| sweep(call, branch, true))[0]
}

/// The sites at which the published `is_active` answers yes: each is handed to the seed search as its probe, and
/// the search stops at once exactly if the site acts. Not for CMR, which searches no seed.
pub fn active(call: &Step) -> Vec<bool> {
    let rotation: Vec<u8> = (1..call.group.len() as u8).chain([0]).collect();
    (0..call.n)
        .map(|seed| {
            let probe = Step {
                form: Form::Wolff,
                spins: &mut call.spins.to_vec(),
                totals: &mut [],
                perms: &rotation,
                seed,
                labels: &mut [],
                grey_labels: &mut [],
                counts: &mut [],
                sizes: &mut [],
                member_sites: &mut [],
                found: &mut [],
                grey_found: &mut [],
                ..*call
            };
            !step(probe, Branch::DepthFirst)
        })
        .collect()
}
