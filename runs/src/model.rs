//! Document 01 in plain Rust, written from its text and not from overlap.rs: every sentence once, no speed. Counts and sizes are those of
//! request 4/14, the form that grows is that of request 5/14, the totals are those of 6/14, the components are numbered as in 7/14,
//! permutations may be numbers as in 8/14, sites may be pinned as in 9/14, houd moves groups of two alone as in 10/14, a group may be
//! one byte for each site as in 11/14, a panel may have systems of two teams as in 12/14, a vendor's moves are checked as in 13/14, and a
//! sweep's tasks have three steps each as in 14/14.
use crate::case;
use calls::{Answer, HandOver, Label, Meter, MeterAnswer, Port, Step, Sweep, SweepAnswer};
use calls::{CheckVendor, Coding, Form, Mode, Pack, PackedStep, Unpack, VendorAnswer};

/// What a call of any kind lends of the panel.
macro_rules! panel_of {
    ($call:expr) => {
        $crate::model::Panel {
            n: $call.n,
            d: $call.d,
            s: $call.s,
            team: $call.team,
            owners: $call.owners,
            spins: &*$call.spins,
            fwd: $call.fwd,
            bwd: $call.bwd,
            couplings: $call.couplings,
        }
    };
}

/// The task of a call that has one, of this group.
macro_rules! task_of {
    ($call:expr, $group:expr) => {
        $crate::model::Task {
            mode: $call.mode,
            form: $call.form,
            coding: $call.coding,
            pins: $call.pins,
            group: $group,
            temperature: $call.temperature,
            cuts: $call.cuts,
            reference: $call.reference,
            seed: $call.seed,
            flips: $call.flips,
            perms: $call.perms,
            greys: $call.greys,
        }
    };
}

#[macro_use]
mod refusals;

mod bonds;
mod components;
mod grow;
mod moves;
mod orders;
mod packed;
mod single;
mod steps;
mod sweeps;
mod teams;
mod totals;
mod vendor;

use bonds::acts;
use components::Components;
use grow::{grown, Grown};
use moves::{outcome, Outcome};
pub use orders::{number_of, orders, row_of};
use refusals::sizes_refused;
pub use refusals::{lengths, Lengths};
use single::{single_refusal, single_task};
pub use steps::{task_choose, task_label, task_write, test_sweep};
use sweeps::{sweep_refusal, sweep_task, unmasked};
pub use teams::owner_refusal;
pub use totals::LARGEST;
use totals::{bring, handed_over, meter, metered};
pub use vendor::{check_vendor, words, NO};

/// What every call lends: the lattice and all spins, and whose they are. Couplings are there where the call takes them.
#[derive(Clone, Copy)]
struct Panel<'a> {
    n: usize,
    d: usize,
    s: usize,
    team: u8,
    owners: &'a [u8],
    spins: &'a [i8],
    fwd: &'a [u32],
    bwd: &'a [u32],
    couplings: &'a [i32],
}

/// One group's move: the group and the choices lent for it.
#[derive(Clone)]
struct Task<'a> {
    mode: Mode,
    form: Form,
    coding: Coding,
    pins: &'a [u8],
    group: Vec<usize>,
    temperature: f32,
    cuts: &'a [f32],
    reference: usize,
    seed: usize,
    flips: &'a [u8],
    perms: &'a [u8],
    greys: &'a [u8],
}

/// The energy of every system, of whatever team, of a panel whose rows are all spins.
pub fn energies(panel: &case::Panel, spins: &[i8]) -> Vec<i64> {
    let all: Vec<usize> = (0..panel.s).collect();
    metered(true, panel_of!(panel.meter(spins, 0)), &all)
}

/// The acting sites of one move that is not refused.
pub fn active(call: &Step) -> Vec<bool> {
    let (panel, task) = (panel_of!(call), single_task(call));
    (0..call.n).map(|i| acts(panel, &task, i)).collect()
}

/// Of each acting site of one move that is not refused, whether its component, in CMR the blue one, is held by no pin.
pub fn unheld(call: &Step) -> Vec<Option<bool>> {
    let (panel, task) = (panel_of!(call), single_task(call));
    let first = moves::components(panel, &task, false);
    let free = |i: usize| !first.held[first.labels[i]];
    (0..call.n)
        .map(|i| acts(panel, &task, i).then(|| free(i)))
        .collect()
}

/// The acting sites of one task of a sweep that is not refused; its seeds need not be there yet.
pub fn active_in_task(call: &Sweep, number: usize) -> Vec<bool> {
    let unseeded = Sweep {
        form: Form::Observe,
        spins: &mut call.spins.to_vec(),
        totals: &mut [],
        labels: &mut [],
        grey_labels: &mut [],
        counts: &mut [],
        sizes: &mut [],
        member_sites: &mut [],
        found: &mut [],
        grey_found: &mut [],
        ..*call
    };
    let (panel, task) = (panel_of!(unseeded), sweep_task(&unseeded, number));
    (0..call.n).map(|i| acts(panel, &task, i)).collect()
}

// --- The calls ---

fn systems(numbers: &[u32]) -> Vec<usize> {
    numbers.iter().map(|&system| system as usize).collect()
}

/// A task's areas of the lent buffers.
struct Areas<'a> {
    labels: &'a mut [u32],
    grey_labels: &'a mut [u32],
    counts: &'a mut [u32],
    sizes: &'a mut [u32],
    member_sites: &'a mut [u8],
    found: &'a mut [u32],
    grey_found: &'a mut [u32],
}

/// Numbers by site, and how many there are.
fn write_numbers(labels: &mut [u32], found: &mut [u32], of: &Components) {
    for (to, &label) in labels.iter_mut().zip(&of.labels) {
        *to = label as u32;
    }
    found.copy_from_slice(&[of.found() as u32]);
}

fn write_sizes(to_counts: &mut [u32], to_sizes: &mut [u32], of: &Components, counted: &[bool]) {
    to_counts.copy_from_slice(&of.counts(counted));
    to_sizes.copy_from_slice(&of.four_largest(counted));
}

/// What one task does.
enum Done {
    Labelled(Outcome),
    Grown(Grown),
}

impl Done {
    fn of(panel: Panel, task: &Task) -> Self {
        match task.form {
            Form::Grow => Done::Grown(grown(panel, task)),
            _ => Done::Labelled(outcome(panel, task)),
        }
    }

    /// Idle before held, and held before moved.
    fn answer(&self) -> Answer {
        let (idle, held) = match self {
            Done::Labelled(done) => (done.idle, done.held),
            Done::Grown(done) => (done.idle, done.held),
        };
        match (idle, held) {
            (true, _) => Answer::Idle,
            (_, true) => Answer::Held,
            _ => Answer::Moved,
        }
    }

    fn columns(&self) -> &[Vec<i8>] {
        match self {
            Done::Labelled(done) => &done.columns,
            Done::Grown(done) => &done.columns,
        }
    }

    fn write(&self, to: Areas) {
        match self {
            Done::Labelled(done) => {
                write_numbers(to.labels, to.found, &done.first);
                if let Some(grey) = &done.grey {
                    write_numbers(to.grey_labels, to.grey_found, grey);
                }
                write_sizes(to.counts, to.sizes, &done.first, &done.acting);
            }
            Done::Grown(done) => {
                for (to, &member) in to.member_sites.iter_mut().zip(&done.members) {
                    *to = u8::from(member);
                }
            }
        }
    }
}

/// A task's area of a buffer that the call takes; nothing of one that it does not.
fn area<T>(wanted: Option<usize>, buffer: &mut [T], task: usize) -> &mut [T] {
    match wanted {
        Some(length) => &mut buffer[task * length..(task + 1) * length],
        None => &mut [],
    }
}

/// The labelling has no table of refusals in document 01: these are those of docs/DECISIONS.md.
fn label_refusal(call: &Label) -> Option<u8> {
    let (n, d) = (call.n, call.d);
    if sizes_refused(n, d, 1) {
        Some(1)
    } else if call.fwd.len() != n * d
        || call.holds.len() != n * d
        || call.counted.len() != n
        || call.labels.len() != n
        || call.counts.len() != n + 1
        || call.sizes.len() != 4
        || call.found.len() != 1
    {
        Some(2)
    } else if call.fwd.iter().any(|&site| site as usize >= n) {
        Some(4)
    } else if call.holds.iter().chain(call.counted).any(|&byte| byte > 1) {
        Some(9)
    } else {
        None
    }
}

fn write_spins(spins: &mut [i8], group: &[usize], columns: &[Vec<i8>]) {
    for (i, column) in columns.iter().enumerate() {
        for (k, &system) in group.iter().enumerate() {
            spins[system * columns.len() + i] = column[k];
        }
    }
}

pub struct Model;

impl Port for Model {
    fn name(&self) -> &'static str {
        "model"
    }

    fn step(&mut self, call: Step) -> Answer {
        if let Some(number) = single_refusal(&call) {
            return Answer::Refused(number);
        }
        let keeping = call.keeps.totals(call.form);
        let task = single_task(&call);
        let done = Done::of(panel_of!(call), &task);
        let group = task.group;
        let before = metered(keeping, panel_of!(call), &group);
        write_spins(call.spins, &group, done.columns());
        let after = metered(keeping, panel_of!(call), &group);
        bring(call.totals, &group, &before, &after);
        done.write(Areas {
            labels: call.labels,
            grey_labels: call.grey_labels,
            counts: call.counts,
            sizes: call.sizes,
            member_sites: call.member_sites,
            found: call.found,
            grey_found: call.grey_found,
        });
        done.answer()
    }

    fn sweep(&mut self, call: Sweep) -> SweepAnswer {
        if let Some(number) = sweep_refusal(&call) {
            return SweepAnswer::Refused(number);
        }
        let each = lengths(call.mode, call.form, call.n, call.d, call.members, 1);
        let keeping = call.keeps.totals(call.form);
        let named = systems(call.order);
        let before = metered(keeping, panel_of!(call), &named);
        let (mut idle, mut moved, mut held) = (0, 0, 0);
        for number in unmasked(&call) {
            let task = sweep_task(&call, number);
            let done = Done::of(panel_of!(call), &task);
            let group = task.group;
            write_spins(call.spins, &group, done.columns());
            done.write(Areas {
                labels: area(each.labels, call.labels, number),
                grey_labels: area(each.grey_labels, call.grey_labels, number),
                counts: area(each.counts, call.counts, number),
                sizes: area(each.sizes, call.sizes, number),
                member_sites: area(each.member_sites, call.member_sites, number),
                found: area(each.found, call.found, number),
                grey_found: area(each.grey_found, call.grey_found, number),
            });
            match done.answer() {
                Answer::Idle => idle += 1,
                Answer::Held => held += 1,
                _ => moved += 1,
            }
        }
        let after = metered(keeping, panel_of!(call), &named);
        bring(call.totals, &named, &before, &after);
        SweepAnswer::Swept { idle, moved, held }
    }

    fn energy(&mut self, call: Meter) -> MeterAnswer {
        meter(&call)
    }

    fn hand_over(&mut self, call: HandOver) -> u8 {
        handed_over(&call)
    }

    fn label(&mut self, call: Label) -> u8 {
        if let Some(number) = label_refusal(&call) {
            return number;
        }
        let ones = |bytes: &[u8]| -> Vec<bool> { bytes.iter().map(|&byte| byte == 1).collect() };
        let all = Components::new(call.n, call.d, call.fwd, &ones(call.holds), &[]);
        write_numbers(call.labels, call.found, &all);
        write_sizes(call.counts, call.sizes, &all, &ones(call.counted));
        0
    }

    fn packed_step(&mut self, call: PackedStep) -> Answer {
        packed::step(call)
    }

    fn pack(&mut self, call: Pack) -> u8 {
        packed::pack(call)
    }

    fn unpack(&mut self, call: Unpack) -> u8 {
        packed::unpack(call)
    }

    fn check_vendor(&mut self, call: CheckVendor) -> VendorAnswer {
        let mut fault = [0];
        match check_vendor(call.mode as u8, call, &mut fault) {
            0 => VendorAnswer::Accepted,
            NO => VendorAnswer::No(fault[0]),
            number => VendorAnswer::Refused(number),
        }
    }
}
