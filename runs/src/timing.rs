//! Calls for the benchmarks and the time they take.
use crate::case::{Choices, Lent, Panel, Single, Swept};
use crate::lattices::backward;
use crate::model::{self, lengths};
use crate::rand::Rand;
use calls::{Coding, Form, Keeps, Mode};
use std::time::Instant;

pub mod pieces;
pub mod pinned;

/// What a run takes.
pub fn microseconds(run: impl FnOnce()) -> f64 {
    let start = Instant::now();
    run();
    start.elapsed().as_secs_f64() * 1e6
}

fn middle(mut times: Vec<f64>) -> f64 {
    times.sort_by(f64::total_cmp);
    times[times.len() / 2]
}

/// The medians of K sides that are run in turn, so that what else the machine does meets all of them; `timed` is told which, and what it took comes back.
pub fn in_turn<const K: usize>(
    repetitions: usize,
    mut timed: impl FnMut(usize) -> f64,
) -> [f64; K] {
    let mut times = [(); K].map(|()| Vec::new());
    for repetition in 0..repetitions + 2 {
        for (side, times) in times.iter_mut().enumerate() {
            let time = timed(side);
            // the first ones fill the caches
            if repetition >= 2 {
                times.push(time);
            }
        }
    }
    times.map(middle)
}

/// The median of single runs, in microseconds. `ready` is not timed.
pub fn median<S>(
    repetitions: usize,
    state: &mut S,
    ready: impl Fn(&mut S),
    mut run: impl FnMut(&mut S),
) -> f64 {
    let times = (0..repetitions + 2)
        .map(|_| {
            ready(state);
            microseconds(|| run(state))
        })
        .skip(2) // The first ones fill the caches and the Rust's pools.
        .collect();
    middle(times)
}

/// The same of a call that is too short for the clock: `batch` runs are timed together, each with its `ready`.
pub fn batched<S>(
    repetitions: usize,
    batch: usize,
    state: &mut S,
    ready: impl Fn(&mut S),
    mut run: impl FnMut(&mut S),
) -> f64 {
    if batch == 1 {
        return median(repetitions, state, ready, run);
    }
    let all = |state: &mut S| {
        (0..batch).for_each(|_| {
            ready(state);
            run(state);
        })
    };
    median(repetitions, state, |_| {}, all) / batch as f64
}

pub const N: usize = 4096;

/// The torus of N sites whose D sides are equal: a ring, 64 by 64, 16 by 16 by 16, or 8 four times.
pub fn torus(d: usize) -> Vec<u32> {
    torus_of(N, d)
}

/// The same of n sites, a power of two.
fn torus_of(n: usize, d: usize) -> Vec<u32> {
    let side = 1usize << (n.ilog2() as usize / d);
    let step = |bond: usize| {
        let stride = side.pow((bond % d) as u32);
        let (i, at) = (bond / d, bond / d / stride % side);
        (i - at * stride + (at + 1) % side * stride) as u32
    };
    (0..n * d).map(step).collect()
}

/// A torus with couplings of size 1.
pub fn panel(rand: &mut Rand, mode: Mode, form: Form, d: usize, s: usize) -> Panel {
    panel_of(rand, mode, form, N, d, s)
}

pub fn panel_of(rand: &mut Rand, mode: Mode, form: Form, n: usize, d: usize, s: usize) -> Panel {
    let fwd = torus_of(n, d);
    Panel {
        mode,
        form,
        coding: Coding::Rows,
        keeps: Keeps::Nothing,
        n,
        d,
        s,
        team: 0,
        owners: vec![0; s],
        bwd: backward(n, d, &fwd),
        pins: vec![0; n],
        fwd,
        couplings: (0..d * n).map(|_| rand.pick(&[1, -1])).collect(),
    }
}

pub fn spins(rand: &mut Rand, s: usize, n: usize) -> Vec<i8> {
    (0..s * n).map(|_| rand.pick(&[1, -1])).collect()
}

fn permutations(rand: &mut Rand, count: usize, members: usize) -> Vec<u8> {
    let mut perms = Vec::new();
    while perms.len() < count {
        let p = rand.permutation(members);
        if p.iter().enumerate().any(|(k, &v)| k != v) {
            perms.extend(p.iter().map(|&v| v as u8));
        }
    }
    perms
}

/// Choices as a caller would draw them; a one-cluster permutation is not the identity.
fn choices(rand: &mut Rand, panel: &Panel, members: usize, tasks: usize) -> Choices {
    let exact = lengths(panel.mode, panel.form, panel.n, panel.d, members, tasks);
    let least = usize::from(panel.form.one_cluster());
    Choices {
        cuts: (0..exact.cuts.unwrap_or(0))
            .map(|_| -rand.unit().ln() as f32)
            .collect(),
        flips: (0..exact.flips.unwrap_or(0))
            .map(|_| rand.range(0, 1) as u8)
            .collect(),
        perms: permutations(rand, exact.perms.unwrap_or(0), members),
        greys: (0..exact.greys.unwrap_or(0))
            .map(|_| rand.range(least, 3) as u8)
            .collect(),
    }
}

fn outputs(panel: &Panel, members: usize, tasks: usize, spins: Vec<i8>) -> Lent {
    let exact = lengths(panel.mode, panel.form, panel.n, panel.d, members, tasks);
    Lent::filled(exact, spins, 0, 0)
}

/// The energy of the system whose row comes first, by a plain loop.
pub fn plain_energy(panel: &Panel, row: &[i8]) -> i64 {
    let mut sum = 0;
    for i in 0..panel.n {
        for d in 0..panel.d {
            let bond = i * panel.d + d;
            let ends = row[i] * row[panel.fwd[bond] as usize];
            sum -= i64::from(panel.couplings[bond]) * i64::from(ends);
        }
    }
    sum
}

/// A move of one group in a panel of `s` systems.
pub fn single(rand: &mut Rand, panel: Panel, members: usize) -> Single {
    let spins = spins(rand, panel.s, panel.n);
    single_on(rand, panel, members, spins)
}

/// The same on given spins.
pub fn single_on(rand: &mut Rand, panel: Panel, members: usize, spins: Vec<i8>) -> Single {
    let mut case = Single {
        group: (0..members as u32).collect(),
        temperature: 1.0,
        reference: 0,
        seed: 0,
        choices: choices(rand, &panel, members, 1),
        lent: outputs(&panel, members, 1, spins),
        panel,
    };
    let active = model::active(&case.step(&mut case.lent.clone()));
    case.seed = active.iter().position(|&acts| acts).unwrap_or(0);
    case
}

/// A sweep over 8 temperatures of 8 replicas.
pub fn swept(rand: &mut Rand, mode: Mode, form: Form, d: usize, members: usize) -> Swept {
    let panel = panel(rand, mode, form, d, 64);
    swept_on(rand, panel, members)
}

/// A sweep over all systems of a panel, 8 replicas at each temperature.
pub fn swept_on(rand: &mut Rand, panel: Panel, members: usize) -> Swept {
    let (t, r) = (panel.s / 8, 8);
    let tasks = t * (r / members);
    let spins = spins(rand, t * r, N);
    let mut case = Swept {
        t,
        r,
        members,
        order: rand.permutation(t * r).iter().map(|&v| v as u32).collect(),
        masks: vec![0; t],
        temperatures: (0..t).map(|j| 0.5 + 0.25 * j as f32).collect(),
        references: vec![0; tasks],
        seeds: vec![0; tasks],
        choices: choices(rand, &panel, members, tasks),
        lent: outputs(&panel, members, tasks, spins),
        panel,
    };
    let mut lent = case.lent.clone();
    let seed = |task| {
        let active = model::active_in_task(&case.sweep(&mut lent), task);
        active.iter().position(|&acts| acts).unwrap_or(0) as u32
    };
    case.seeds = (0..tasks).map(seed).collect();
    case
}

/// The last entry of the last kind of choice that this mode and form take is made faulty.
fn faulty_last(mode: Mode, form: Form, choices: &mut Choices) {
    let Choices {
        cuts,
        flips,
        perms,
        greys,
    } = choices;
    match (mode, form) {
        (Mode::Jorg | Mode::Cmr, Form::Observe) => *cuts.last_mut().unwrap() = -1.0,
        (Mode::Cmr, _) => *greys.last_mut().unwrap() = 4,
        (Mode::Perm | Mode::Gperm, Form::Sw) => *perms.last_mut().unwrap() = 255,
        (_, Form::Sw) => *flips.last_mut().unwrap() = 2,
        _ => {}
    }
}

/// The same call refused by the last test that reads much, so that its time is that of the tests.
pub fn refused_single(case: &Single) -> Single {
    let mut case = case.clone();
    let (mode, form) = (case.panel.mode, case.panel.form);
    // a seed that acts is all that test 10 reads, so one past the sites stands for it; one that does not act would have the panel scanned
    if form.one_cluster() {
        case.seed = case.panel.n;
    } else if form == Form::Observe && !mode.draws() {
        match mode {
            Mode::Gperm => case.reference = case.panel.n,
            _ => case.group[1] = case.group[0],
        }
    } else {
        faulty_last(mode, form, &mut case.choices);
    }
    case
}

pub fn refused_sweep(case: &Swept) -> Swept {
    let mut case = case.clone();
    let (mode, form) = (case.panel.mode, case.panel.form);
    let last = case.seeds.len() - 1;
    if form.one_cluster() {
        case.seeds[last] = N as u32;
    } else if form == Form::Observe && !mode.draws() {
        match mode {
            Mode::Gperm => case.references[last] = N as u32,
            _ => case.masks[case.t - 1] = 2,
        }
    } else {
        faulty_last(mode, form, &mut case.choices);
    }
    case
}
