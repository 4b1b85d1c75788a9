//! Random calls that document 01 accepts.
use crate::case::{Choices, Lent, Panel, Single, Swept};
pub use crate::lattices::Size;
use crate::lattices::{self, backward};
use crate::model::{self, lengths, Lengths};
use crate::rand::Rand;
use calls::{Coding, Form, Keeps, Mode};

mod bonds;
mod kept;
mod pinned;

pub use bonds::bonds;
pub use pinned::pins;

/// What an output holds before the call, so that a byte left alone is seen.
pub const UNTOUCHED: u32 = 0xaaaa_aaaa;
pub const UNTOUCHED_BYTE: u8 = 0xaa;

pub fn couplings(rand: &mut Rand, bonds: usize) -> Vec<i32> {
    let most = rand.pick(&[1, 3, 3, 100, 1_000_000]);
    let (zeros, ends) = (rand.once_in(3), rand.once_in(4));
    let draw = |_| {
        if ends {
            rand.pick(&[0, 1, -1, 1_000_000, -1_000_000])
        } else if zeros && rand.once_in(2) {
            0
        } else {
            rand.range(0, 2 * most) as i32 - most as i32
        }
    };
    (0..bonds).map(draw).collect()
}

pub fn spins(rand: &mut Rand, n: usize, s: usize) -> Vec<i8> {
    let sign = |up: bool| if up { 1 } else { -1 };
    let style = rand.range(0, 5);
    let mut spins = vec![0; s * n];
    for i in 0..n {
        let base = rand.once_in(2);
        let agree = match style {
            0 => true,
            1 => !rand.once_in(6),
            2 => rand.once_in(2),
            _ => false,
        };
        for system in 0..s {
            let up = match style {
                _ if agree => base,
                3 => base != rand.once_in(4),
                4 => (system % 2 == 0) == base,
                _ => rand.once_in(2),
            };
            spins[system * n + i] = sign(up);
        }
    }
    spins
}

fn temperature(rand: &mut Rand, couplings: &[i32]) -> f32 {
    let most = couplings.iter().map(|j| j.abs()).max().unwrap_or(1).max(1) as f64;
    let fitted = (most * 4.0 / (0.2 + 6.0 * rand.unit())) as f32;
    let any = rand.pick(&[1.0 / 1024.0, 1_048_576.0, 0.1, 1.0, 2.0, 3.0, 4.0]);
    match rand.range(0, 3) {
        0 => any,
        _ => fitted.clamp(1.0 / 1024.0, 1_048_576.0),
    }
}

/// A cut near what the bond may be compared with, often equal to it or one step beside it.
fn cut(rand: &mut Rand, coupling: i32, temperature: f32, members: usize) -> f32 {
    let strength = (rand.range(1, members / 2) as f32) * (coupling as f32).abs();
    let scale = rand.pick(&[4.0, 2.0]) / temperature;
    let equal = scale * strength;
    match rand.range(0, 9) {
        0 => rand.pick(&[0.0, -0.0, f32::from_bits(1), f32::MAX]),
        1 => -rand.unit().ln() as f32,
        2 | 3 => equal,
        4 => f32::from_bits(equal.to_bits() + 1),
        5 => f32::from_bits(equal.to_bits().saturating_sub(1)),
        _ => 2.0 * rand.unit() as f32 * equal,
    }
}

fn flips(rand: &mut Rand, count: usize) -> Vec<u8> {
    (0..count).map(|_| rand.range(0, 1) as u8).collect()
}

fn permutation(rand: &mut Rand, members: usize, form: Form) -> Vec<u8> {
    loop {
        let p: Vec<u8> = rand.permutation(members).iter().map(|&v| v as u8).collect();
        if !form.one_cluster() || p.iter().enumerate().any(|(k, &v)| usize::from(v) != k) {
            return p;
        }
    }
}

/// What a call does not take may be anything.
fn untaken<T>(rand: &mut Rand, mut value: impl FnMut(u64) -> T) -> Vec<T> {
    (0..rand.range(0, 3)).map(|_| value(rand.word())).collect()
}

fn choices(
    rand: &mut Rand,
    panel: &Panel,
    members: usize,
    exact: Lengths,
    temperatures: &[f32],
) -> Choices {
    let bonds = panel.n * panel.d;
    let draw = |rand: &mut Rand, at: usize| {
        let tasks = exact.cuts.unwrap_or(0) / bonds;
        let each = (tasks / temperatures.len()).max(1);
        let temperature = temperatures[at / bonds / each];
        cut(rand, panel.couplings[at % bonds], temperature, members)
    };
    Choices {
        cuts: match exact.cuts {
            Some(count) => (0..count).map(|at| draw(rand, at)).collect(),
            None => untaken(rand, |word| f32::from_bits(word as u32)),
        },
        flips: match exact.flips {
            Some(count) => flips(rand, count),
            None => untaken(rand, |word| word as u8),
        },
        perms: match exact.perms {
            Some(count) => (0..count / members)
                .flat_map(|_| permutation(rand, members, panel.form))
                .collect(),
            None => untaken(rand, |word| word as u8),
        },
        greys: match exact.greys {
            Some(count) => {
                let least = usize::from(panel.form.one_cluster());
                (0..count).map(|_| rand.range(least, 3) as u8).collect()
            }
            None => untaken(rand, |word| word as u8),
        },
    }
}

/// An output of n sites, or one that is not taken: short, or as long as others are, so that a form that writes it is seen.
fn output<T: Copy>(rand: &mut Rand, exact: Option<usize>, n: usize, value: T) -> Vec<T> {
    let length = exact.unwrap_or_else(|| rand.pick(&[0, 1, 3, n, n + 1]));
    vec![value; length]
}

fn outputs(rand: &mut Rand, exact: Lengths, n: usize, spins: Vec<i8>) -> Lent {
    let grey_labels = match exact.grey_labels {
        Some(count) => vec![UNTOUCHED; count],
        None => untaken(rand, |word| word as u32),
    };
    // draws of its own, so that the calls of the forms that label are what they were before there was one that grows
    let rand = &mut rand.aside();
    Lent {
        spins,
        columns: Vec::new(),
        totals: Vec::new(),
        labels: output(rand, exact.labels, n, UNTOUCHED),
        grey_labels,
        counts: output(rand, exact.counts, n, UNTOUCHED),
        sizes: output(rand, exact.sizes, 3, UNTOUCHED),
        member_sites: output(rand, exact.member_sites, n, UNTOUCHED_BYTE),
        found: output(rand, exact.found, 1, UNTOUCHED),
        grey_found: output(rand, exact.grey_found, 1, UNTOUCHED),
    }
}

pub fn members(rand: &mut Rand, mode: Mode, form: Form) -> usize {
    match mode {
        _ if mode.most_members(form) == 2 => 2,
        Mode::Perm | Mode::Gperm => rand.range(2, 8),
        _ if rand.once_in(4) => rand.range(2, 8),
        _ => rand.pick(&[2, 2, 4, 4, 6, 8]),
    }
}

/// Rows where permutations are taken, and else either.
fn ignored_coding(rand: &Rand, mode: Mode, form: Form) -> Coding {
    match mode.permutes() && form != Form::Observe {
        true => Coding::Rows,
        false => rand.aside().pick(&Coding::ALL),
    }
}

pub fn panel(rand: &mut Rand, mode: Mode, form: Form, size: Size, s: usize) -> Panel {
    let lattice = lattices::any(rand, size);
    let (n, d) = (lattice.n, lattice.d);
    Panel {
        mode,
        form,
        coding: ignored_coding(rand, mode, form),
        keeps: Keeps::Nothing,
        n,
        d,
        s,
        team: 0,
        owners: vec![0; s],
        couplings: match mode.draws() {
            true => couplings(rand, n * d),
            false => untaken(rand, |word| word as i32),
        },
        bwd: backward(n, d, &lattice.fwd),
        pins: pins(rand, n),
        fwd: lattice.fwd,
    }
}

/// An acting site if there is one.
fn seed(rand: &mut Rand, active: &[bool]) -> usize {
    let acting: Vec<usize> = (0..active.len()).filter(|&i| active[i]).collect();
    match acting.is_empty() {
        true => rand.range(0, active.len() - 1),
        false => rand.pick(&acting),
    }
}

pub fn single(rand: &mut Rand, mode: Mode, form: Form, size: Size) -> Single {
    let members = members(rand, mode, form);
    single_of(rand, mode, form, size, members)
}

/// A move of a group of this size.
pub fn single_of(rand: &mut Rand, mode: Mode, form: Form, size: Size, members: usize) -> Single {
    let s = match rand.range(0, 15) {
        0 => 64,
        1..=3 => rand.range(members, 64),
        _ => rand.range(members, members + 3),
    };
    let panel = panel(rand, mode, form, size, s);
    let n = panel.n;
    let mut case = single_on(rand, panel, members, |rand| spins(rand, n, s));
    kept::keep(rand, &mut case.panel, &mut case.lent);
    case
}

/// A move of some group of a panel, whose spins are made where they are first needed.
pub fn single_on(
    rand: &mut Rand,
    panel: Panel,
    members: usize,
    spins: impl FnOnce(&mut Rand) -> Vec<i8>,
) -> Single {
    let (mode, form) = (panel.mode, panel.form);
    let exact = lengths(mode, form, panel.n, panel.d, members, 1);
    let group = rand.permutation(panel.s)[..members]
        .iter()
        .map(|&system| system as u32)
        .collect();
    let temperature = match mode.draws() {
        true => temperature(rand, &panel.couplings),
        false => f32::NAN,
    };
    let spins = spins(rand);
    let mut case = Single {
        group,
        temperature,
        reference: match mode {
            Mode::Gperm => rand.range(0, panel.n - 1),
            _ => rand.pick(&[0, panel.n, usize::MAX]),
        },
        seed: rand.pick(&[0, panel.n, usize::MAX]),
        choices: choices(rand, &panel, members, exact, &[temperature]),
        lent: outputs(rand, exact, panel.n, spins),
        panel,
    };
    if form.one_cluster() {
        let active = model::active(&case.step(&mut case.lent.clone()));
        case.seed = seed(rand, &active);
    }
    case
}

/// Temperatures and replicas of a sweep, and their masks.
fn sweep_shape(rand: &mut Rand, members: usize, size: Size) -> (usize, usize, Vec<u8>) {
    let wide = rand.once_in(20);
    let r = match wide {
        true => rand.range(members, 64),
        false => rand.range(members, (2 * members + 1).min(64)),
    };
    let t = match (wide, size) {
        (true, _) => 64 / r,
        (_, Size::Full) => 1,
        _ => rand.range(1, (64 / r).min(4)),
    };
    let masked = rand.pick(&[0, 1, 3]);
    let mask = |_| u8::from(masked > 0 && rand.range(0, 3) < masked);
    (t, r, (0..t).map(mask).collect())
}

fn spoil<T: Copy>(buffer: &mut [T], of: Option<usize>, tasks: usize, task: usize, value: T) {
    if let Some(all) = of {
        let each = all / tasks;
        buffer[task * each..(task + 1) * each].fill(value);
    }
}

/// Faults in every area of the masked tasks, which no side may read.
pub fn spoil_masked(case: &mut Swept) {
    let panel = &case.panel;
    let groups = case.r / case.members;
    let tasks = case.t * groups;
    let exact = lengths(
        panel.mode,
        panel.form,
        panel.n,
        panel.d,
        case.members,
        tasks,
    );
    for task in (0..tasks).filter(|task| case.masks[task / groups] == 1) {
        let choices = &mut case.choices;
        spoil(&mut choices.cuts, exact.cuts, tasks, task, f32::NAN);
        spoil(&mut choices.flips, exact.flips, tasks, task, 2);
        spoil(&mut choices.perms, exact.perms, tasks, task, 255);
        spoil(&mut choices.greys, exact.greys, tasks, task, 4);
        spoil(&mut case.references, exact.references, tasks, task, 0xffff);
        spoil(&mut case.seeds, exact.seeds, tasks, task, 0xffff);
    }
}

pub fn swept(rand: &mut Rand, mode: Mode, form: Form, size: Size) -> Swept {
    let members = members(rand, mode, form);
    swept_of(rand, mode, form, size, members)
}

/// A sweep of groups of this size.
pub fn swept_of(rand: &mut Rand, mode: Mode, form: Form, size: Size, members: usize) -> Swept {
    let (t, r, masks) = sweep_shape(rand, members, size);
    let panel = panel(rand, mode, form, size, t * r);
    let (n, s) = (panel.n, panel.s);
    let mut case = swept_on(rand, panel, members, masks, |rand| spins(rand, n, s));
    kept::keep(rand, &mut case.panel, &mut case.lent);
    case
}

/// A sweep of a panel over as many temperatures as there are masks.
pub fn swept_on(
    rand: &mut Rand,
    panel: Panel,
    members: usize,
    masks: Vec<u8>,
    spins: impl FnOnce(&mut Rand) -> Vec<i8>,
) -> Swept {
    let (mode, form, s) = (panel.mode, panel.form, panel.s);
    let (t, r) = (masks.len(), s / masks.len());
    let tasks = t * (r / members);
    let exact = lengths(mode, form, panel.n, panel.d, members, tasks);
    let temperatures: Vec<f32> = match mode.draws() {
        true => (0..t)
            .map(|_| temperature(rand, &panel.couplings))
            .collect(),
        false => untaken(rand, |word| f32::from_bits(word as u32)),
    };
    let spins = spins(rand);
    let site = |rand: &mut Rand| rand.range(0, panel.n - 1) as u32;
    let mut case = Swept {
        t,
        r,
        members,
        order: rand.permutation(s).iter().map(|&v| v as u32).collect(),
        masks,
        references: match exact.references {
            Some(count) => (0..count).map(|_| site(rand)).collect(),
            None => untaken(rand, |word| word as u32),
        },
        seeds: untaken(rand, |word| word as u32),
        choices: choices(rand, &panel, members, exact, &temperatures),
        lent: outputs(rand, exact, panel.n, spins),
        temperatures,
        panel,
    };
    if form.one_cluster() {
        let mut lent = case.lent.clone();
        let mut seeds = Vec::new();
        for task in 0..tasks {
            let active = model::active_in_task(&case.sweep(&mut lent), task);
            seeds.push(seed(rand, &active) as u32);
        }
        case.seeds = seeds;
    }
    if rand.once_in(2) {
        spoil_masked(&mut case);
    }
    case
}
