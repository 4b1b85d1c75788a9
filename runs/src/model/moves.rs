//! What moves in the forms that label; the form that grows is in grow.rs.
use super::bonds::{acts, column, holding};
use super::components::Components;
use super::orders::orders;
use super::{Panel, Task};
use calls::{Coding, Form, Mode};

pub struct Outcome {
    pub idle: bool,
    /// Of Wolff: the seed's component has a pinned site.
    pub held: bool,
    /// In CMR every site.
    pub acting: Vec<bool>,
    /// In CMR the blue ones.
    pub first: Components,
    pub grey: Option<Components>,
    /// Spins of the group after the move: site by site, member by member.
    pub columns: Vec<Vec<i8>>,
}

/// One site's flip: houd and blue negate whole pairs, pair and Jörg exchange each pair's spins.
pub fn flip(mode: Mode, spins: &mut [i8]) {
    for pair in spins.chunks_exact_mut(2) {
        match mode {
            Mode::Houd | Mode::Cmr => pair.iter_mut().for_each(|spin| *spin = -*spin),
            _ => pair.swap(0, 1),
        }
    }
}

/// Whether the flip chosen for site i's component acts on it; none does where it is held.
fn flip_chosen(task: &Task, of: &Components, i: usize) -> bool {
    let label = of.labels[i];
    match task.form {
        _ if of.held[label] => false,
        Form::Sw => of.sizes[label] >= 2 && task.flips[label] == 1,
        Form::Wolff => label == of.labels[task.seed],
        Form::Observe => false,
        Form::Grow => unreachable!("it labels nothing"),
    }
}

/// The permutation that is lent at this place.
pub fn lent_permutation(task: &Task, place: usize) -> Vec<u8> {
    let members = task.group.len();
    match task.coding {
        Coding::Rows => task.perms[place * members..(place + 1) * members].to_vec(),
        Coding::Numbers => orders()[usize::from(task.perms[place])].to_vec(),
    }
}

/// The permutation chosen for site i, if its component has one and is not held.
fn permutation(task: &Task, of: &Components, i: usize) -> Option<Vec<u8>> {
    let label = of.labels[i];
    match task.form {
        _ if of.held[label] => None,
        Form::Sw => Some(lent_permutation(task, label)),
        Form::Wolff => (label == of.labels[task.seed]).then(|| lent_permutation(task, 0)),
        Form::Observe => None,
        Form::Grow => unreachable!("it labels nothing"),
    }
}

fn grey_number(task: &Task, of: &Components, i: usize) -> u8 {
    let label = of.labels[i];
    match task.form {
        _ if of.held[label] => 0,
        Form::Sw if of.sizes[label] >= 2 => task.greys[label],
        Form::Wolff if label == of.labels[task.seed] => task.greys[0],
        _ => 0,
    }
}

pub fn components(panel: Panel, task: &Task, grey: bool) -> Components {
    let holds = holding(panel, task, grey);
    Components::new(panel.n, panel.d, panel.fwd, &holds, task.pins)
}

/// Site i's spins after a flip of its component, if one is chosen.
fn flipped(panel: Panel, task: &Task, first: &Components, i: usize) -> Vec<i8> {
    let mut spins = column(panel, &task.group, i);
    if flip_chosen(task, first, i) {
        flip(task.mode, &mut spins);
    }
    spins
}

/// Site i's spins after a permutation: replica k gets what replica p(k) had, in gperm of the gauged spins.
pub fn permuted_by(panel: Panel, task: &Task, p: &[u8], i: usize) -> Vec<i8> {
    let old = column(panel, &task.group, i);
    let pattern = match task.mode {
        Mode::Gperm => column(panel, &task.group, task.reference),
        _ => vec![1; old.len()],
    };
    (0..old.len())
        .map(|k| {
            let from = usize::from(p[k]);
            pattern[k] * pattern[from] * old[from]
        })
        .collect()
}

/// Site i's spins after the permutation of its component, if it acts and one is chosen.
fn permuted(panel: Panel, task: &Task, first: &Components, i: usize) -> Vec<i8> {
    match permutation(task, first, i) {
        Some(p) if acts(panel, task, i) => permuted_by(panel, task, &p, i),
        _ => column(panel, &task.group, i),
    }
}

/// Bit k of a grey number negates replica k.
pub fn negate_bits(number: u8, spins: &mut [i8]) {
    for (k, spin) in spins.iter_mut().enumerate() {
        if number >> k & 1 == 1 {
            *spin = -*spin;
        }
    }
}

/// Site i's spins after the blue flip and the grey number of its components.
fn recoloured(
    panel: Panel,
    task: &Task,
    blue: &Components,
    grey: &Components,
    i: usize,
) -> Vec<i8> {
    let mut spins = flipped(panel, task, blue, i);
    negate_bits(grey_number(task, grey, i), &mut spins);
    spins
}

pub fn outcome(panel: Panel, task: &Task) -> Outcome {
    let first = components(panel, task, false);
    let grey = (task.mode == Mode::Cmr && task.form != Form::Observe)
        .then(|| components(panel, task, true));
    let acting: Vec<bool> = (0..panel.n).map(|i| acts(panel, task, i)).collect();
    let idle = !acting.contains(&true);
    let held = task.form == Form::Wolff && first.held[first.labels[task.seed]];
    let after = |i: usize| match (task.mode, &grey) {
        _ if idle => column(panel, &task.group, i),
        (Mode::Perm | Mode::Gperm, _) => permuted(panel, task, &first, i),
        (_, Some(grey)) => recoloured(panel, task, &first, grey, i),
        _ => flipped(panel, task, &first, i),
    };
    Outcome {
        idle,
        held,
        acting,
        columns: (0..panel.n).map(after).collect(),
        first,
        grey,
    }
}
