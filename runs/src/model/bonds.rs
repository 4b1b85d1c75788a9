//! Which sites act and which bonds hold.
use super::{Panel, Task};
use calls::Mode;

pub fn column(panel: Panel, group: &[usize], i: usize) -> Vec<i8> {
    group
        .iter()
        .map(|system| panel.spins[system * panel.n + i])
        .collect()
}

pub fn acts(panel: Panel, task: &Task, i: usize) -> bool {
    let spins = column(panel, &task.group, i);
    match task.mode {
        Mode::Houd => spins.iter().map(|&spin| i32::from(spin)).sum::<i32>() == 0,
        Mode::Pair | Mode::Jorg => spins.chunks_exact(2).any(|pair| pair[0] != pair[1]),
        Mode::Perm => spins.iter().any(|&spin| spin != spins[0]),
        Mode::Gperm => {
            let pattern = column(panel, &task.group, task.reference);
            let products: Vec<i8> = pattern.iter().zip(&spins).map(|(p, s)| p * s).collect();
            products.iter().any(|&product| product != products[0])
        }
        Mode::Cmr => true,
    }
}

pub fn drawn(scale: f32, strength: i64, cut: f32) -> bool {
    scale * strength as f32 > cut
}

#[derive(Clone, Copy, PartialEq)]
pub enum Kind {
    None,
    Blue(i64),
    Red(i64),
}

pub fn cmr_kind(panel: Panel, task: &Task, i: usize, j: usize, coupling: i64) -> Kind {
    let at_i = column(panel, &task.group, i);
    let at_j = column(panel, &task.group, j);
    let same = at_i[0] * at_i[1] == at_j[0] * at_j[1];
    if same && coupling * i64::from(at_i[0]) * i64::from(at_j[0]) > 0 {
        Kind::Blue(coupling.abs())
    } else if !same && coupling != 0 {
        Kind::Red(coupling.abs())
    } else {
        Kind::None
    }
}

pub fn jorg_strength(panel: Panel, task: &Task, i: usize, j: usize, coupling: i64) -> i64 {
    let at_i = column(panel, &task.group, i);
    let at_j = column(panel, &task.group, j);
    let sum: i64 = at_i
        .chunks_exact(2)
        .zip(at_j.chunks_exact(2))
        .filter(|(a, b)| a[0] != a[1] && b[0] != b[1])
        .map(|(a, b)| i64::from(a[0]) * i64::from(b[0]))
        .sum();
    coupling * sum
}

/// Whether one bond holds; in CMR whether it is blue, or with `grey` blue or red.
pub fn holds(
    panel: Panel,
    task: &Task,
    grey: bool,
    bond: usize,
    acts: impl Fn(usize) -> bool,
) -> bool {
    let (i, j) = (bond / panel.d, panel.fwd[bond] as usize);
    let both_act = acts(i) && acts(j);
    match task.mode {
        Mode::Houd | Mode::Pair | Mode::Perm | Mode::Gperm => both_act,
        Mode::Jorg => {
            let coupling = i64::from(panel.couplings[bond]);
            let strength = jorg_strength(panel, task, i, j, coupling);
            let scale = 4.0 / task.temperature;
            both_act && strength > 0 && drawn(scale, strength, task.cuts[bond])
        }
        Mode::Cmr => match cmr_kind(panel, task, i, j, i64::from(panel.couplings[bond])) {
            Kind::None => false,
            Kind::Blue(strength) => drawn(4.0 / task.temperature, strength, task.cuts[bond]),
            Kind::Red(strength) => grey && drawn(2.0 / task.temperature, strength, task.cuts[bond]),
        },
    }
}

/// The same of every bond.
pub fn holding(panel: Panel, task: &Task, grey: bool) -> Vec<bool> {
    let acting: Vec<bool> = (0..panel.n).map(|i| acts(panel, task, i)).collect();
    (0..panel.n * panel.d)
        .map(|bond| holds(panel, task, grey, bond, |i| acting[i]))
        .collect()
}
