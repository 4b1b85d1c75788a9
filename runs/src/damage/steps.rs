//! Faults in what a task's three steps are lent.
use super::{choices, columns, longer_or_shorter, outputs, panel, reference, seed, set, size};
use super::{spins, temperatures};
use crate::rand::Rand;
use crate::steps::Task;

/// Labels that are no site, marks that are neither 0 nor 1, and lists of another length.
fn lists(rand: &mut Rand, task: &mut Task) {
    let n = task.panel.n as u32;
    match rand.range(0, 7) {
        0 | 1 => set(rand, &mut task.lent.labels, &[n, u32::MAX]),
        2 | 3 => set(rand, &mut task.lent.grey_labels, &[n, u32::MAX]),
        4 | 5 => set(rand, &mut task.lent.member_sites, &[2, 255, 128]),
        6 => set(rand, &mut task.blue, &[2, 255, 128]),
        _ => longer_or_shorter(rand, &mut task.blue),
    }
}

pub fn task(rand: &mut Rand, task: &mut Task) {
    for _ in 0..rand.pick(&[1, 1, 2, 3]) {
        let n = task.panel.n;
        match rand.range(0, 13) {
            0..=2 => panel(rand, &mut task.panel, &mut task.lent),
            3 | 4 => outputs(rand, &mut task.lent),
            5 | 6 => choices(rand, &mut task.choices, false),
            7 => size(rand, &mut task.members, 8),
            8 => columns(rand, &mut task.lent.columns, task.members),
            9 | 10 => lists(rand, task),
            11 => task.temperature = rand.pick(&temperatures()),
            12 => task.reference = reference(rand, n),
            _ if rand.once_in(3) => spins(rand, &mut task.lent.spins, n),
            _ => task.seed = seed(rand, n),
        }
    }
}
