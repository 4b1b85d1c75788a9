//! Request 5/14: the seed's component alone, found depth first. Bonds are judged when they are asked for, on the spins before the move.
use super::bonds::{acts, column, holds};
use super::moves::{flip, lent_permutation, negate_bits, permuted_by};
use super::{Panel, Task};
use calls::Mode;

pub struct Grown {
    pub idle: bool,
    /// The seed's component, in CMR the blue one, has a pinned site (9/14).
    pub held: bool,
    /// In CMR the grey component.
    pub members: Vec<bool>,
    /// Spins of the group after the move: site by site, member by member.
    pub columns: Vec<Vec<i8>>,
}

/// Marks what bonds join to the marked sites, followed forward and backward.
fn follow(panel: Panel, task: &Task, grey: bool, marked: &mut [bool]) {
    let (d, at) = (panel.d, |table: &[u32], bond: usize| table[bond] as usize);
    let mut waiting: Vec<usize> = (0..panel.n).filter(|&i| marked[i]).collect();
    while let Some(i) = waiting.pop() {
        for e in 0..d {
            let ahead = (i * d + e, at(panel.fwd, i * d + e));
            let behind = at(panel.bwd, i * d + e);
            for (bond, other) in [ahead, (behind * d + e, behind)] {
                let joined = || holds(panel, task, grey, bond, |site| acts(panel, task, site));
                if !marked[other] && joined() {
                    marked[other] = true;
                    waiting.push(other);
                }
            }
        }
    }
}

/// What the seed's bonds reach, in CMR its blue ones.
pub fn blue(panel: Panel, task: &Task) -> Vec<bool> {
    let mut first = vec![false; panel.n];
    first[task.seed] = acts(panel, task, task.seed);
    follow(panel, task, false, &mut first);
    first
}

/// A call that is not refused: its seed acts, or no site does.
pub fn grown(panel: Panel, task: &Task) -> Grown {
    let cmr = task.mode == Mode::Cmr;
    let first = blue(panel, task);
    let mut members = first.clone();
    if cmr {
        follow(panel, task, true, &mut members);
    }
    let pinned = |sites: &[bool]| {
        sites
            .iter()
            .zip(task.pins)
            .any(|(&of, &pin)| of && pin == 1)
    };
    let (held, grey_held) = (pinned(&first), pinned(&members));
    let after = |i: usize| {
        if held {
            return column(panel, &task.group, i);
        }
        if task.mode.permutes() && members[i] {
            return permuted_by(panel, task, &lent_permutation(task, 0), i);
        }
        let mut spins = column(panel, &task.group, i);
        if first[i] {
            flip(task.mode, &mut spins);
        }
        if cmr && members[i] && !grey_held {
            negate_bits(task.greys[0], &mut spins);
        }
        spins
    };
    Grown {
        idle: !first[task.seed],
        held,
        columns: (0..panel.n).map(after).collect(),
        members,
    }
}
