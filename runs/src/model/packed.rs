//! Request 11/14 on the bytes themselves: no row is made. The components, and the tests of all that has no layout, are those of a move; a call
//! that grows has its members from the components.
use super::bonds::drawn;
use super::components::Components;
use super::grow::Grown;
use super::moves::{lent_permutation, Outcome};
use super::refusals::*;
use super::totals::{bring, totals_length_refused, totals_refusal};
use super::{Areas, Done, Panel, Task};
use calls::{Answer, Form, Mode, Pack, PackedStep, Unpack};

mod bits;

/// Test 1 and the lengths of packing and unpacking.
fn layout_refusal(n: usize, members: usize, rows: usize, columns: usize) -> Option<u8> {
    if sizes_refused(n, 1, 1) || !(2..=8).contains(&members) {
        Some(1)
    } else if rows != members * n || columns != n {
        Some(2)
    } else {
        None
    }
}

pub fn pack(call: Pack) -> u8 {
    let (n, members) = (call.n, call.members);
    let refusal = layout_refusal(n, members, call.rows.len(), call.columns.len())
        .or_else(|| spins_refused(call.rows).then_some(3));
    if let Some(number) = refusal {
        return number;
    }
    for (i, byte) in call.columns.iter_mut().enumerate() {
        // the last member's bit is pushed up farthest
        let push = |byte: u8, k: usize| byte << 1 | u8::from(call.rows[k * n + i] == 1);
        *byte = (0..members).rev().fold(0, push);
    }
    0
}

pub fn unpack(call: Unpack) -> u8 {
    let (n, members) = (call.n, call.members);
    let high = || call.columns.iter().any(|&byte| bits::high(members, byte));
    let refusal = layout_refusal(n, members, call.rows.len(), call.columns.len())
        .or_else(|| high().then_some(3));
    if let Some(number) = refusal {
        return number;
    }
    for (at, spin) in call.rows.iter_mut().enumerate() {
        *spin = 2 * (call.columns[at % n] >> (at / n) & 1) as i8 - 1;
    }
    0
}

/// A group's bytes, its lattice, which has no spins, and what is lent for its move.
struct Group<'a> {
    panel: Panel<'a>,
    task: Task<'a>,
    members: usize,
    bytes: &'a [u8],
}

impl<'a> Group<'a> {
    fn of(call: &'a PackedStep) -> Self {
        let panel = Panel {
            n: call.n,
            d: call.d,
            s: call.members,
            team: 0,
            owners: &[],
            spins: &[],
            fwd: call.fwd,
            bwd: call.bwd,
            couplings: call.couplings,
        };
        Group {
            panel,
            task: task_of!(call, (0..call.members).collect()),
            members: call.members,
            bytes: call.columns,
        }
    }

    fn pattern(&self) -> u8 {
        match self.task.mode {
            Mode::Gperm => self.bytes[self.task.reference],
            _ => 0,
        }
    }

    fn acts(&self, i: usize) -> bool {
        bits::acts(self.task.mode, self.members, self.bytes[i], self.pattern())
    }

    /// Whether one bond holds; in CMR whether it is blue, or with `grey` blue or red.
    fn holds(&self, grey: bool, bond: usize) -> bool {
        let (i, j) = (bond / self.panel.d, self.panel.fwd[bond] as usize);
        let (one, other) = (self.bytes[i], self.bytes[j]);
        let above = |scale: f32, strength: i64| {
            drawn(
                scale / self.task.temperature,
                strength,
                self.task.cuts[bond],
            )
        };
        let coupling = || i64::from(self.panel.couplings[bond]);
        match self.task.mode {
            Mode::Jorg => {
                let strength = coupling() * bits::jorg_sum(self.members, one, other);
                strength > 0 && above(4.0, strength)
            }
            Mode::Cmr if bits::same_overlap(one, other) => {
                let strength = coupling() * bits::product(0, one, other);
                strength > 0 && above(4.0, strength)
            }
            Mode::Cmr => grey && coupling() != 0 && above(2.0, coupling().abs()),
            _ => self.acts(i) && self.acts(j),
        }
    }

    fn components(&self, grey: bool) -> Components {
        let Panel { n, d, fwd, .. } = self.panel;
        let holds: Vec<bool> = (0..n * d).map(|bond| self.holds(grey, bond)).collect();
        Components::new(n, d, fwd, &holds, self.task.pins)
    }

    /// Where the choice of site i's component stands: at its number, or in front of all where one cluster moves. There is none for a component that
    /// is held, and in SW none that flips a single site.
    fn place(&self, of: &Components, i: usize) -> Option<usize> {
        let (label, permutes) = (of.labels[i], self.task.mode.permutes());
        match self.task.form {
            _ if of.held[label] => None,
            Form::Sw => (permutes || of.sizes[label] >= 2).then_some(label),
            Form::Wolff | Form::Grow => (label == of.labels[self.task.seed]).then_some(0),
            Form::Observe => None,
        }
    }

    /// Site i's byte after the move, if any site acts.
    fn after(&self, i: usize, first: &Components, grey: Option<&Components>) -> u8 {
        let (task, byte) = (&self.task, self.bytes[i]);
        let place = self.place(first, i);
        if task.mode.permutes() {
            return match place.filter(|_| self.acts(i)) {
                Some(at) => bits::permuted(byte, self.pattern(), &lent_permutation(task, at)),
                None => byte,
            };
        }
        let flips = place.is_some_and(|at| task.form.one_cluster() || task.flips[at] == 1);
        let flipped = match flips {
            true => bits::flipped(task.mode, self.members, byte),
            false => byte,
        };
        let grey_place = grey.and_then(|grey| self.place(grey, i));
        flipped ^ grey_place.map_or(0, |at| task.greys[at])
    }

    /// What the call writes, and the bytes after it.
    fn done(&self) -> (Done, Vec<u8>) {
        let (task, n) = (&self.task, self.panel.n);
        let first = self.components(false);
        let grey =
            (task.mode == Mode::Cmr && task.form != Form::Observe).then(|| self.components(true));
        let acting: Vec<bool> = (0..n).map(|i| self.acts(i)).collect();
        let idle = !acting.contains(&true);
        let held = task.form.one_cluster() && first.held[first.labels[task.seed]];
        let after = match idle {
            true => self.bytes.to_vec(),
            false => (0..n)
                .map(|i| self.after(i, &first, grey.as_ref()))
                .collect(),
        };
        let columns = Vec::new(); // no row is made
        if task.form == Form::Grow {
            let labels = &grey.as_ref().unwrap_or(&first).labels;
            let members = labels
                .iter()
                .map(|label| !idle && *label == labels[task.seed])
                .collect();
            let grown = Grown {
                idle,
                held,
                members,
                columns,
            };
            return (Done::Grown(grown), after);
        }
        let outcome = Outcome {
            idle,
            held,
            acting,
            first,
            grey,
            columns,
        };
        (Done::Labelled(outcome), after)
    }

    /// Each member's energy, where totals are kept.
    fn energies(&self, keeping: bool, bytes: &[u8]) -> Vec<i64> {
        let Panel { n, d, fwd, .. } = self.panel;
        let bond_energy = |bond: usize, k: usize| {
            let product = bits::product(k, bytes[bond / d], bytes[fwd[bond] as usize]);
            -i64::from(self.panel.couplings[bond]) * product
        };
        (0..self.members)
            .filter(|_| keeping)
            .map(|k| (0..n * d).map(|bond| bond_energy(bond, k)).sum())
            .collect()
    }
}

fn length_refused(call: &PackedStep) -> bool {
    let members = call.members;
    let exact =
        lengths(call.mode, call.form, call.n, call.d, members, 1).spelt(call.coding, members);
    let bonds = call.n * call.d;
    call.columns.len() != call.n
        || call.fwd.len() != bonds
        || call.bwd.len() != bonds
        || own_lengths_differ!(exact, call)
}

fn refusal(call: &PackedStep) -> Option<u8> {
    let (draws, keeping) = (call.mode.draws(), call.keeps.totals(call.form));
    if sizes_refused(call.n, call.d, 1)
        || members_refused(call.mode, call.members)
        || coding_refused(call.coding.numbers(call.mode, call.form), call.members)
    {
        return Some(1);
    }
    if houd_refused(call.mode, call.form, call.members) {
        return Some(15);
    }
    let group = Group::of(call);
    let panel = group.panel;
    if length_refused(call) || totals_length_refused(keeping, panel, call.totals) {
        return Some(2);
    }
    if group
        .bytes
        .iter()
        .any(|&byte| bits::high(call.members, byte))
    {
        return Some(3);
    }
    let temperature = [call.temperature];
    let drawn: &[f32] = if draws { &temperature } else { &[] };
    panel_refusal(panel, call.pins, &[], draws || keeping, drawn)
        .or_else(|| task_refusal(panel, &group.task, |i| group.acts(i)))
        .or_else(|| totals_refusal(keeping, call.totals, &group.task.group))
}

pub fn step(call: PackedStep) -> Answer {
    if let Some(number) = refusal(&call) {
        return Answer::Refused(number);
    }
    let keeping = call.keeps.totals(call.form);
    let group = Group::of(&call);
    let (done, after) = group.done();
    let [energies_before, energies_after] =
        [group.bytes, &after].map(|bytes| group.energies(keeping, bytes));
    let members: Vec<usize> = (0..call.members).collect();
    call.columns.copy_from_slice(&after);
    bring(call.totals, &members, &energies_before, &energies_after);
    done.write(Areas {
        labels: call.labels,
        grey_labels: call.grey_labels,
        counts: call.counts,
        sizes: call.sizes,
        member_sites: call.member_sites,
        found: call.found,
        grey_found: call.grey_found,
    });
    done.answer()
}
