//! Calls written by hand, run by the model and by the Rust and the port where they are there.
#![allow(dead_code)] // Each test file uses a part.
use calls::{Answer, Coding, Form, Keeps, Mode, Port, SweepAnswer};
use published_patched::Branch;
use std::fmt::Debug;
use tsorvenk_runs::case::{Bonds, Choices, Lent, Panel, Single, Swept};
use tsorvenk_runs::idle;
use tsorvenk_runs::lattices::backward;
use tsorvenk_runs::model::{lengths, Lengths, Model};
use tsorvenk_runs::port;

pub const L1: &[u32] = &[0];
pub const L2: &[u32] = &[1, 0];
pub const I2: &[u32] = &[0, 1];
pub const R3: &[u32] = &[1, 2, 0];

pub fn spins(rows: &[&str]) -> Vec<i8> {
    let sign = |c| if c == '+' { 1 } else { -1 };
    rows.iter().flat_map(|row| row.chars().map(sign)).collect()
}

pub fn identities(count: usize, members: usize) -> Vec<u8> {
    (0..count).map(|at| (at % members) as u8).collect()
}

/// Every output that the call takes, filled with nines.
fn outputs(exact: Lengths, rows: &[&str]) -> Lent {
    Lent::filled(exact, spins(rows), 9, 9)
}

/// One direction; the group is every system in order; no choice flips, permutes or cuts.
pub fn call(mode: Mode, form: Form, fwd: &[u32], rows: &[&str]) -> Single {
    let (n, members) = (fwd.len(), rows.len());
    let exact = lengths(mode, form, n, 1, members, 1);
    let ones = u8::from(form.one_cluster());
    Single {
        panel: Panel {
            mode,
            form,
            coding: Coding::Rows,
            keeps: Keeps::Nothing,
            n,
            d: 1,
            s: members,
            team: 0,
            owners: vec![0; members],
            fwd: fwd.to_vec(),
            bwd: backward(n, 1, fwd),
            pins: vec![0; n],
            couplings: vec![0; exact.couplings.unwrap_or(0)],
        },
        group: (0..members as u32).collect(),
        temperature: 1.0,
        reference: 0,
        seed: 0,
        choices: Choices {
            cuts: vec![0.0; exact.cuts.unwrap_or(0)],
            flips: vec![0; exact.flips.unwrap_or(0)],
            perms: identities(exact.perms.unwrap_or(0), members),
            greys: vec![ones; exact.greys.unwrap_or(0)],
        },
        lent: outputs(exact, rows),
    }
}

pub fn drawn(mut case: Single, couplings: &[i32], temperature: f32, cuts: &[f32]) -> Single {
    case.panel.couplings = couplings.to_vec();
    case.temperature = temperature;
    case.choices.cuts = cuts.to_vec();
    case
}

pub fn flips(mut case: Single, flips: &[u8]) -> Single {
    case.choices.flips = flips.to_vec();
    case
}

pub fn perms(mut case: Single, perms: &[u8]) -> Single {
    case.choices.perms = perms.to_vec();
    case
}

pub fn greys(mut case: Single, greys: &[u8]) -> Single {
    case.choices.greys = greys.to_vec();
    case
}

pub fn seed(mut case: Single, seed: usize) -> Single {
    case.seed = seed;
    case
}

pub fn pinned(mut case: Single, pins: &[u8]) -> Single {
    case.panel.pins = pins.to_vec();
    case
}

pub fn reference(mut case: Single, reference: usize) -> Single {
    case.reference = reference;
    case
}

/// What a call of the model and of the port gives, which must agree.
pub fn both<T: PartialEq + Debug>(run: impl Fn(&mut dyn Port) -> T) -> T {
    let answer = run(&mut Model);
    if let Some(mut port) = port::linked() {
        assert_eq!(answer, run(port.as_mut()));
    }
    answer
}

/// The answer of the model and of the port, which must agree.
pub fn run(case: &Single) -> (Answer, Lent) {
    let answer = case.run(&mut Model);
    if let Some(mut port) = port::linked() {
        assert_eq!(answer, case.run(port.as_mut()), "{case:?}");
    }
    if let Answer::Refused(_) = answer.0 {
        assert_eq!(answer.1, case.lent, "{case:?}");
    } else if published_patched::PRESENT && !case.panel.numbers() && !case.panel.pinned() {
        let mut lent = case.lent.clone();
        if case.panel.form == Form::Grow {
            published_patched::step(case.step(&mut lent), Branch::DepthFirst);
        } else {
            published_patched::step(case.step(&mut lent), Branch::UnionFind);
            idle::take_out_of_single(case, &mut lent);
        }
        // the Rust keeps no totals
        lent.totals = answer.1.totals.clone();
        assert_eq!(answer.1, lent, "{case:?}");
    }
    if !matches!(answer.0, Answer::Refused(_)) && case.panel.form != Form::Grow {
        numbered(&answer.1.labels, &answer.1.found);
    }
    answer
}

/// Each number is used, the next one first at some site behind the one before, and so many there are.
fn numbered(labels: &[u32], found: &[u32]) {
    let mut next = 0;
    for &label in labels {
        assert!(label <= next, "{labels:?}");
        next = next.max(label + 1);
    }
    assert_eq!(found, [next], "{labels:?}");
}

pub fn moved(case: &Single, rows: &[&str]) -> Lent {
    let (answer, lent) = run(case);
    assert_eq!(answer, Answer::Moved, "{case:?}");
    assert_eq!(lent.spins, spins(rows), "{case:?}");
    lent
}

pub fn labelled(case: &Single, labels: &[u32], counts: &[u32], sizes: [u32; 4]) {
    let lent = run(case).1;
    assert_eq!(lent.labels, labels, "{case:?}");
    assert_eq!(lent.counts, counts, "{case:?}");
    assert_eq!(lent.sizes, sizes, "{case:?}");
}

pub fn answers(case: &Single, answer: Answer) {
    assert_eq!(run(case).0, answer, "{case:?}");
}

pub fn refused(case: &Single, number: u8) {
    answers(case, Answer::Refused(number));
}

pub fn labels(case: &Single, labels: &[u32]) {
    assert_eq!(run(case).1.labels, labels, "{case:?}");
}

/// A sweep of one-site systems at `t` temperatures; the order is that of the systems.
pub fn sweep(mode: Mode, form: Form, t: usize, rows: &[&str]) -> Swept {
    let base = call(mode, form, L1, &rows[..2]);
    let (r, members) = (rows.len() / t, 2);
    let tasks = t * (r / members);
    let exact = lengths(mode, form, 1, 1, members, tasks);
    Swept {
        panel: Panel {
            s: rows.len(),
            owners: vec![0; rows.len()],
            ..base.panel
        },
        t,
        r,
        members,
        order: (0..rows.len() as u32).collect(),
        masks: vec![0; t],
        temperatures: vec![1.0; t],
        references: vec![0; tasks],
        seeds: vec![0; tasks],
        choices: Choices {
            cuts: vec![0.0; exact.cuts.unwrap_or(0)],
            flips: vec![0; exact.flips.unwrap_or(0)],
            perms: identities(exact.perms.unwrap_or(0), members),
            greys: vec![0; exact.greys.unwrap_or(0)],
        },
        lent: outputs(exact, rows),
    }
}

pub fn run_sweep(case: &Swept) -> (SweepAnswer, Lent) {
    let answer = case.run(&mut Model);
    if let Some(mut port) = port::linked() {
        assert_eq!(answer, case.run(port.as_mut()), "{case:?}");
    }
    if let SweepAnswer::Refused(_) = answer.0 {
        assert_eq!(answer.1, case.lent, "{case:?}");
    }
    answer
}

/// The answer of a sweep with so many tasks of each kind.
pub fn swept(idle: u32, moved: u32, held: u32) -> SweepAnswer {
    SweepAnswer::Swept { idle, moved, held }
}

pub fn sweep_refused(case: &Swept, number: u8) {
    assert_eq!(run_sweep(case).0, SweepAnswer::Refused(number), "{case:?}");
}

/// The labelling of the model and of the port, which must agree.
pub fn run_bonds(case: &Bonds) -> (u8, Lent) {
    let answer = case.run(&mut Model);
    if let Some(mut port) = port::linked() {
        assert_eq!(answer, case.run(port.as_mut()), "{case:?}");
    }
    answer
}
