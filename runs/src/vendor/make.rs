//! Pairs made by moves, and pairs that a vendor got wrong, or not quite.
use super::Vendored;
use crate::lattices::Size;
use crate::make;
use crate::model::Model;
use crate::rand::Rand;
use calls::{Form, Mode, Port};

/// Some rows become copies of others: then several permutations turn before into after.
fn with_twins(rand: &mut Rand, mut spins: Vec<i8>, n: usize) -> Vec<i8> {
    let s = spins.len() / n;
    for _ in 0..rand.pick(&[0, 0, 1, 2, 5]) {
        let (from, to) = (rand.range(0, s - 1), rand.range(0, s - 1));
        spins.copy_within(from * n..(from + 1) * n, to * n);
    }
    spins
}

/// A move of this form, made by the port where there is one, or else by the model.
pub fn moved(
    rand: &mut Rand,
    mode: Mode,
    form: Form,
    size: Size,
    port: Option<&mut Box<dyn Port>>,
) -> Vendored {
    let members = make::members(rand, mode, form);
    let s = rand.range(members, members + 2);
    let panel = make::panel(rand, mode, form, size, s);
    let n = panel.n;
    let spins = |rand: &mut Rand| {
        let spins = make::spins(rand, n, s);
        with_twins(rand, spins, n)
    };
    let case = make::single_on(rand, panel, members, spins);
    let after = match port {
        Some(port) => case.run(port.as_mut()).1,
        None => case.run(&mut Model).1,
    };
    Vendored::of(&case, &after)
}

/// A change of a good pair, and what it is called.
pub type Change = (&'static str, fn(&mut Rand, &mut Vendored));

pub const CHANGES: [Change; 14] = [
    ("nothing moves", nothing_moves),
    ("one spin", one_spin),
    ("a component permuted once more", permuted_again),
    ("a member of a component negated", negated),
    ("a part of a component permuted", part_permuted),
    ("two sites exchanged", exchanged),
    ("two components changed", two_components),
    ("an idle site changed", idle_changed),
    ("what moved is pinned", moved_pinned),
    ("the reference site changed", reference_changed),
    ("another reference site", other_reference),
    ("the other mode", other_mode),
    ("after before before", turned_round),
    ("any spins", any_spins),
];

fn nothing_moves(_: &mut Rand, pair: &mut Vendored) {
    pair.after = pair.before.clone();
}

fn flip(pair: &mut Vendored, k: usize, i: usize) {
    let spin = &mut pair.after[k * pair.n + i];
    *spin = -*spin;
}

fn member(rand: &mut Rand, pair: &Vendored) -> usize {
    rand.range(0, pair.members - 1)
}

fn one_spin(rand: &mut Rand, pair: &mut Vendored) {
    let (k, i) = (member(rand, pair), rand.range(0, pair.n - 1));
    flip(pair, k, i);
}

/// The sites of a component that acts, if there is one.
fn acting(rand: &mut Rand, pair: &Vendored) -> Option<Vec<usize>> {
    let (labels, acts) = pair.components();
    let some: Vec<usize> = (0..pair.n).filter(|&i| acts[i]).collect();
    let number = match some.is_empty() {
        true => return None,
        false => labels[rand.pick(&some)],
    };
    Some((0..pair.n).filter(|&i| labels[i] == number).collect())
}

/// The spins after, at these sites, permuted by the mode's rule.
fn permute(rand: &mut Rand, pair: &mut Vendored, sites: &[usize]) {
    let (n, members) = (pair.n, pair.members);
    let p = rand.permutation(members);
    let gauge = |k: usize| match pair.mode == Mode::Gperm as u8 {
        true => pair.before[k * n + pair.reference],
        false => 1,
    };
    for &i in sites {
        let old: Vec<i8> = (0..members).map(|k| pair.after[k * n + i]).collect();
        for (k, &from) in p.iter().enumerate() {
            pair.after[k * n + i] = gauge(k) * gauge(from) * old[from];
        }
    }
}

fn permuted_again(rand: &mut Rand, pair: &mut Vendored) {
    if let Some(sites) = acting(rand, pair) {
        permute(rand, pair, &sites);
    }
}

fn negated(rand: &mut Rand, pair: &mut Vendored) {
    let k = member(rand, pair);
    let sites = acting(rand, pair).unwrap_or_default();
    sites.iter().for_each(|&i| flip(pair, k, i));
}

fn part_permuted(rand: &mut Rand, pair: &mut Vendored) {
    let mut sites = acting(rand, pair).unwrap_or_default();
    sites.retain(|_| rand.once_in(2));
    permute(rand, pair, &sites);
}

fn exchanged(rand: &mut Rand, pair: &mut Vendored) {
    let (i, j) = (rand.range(0, pair.n - 1), rand.range(0, pair.n - 1));
    for k in 0..pair.members {
        pair.after.swap(k * pair.n + i, k * pair.n + j);
    }
}

/// Two that act, or one twice: the smaller number is at fault, if any is.
fn two_components(rand: &mut Rand, pair: &mut Vendored) {
    for _ in 0..2 {
        let change = rand.pick(&[permuted_again, negated, part_permuted]);
        change(rand, pair);
    }
}

fn idle_changed(rand: &mut Rand, pair: &mut Vendored) {
    let (_, acts) = pair.components();
    let idle: Vec<usize> = (0..pair.n).filter(|&i| !acts[i]).collect();
    if idle.is_empty() {
        return;
    }
    let (i, k) = (rand.pick(&idle), member(rand, pair));
    match rand.once_in(2) {
        true => flip(pair, k, i),
        false => (0..pair.members).for_each(|k| flip(pair, k, i)),
    }
}

/// A pin on a component that is another after the move: it is at fault, though a permutation makes it.
fn moved_pinned(rand: &mut Rand, pair: &mut Vendored) {
    let (n, members) = (pair.n, pair.members);
    let same = |i: usize| (0..members).all(|k| pair.after[k * n + i] == pair.before[k * n + i]);
    let changed: Vec<usize> = (0..n).filter(|&i| !same(i)).collect();
    if changed.is_empty() {
        return;
    }
    let (labels, _) = pair.components();
    let number = labels[rand.pick(&changed)];
    let sites: Vec<usize> = (0..n).filter(|&i| labels[i] == number).collect();
    pair.pins[rand.pick(&sites)] = 1;
}

/// In perm it is a site like any other.
fn reference_changed(rand: &mut Rand, pair: &mut Vendored) {
    let k = member(rand, pair);
    if pair.reference < pair.n {
        let i = pair.reference;
        flip(pair, k, i);
    }
}

fn other_reference(rand: &mut Rand, pair: &mut Vendored) {
    pair.reference = rand.range(0, pair.n - 1);
}

fn other_mode(rand: &mut Rand, pair: &mut Vendored) {
    pair.mode = Mode::Perm as u8 + Mode::Gperm as u8 - pair.mode;
    other_reference(rand, pair);
}

/// The inverse permutations lead back, and the same sites act.
fn turned_round(_: &mut Rand, pair: &mut Vendored) {
    std::mem::swap(&mut pair.before, &mut pair.after);
}

fn any_spins(rand: &mut Rand, pair: &mut Vendored) {
    pair.after = make::spins(rand, pair.n, pair.members);
}
