//! Refusals in the table's order, and what a sweep reads, writes and counts, worked by hand.
mod common;

use calls::Answer;
use common::*;

use calls::Form::{Observe, Sw, Wolff};
use calls::Mode::{Cmr, Gperm, Jorg, Pair, Perm};

#[test]
fn refusals_of_single_moves() {
    let idle = perms(call(Perm, Wolff, L2, &["++", "++"]), &[1, 0]);
    answers(&seed(idle.clone(), 1), Answer::Idle);
    refused(&seed(idle.clone(), 2), 10);
    refused(&perms(idle.clone(), &[0, 1]), 9);
    refused(&seed(perms(idle, &[0, 1]), 2), 9);
    let pair = call(Pair, Wolff, R3, &["+++", "-++"]);
    refused(&seed(pair.clone(), 1), 10);
    moved(&pair, &["-++", "+++"]);
    let mut other = call(Pair, Sw, L1, &["+", "-", "+"]);
    other.group = vec![0, 1];
    other.lent.spins[2] = 0;
    answers(&other, Answer::Moved); // since 12/14: the move does not name it
    other.group = vec![0, 2];
    refused(&other, 3);
    let mut few = call(Pair, Sw, L1, &["+", "-"]);
    few.panel.of_one_team(1);
    few.lent.spins = vec![1];
    refused(&few, 5);
    let jorg = call(Jorg, Sw, L1, &["+", "-"]);
    for (temperature, cut, coupling, number) in [
        (f32::NAN, 0.0, 0, 7),
        (1.0, f32::NAN, 0, 8),
        (1.0, f32::INFINITY, 0, 8),
        (1.0, -1.0, 0, 8),
        (0.0, f32::NAN, 1_000_001, 6),
        (1.0, 0.0, i32::MIN, 6),
        (2_000_000.0, f32::NAN, 0, 7),
    ] {
        refused(
            &drawn(jorg.clone(), &[coupling], temperature, &[cut]),
            number,
        );
    }
    for coupling in [1_000_000, -1_000_000] {
        answers(
            &drawn(jorg.clone(), &[coupling], 1.0, &[-0.0]),
            Answer::Moved,
        );
    }
    refused(&flips(jorg, &[2]), 9);
    refused(&call(Cmr, Observe, L1, &["+", "+", "+"]), 1);
    refused(&call(Perm, Observe, L1, &["+"; 9]), 1);
    refused(&reference(call(Gperm, Observe, L1, &["+", "-"]), 1), 9);
}

#[test]
fn refusals_of_sweeps() {
    let mut good = sweep(Jorg, Wolff, 1, &["+", "-", "+", "-"]);
    good.panel.couplings = vec![1];
    assert_eq!(run_sweep(&good).0, swept(0, 2, 0));
    let mut tasks_first = good.clone();
    tasks_first.choices.cuts = vec![0.0, f32::NAN];
    tasks_first.seeds = vec![1, 0];
    sweep_refused(&tasks_first, 10);
    let mut mask_first = good.clone();
    mask_first.masks = vec![2];
    mask_first.choices.cuts = vec![f32::NAN, 0.0];
    sweep_refused(&mask_first, 9);
    mask_first.temperatures = vec![f32::NAN];
    sweep_refused(&mask_first, 7);
    let mut wrapped = good.clone();
    wrapped.panel.of_one_team(2);
    (wrapped.t, wrapped.r) = ((1 << 63) + 1, 2);
    sweep_refused(&wrapped, 1);
    let mut twice = good.clone();
    twice.order = vec![0, 1, 2, 2];
    sweep_refused(&twice, 5);
    let mut late = sweep(Pair, Sw, 1, &["+", "-", "+", "-"]);
    late.choices.flips = vec![0, 2];
    sweep_refused(&late, 9);
    let mut few = good;
    (few.t, few.r) = (4, 1);
    sweep_refused(&few, 1);
}

#[test]
fn masked_tasks_are_left_alone() {
    let mut case = sweep(Jorg, Wolff, 2, &["+", "-", "+", "-"]);
    case.panel.couplings = vec![1];
    case.masks = vec![1, 0];
    case.choices.cuts[0] = f32::NAN;
    case.seeds[0] = 9;
    let (answer, lent) = run_sweep(&case);
    assert_eq!(answer, swept(0, 1, 0));
    assert_eq!(lent.labels, [9, 0]);
    assert_eq!(lent.counts, [9, 9, 0, 1]);
    assert_eq!(lent.sizes, [9, 9, 9, 9, 1, 0, 0, 0]);
    assert_eq!(lent.found, [9, 1]);
    assert_eq!(lent.spins, spins(&["+", "-", "-", "+"]));
    case.temperatures[0] = f32::NAN;
    sweep_refused(&case, 7);
    case.temperatures[0] = 1.0;
    case.masks = vec![1, 1];
    let none = swept(0, 0, 0);
    assert_eq!(run_sweep(&case), (none, case.lent.clone()));
}

#[test]
fn a_choice_of_nothing_counts_as_moved() {
    let acting = sweep(Perm, Sw, 1, &["+", "-", "+", "+"]);
    let one_each = swept(1, 1, 0);
    assert_eq!(run_sweep(&acting), (one_each, run_sweep(&acting).1));
    assert_eq!(run_sweep(&acting).1.spins, acting.lent.spins);
}
