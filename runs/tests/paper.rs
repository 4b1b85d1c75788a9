//! Document 01's rows and the slips it names, with answers worked by hand.
mod common;

use calls::{Answer, MeterAnswer, Port};
use common::*;
use published_patched::Branch;
use tsorvenk_runs::case::{Bonds, Lent, Single};
use tsorvenk_runs::model::Model;
use tsorvenk_runs::port;

use calls::Form::{Grow, Observe, Sw, Wolff};
use calls::Mode::{Cmr, Gperm, Houd, Jorg, Pair, Perm};

#[test]
fn rows_1_to_4_who_acts() {
    let one = |mode, rows: &[&str]| run(&call(mode, Observe, L1, rows)).0;
    let (idle, moved) = (Answer::Idle, Answer::Moved);
    let row = |rows: &[&str]| (one(Houd, rows), one(Pair, rows), one(Perm, rows));
    assert_eq!(row(&["+", "+", "-", "-"]), (moved, idle, moved));
    assert_eq!(row(&["+", "+", "+", "-"]), (idle, moved, moved));
    assert_eq!(row(&["+", "+", "-"]), (idle, idle, moved));
    answers(&call(Gperm, Observe, I2, &["+-", "-+"]), idle);
    answers(&call(Gperm, Observe, I2, &["++", "-+"]), moved);
}

#[test]
fn rows_5_to_7_permutations() {
    let one = perms(call(Perm, Wolff, L1, &["+", "-", "-"]), &[2, 0, 1]);
    moved(&one, &["-", "+", "-"]);
    let gauged = perms(call(Gperm, Sw, I2, &["++", "-+"]), &[1, 0, 1, 0]);
    moved(&gauged, &["+-", "--"]);
    let p = perms(call(Perm, Sw, L1, &["+", "-", "-"]), &[1, 2, 0]);
    let first = run(&p).1.spins;
    let mut q = perms(p.clone(), &[1, 0, 2]);
    q.lent.spins = first;
    let both = run(&q).1.spins;
    let at_once = perms(p, &[2, 1, 0]);
    assert_eq!(both, run(&at_once).1.spins);
}

#[test]
fn rows_8_to_10_draws() {
    let jorg = call(Jorg, Observe, L2, &["++", "--"]);
    labels(&drawn(jorg.clone(), &[3, 0], 2.0, &[5.5, 0.0]), &[0, 0]);
    labels(&drawn(jorg.clone(), &[3, 0], 2.0, &[6.0, 0.0]), &[0, 1]);
    labels(&drawn(jorg, &[-3, 0], 2.0, &[0.0, 0.0]), &[0, 1]);
    let red = call(Cmr, Sw, L2, &["++", "+-"]);
    let grey = |case: &Single| run(case).1.grey_labels;
    let held = drawn(red.clone(), &[5, 0], 4.0, &[2.0, 2.0]);
    assert_eq!(grey(&held), [0, 0]);
    labels(&held, &[0, 1]);
    assert_eq!(grey(&drawn(red, &[0, 0], 4.0, &[2.0, 2.0])), [0, 1]);
    let blue = call(Cmr, Observe, L2, &["+-", "-+"]);
    labels(&drawn(blue, &[-2, 0], 4.0, &[1.5, 0.0]), &[0, 0]);
}

fn energy(case: &Single, system: usize) -> MeterAnswer {
    let answer = Model.energy(case.meter(system));
    if let Some(mut port) = port::linked() {
        assert_eq!(answer, port.energy(case.meter(system)));
    }
    answer
}

#[test]
fn row_11_and_the_meter() {
    let meter = |fwd, rows: &[&str], couplings: &[i32], system| {
        let mut case = call(Houd, Observe, fwd, rows);
        case.panel.couplings = couplings.to_vec();
        energy(&case, system)
    };
    let ring = meter(R3, &["++-"], &[1, 2, -3], 0);
    assert_eq!(ring, MeterAnswer::Energy(-2));
    assert_eq!(meter(L1, &["-"], &[5], 0), MeterAnswer::Energy(-5));
    assert_eq!(meter(L2, &["+-"], &[3, 4], 0), MeterAnswer::Energy(7));
    assert_eq!(meter(L1, &["-"], &[i32::MIN], 1), MeterAnswer::Refused(5));
    assert_eq!(meter(L1, &["-"], &[i32::MIN], 0), MeterAnswer::Refused(6));
}

/// The definitions' row, which the published Rust still shows. Since 10/14 such a move is refused, and can be observed.
#[test]
fn row_12_houd_of_four_changes_a_bond_sum() {
    let rows = ["++", "++", "-+", "--"];
    let sum = |spins: &[i8]| spins.chunks(2).map(|row| row[0] * row[1]).sum::<i8>();
    assert_eq!(sum(&spins(&rows)), 2);
    for form in [Sw, Wolff, Grow] {
        refused(&call(Houd, form, L2, &rows), 15);
    }
    let observed = call(Houd, Observe, L2, &rows);
    labelled(&observed, &[0, 1], &[0, 1, 0], [1, 0, 0, 0]);
    if published_patched::PRESENT {
        let case = call(Houd, Wolff, L2, &rows);
        let mut after = case.lent.clone();
        published_patched::step(case.step(&mut after), Branch::UnionFind);
        assert_eq!(after.spins, spins(&["-+", "-+", "++", "+-"]));
        assert_eq!(sum(&after.spins), -2);
    }
}

#[test]
fn row_13_the_frame_case() {
    let frame = perms(call(Perm, Sw, R3, &["++-", "+--"]), &[1, 0, 1, 0, 1, 0]);
    let lent = moved(&frame, &["+--", "++-"]);
    assert_eq!(lent.labels, [0, 1, 2]);
    assert_eq!(lent.counts, [0, 1, 0, 0]); // 4/14: sites 0 and 2 do not act
    assert_eq!(lent.sizes, [1, 0, 0, 0]);
    let pair = flips(call(Pair, Sw, R3, &["++-", "+--"]), &[1, 1, 1]);
    moved(&pair, &["++-", "+--"]);
}

#[test]
fn single_sites_move_in_perm_only() {
    let rows = ["+", "-"];
    let lent = moved(&flips(call(Pair, Sw, L1, &rows), &[1]), &rows);
    assert_eq!(
        (lent.labels, lent.counts, lent.sizes),
        (vec![0], vec![0, 1], vec![1, 0, 0, 0])
    );
    moved(&perms(call(Perm, Sw, L1, &rows), &[1, 0]), &["-", "+"]);
    moved(&call(Pair, Wolff, L1, &rows), &["-", "+"]);
}

#[test]
fn labels_go_by_smallest_sites_both_ways() {
    let ring = call(Perm, Observe, R3, &["+++", "-+-"]);
    labelled(&ring, &[0, 1, 0], &[0, 0, 1, 0], [2, 0, 0, 0]);
    let late = call(Perm, Observe, &[3, 2, 0, 1], &["++++", "---+"]);
    labelled(&late, &[0, 0, 0, 1], &[0, 0, 0, 1, 0], [3, 0, 0, 0]);
    labels(
        &call(Perm, Observe, &[2, 0, 1], &["+++", "+--"]),
        &[0, 1, 1],
    );
    let four = call(Perm, Observe, &[0, 1, 2, 3], &["++++", "----"]);
    labelled(&four, &[0, 1, 2, 3], &[0, 4, 0, 0, 0], [1; 4]);
    let idle = call(Perm, Observe, L1, &["+", "+"]);
    labelled(&idle, &[0], &[0, 0], [0; 4]);
}

/// 4/14: what does not act is labelled, and not counted.
#[test]
fn acting_components_are_counted() {
    for mode in [Houd, Pair, Perm, Jorg] {
        let one = |rows: &[&str]| drawn(call(mode, Observe, L1, rows), &[0], 1.0, &[0.0]);
        labelled(&one(&["+", "+"]), &[0], &[0, 0], [0; 4]);
        labelled(&one(&["+", "-"]), &[0], &[0, 1], [1, 0, 0, 0]);
        let two = |rows: &[&str]| drawn(call(mode, Observe, I2, rows), &[0; 2], 1.0, &[0.0; 2]);
        labelled(&two(&["++", "+-"]), &[0, 1], &[0, 1, 0], [1, 0, 0, 0]);
        labelled(&two(&["++", "--"]), &[0, 1], &[0, 2, 0], [1, 1, 0, 0]);
    }
    // gperm: the reference site never acts
    let gauged = |rows: &[&str]| call(Gperm, Observe, I2, rows);
    labelled(&gauged(&["++", "--"]), &[0, 1], &[0, 0, 0], [0; 4]);
    labelled(&gauged(&["++", "+-"]), &[0, 1], &[0, 1, 0], [1, 0, 0, 0]);
    // CMR: every site takes part
    let cmr = |rows: &[&str]| drawn(call(Cmr, Observe, I2, rows), &[0; 2], 1.0, &[0.0; 2]);
    labelled(&cmr(&["++", "++"]), &[0, 1], &[0, 2, 0], [1, 1, 0, 0]);
    // in one call: a pair that acts, a single that acts, and two sites that do not
    let mixed = call(Pair, Observe, &[1, 0, 2, 3, 4], &["+++++", "--++-"]);
    labelled(&mixed, &[0, 0, 1, 2, 3], &[0, 1, 1, 0, 0, 0], [2, 1, 0, 0]);
}

/// "Two or more sites" is of a component's sites, not of what is counted: here one pair acts and moves, and no single is counted.
#[test]
fn flips_go_by_component_sizes() {
    let pair = flips(call(Pair, Sw, R3, &["+++", "--+"]), &[1, 0, 1]);
    let lent = moved(&pair, &["--+", "+++"]);
    assert_eq!(
        (lent.labels, lent.counts, lent.sizes),
        (vec![0, 0, 1], vec![0, 0, 1, 0], vec![2, 0, 0, 0])
    );
    let single = flips(call(Pair, Sw, R3, &["+++", "-++"]), &[1, 1, 1]);
    let lent = moved(&single, &["+++", "-++"]);
    assert_eq!(
        (lent.counts, lent.sizes),
        (vec![0, 1, 0, 0], vec![1, 0, 0, 0])
    );
}

/// The labelling's own entry: the byte at a component's smallest site decides.
#[test]
fn labelled_components_are_counted_by_their_smallest_sites() {
    let two = |counted: &[u8]| Bonds {
        n: 3,
        d: 1,
        fwd: R3.to_vec(),
        holds: vec![0, 1, 0],
        counted: counted.to_vec(),
        lent: Lent {
            labels: vec![9; 3],
            counts: vec![9; 4],
            sizes: vec![9; 4],
            found: vec![9],
            ..Lent::default()
        },
    };
    let counted = |bytes: &[u8], counts: &[u32], sizes: [u32; 4]| {
        let (code, lent) = run_bonds(&two(bytes));
        assert_eq!((code, lent.labels, lent.found), (0, vec![0, 1, 1], vec![2]));
        assert_eq!((lent.counts, lent.sizes), (counts.to_vec(), sizes.to_vec()));
    };
    counted(&[1, 1, 1], &[0, 1, 1, 0], [2, 1, 0, 0]);
    counted(&[1, 1, 0], &[0, 1, 1, 0], [2, 1, 0, 0]);
    counted(&[0, 1, 0], &[0, 0, 1, 0], [2, 0, 0, 0]);
    counted(&[1, 0, 1], &[0, 1, 0, 0], [1, 0, 0, 0]);
    counted(&[0, 0, 1], &[0, 0, 0, 0], [0; 4]);
    for (bytes, number) in [(vec![1, 1, 2], 9), (vec![1, 1], 2), (vec![255; 4], 2)] {
        let case = two(&bytes);
        assert_eq!(run_bonds(&case), (number, case.lent.clone()));
    }
}

#[test]
fn choices_stand_at_numbers() {
    let ring = call(Perm, Sw, R3, &["+++", "+--"]);
    moved(&perms(ring, &[0, 1, 1, 0, 0, 1]), &["+--", "+++"]);
    let apart = call(Perm, Sw, I2, &["++", "--"]);
    moved(&perms(apart, &[1, 0, 0, 1]), &["-+", "+-"]);
    let cmr = drawn(
        call(Cmr, Sw, R3, &["+++", "+--"]),
        &[5, 5, 0],
        4.0,
        &[2.0, 2.0, 0.0],
    );
    let cmr = greys(flips(cmr, &[0, 1, 0]), &[2, 0, 1]);
    let lent = moved(&cmr, &["+--", "---"]);
    assert_eq!(
        (lent.labels, lent.grey_labels, lent.counts),
        (vec![0, 1, 1], vec![0, 0, 0], vec![0, 1, 1, 0])
    );
}

#[test]
fn double_bonds_and_strengths() {
    let double = drawn(
        call(Jorg, Sw, L2, &["++", "--"]),
        &[1, 1],
        2.0,
        &[100.0, 0.5],
    );
    let lent = moved(&flips(double, &[1, 0]), &["--", "++"]);
    assert_eq!((lent.labels, lent.counts), (vec![0, 0], vec![0, 0, 1]));
    let rows = ["++", "-+", "++", "+-"];
    let lent = moved(
        &flips(call(Pair, Sw, L2, &rows), &[1, 0]),
        &["-+", "++", "+-", "++"],
    );
    assert_eq!(lent.labels, [0, 0]);
    let jorg = drawn(call(Jorg, Sw, L2, &rows), &[9, 9], 1.0, &[0.0, 0.0]);
    let lent = moved(&flips(jorg, &[1, 1]), &rows);
    assert_eq!(lent.labels, [0, 1]);
    let cancelled = call(Jorg, Observe, L2, &["++", "--", "+-", "-+"]);
    labels(&drawn(cancelled, &[9, 9], 1.0, &[0.0; 2]), &[0, 1]);
    let negative = call(Jorg, Observe, L2, &["+-", "-+"]);
    labels(&drawn(negative, &[-3, 0], 2.0, &[5.5, 0.0]), &[0, 0]);
}

#[test]
fn draws_are_rounded_once() {
    let jorg = call(Jorg, Observe, L2, &["++", "--"]);
    let near = f32::from_bits(0x40d5_5555);
    labels(&drawn(jorg.clone(), &[3, 0], 3.0, &[4.0, 0.0]), &[0, 1]);
    labels(&drawn(jorg.clone(), &[5, 0], 3.0, &[near, 0.0]), &[0, 0]);
    labels(&drawn(jorg, &[5, 0], 3.0, &[-0.0, 0.0]), &[0, 0]);
}

#[test]
fn gperm_reads_its_reference() {
    let rows = ["++", "-+"];
    let swap = perms(call(Gperm, Sw, L2, &rows), &[1, 0, 1, 0]);
    moved(&reference(swap.clone(), 0), &["+-", "--"]);
    moved(&reference(swap, 1), &["-+", "++"]);
}

#[test]
fn cmr_colours() {
    let red = drawn(call(Cmr, Sw, L2, &["++", "+-"]), &[-5, 0], 4.0, &[2.0, 2.0]);
    let lent = moved(&greys(flips(red, &[1, 1]), &[1, 0]), &["--", "+-"]);
    assert_eq!((lent.labels, lent.grey_labels), (vec![0, 1], vec![0, 0]));
    let neither = drawn(call(Cmr, Sw, L2, &["++", "++"]), &[-5, -5], 4.0, &[0.0; 2]);
    assert_eq!(run(&neither).1.grey_labels, [0, 1]);
    let before = drawn(call(Cmr, Sw, R3, &["++-", "++-"]), &[1; 3], 4.0, &[0.5; 3]);
    let lent = moved(
        &greys(flips(before, &[1, 0, 0]), &[1, 0, 0]),
        &["++-", "---"],
    );
    assert_eq!(
        (lent.labels, lent.grey_labels),
        (vec![0, 0, 1], vec![0, 0, 1])
    );
    let one = call(Cmr, Wolff, L1, &["+", "+"]);
    moved(&greys(one.clone(), &[3]), &["+", "+"]);
    moved(&greys(one, &[1]), &["+", "-"]);
    moved(
        &greys(flips(call(Cmr, Sw, L1, &["+", "+"]), &[1]), &[3]),
        &["+", "+"],
    );
    answers(&call(Cmr, Observe, L2, &["++", "++"]), Answer::Moved);
}
