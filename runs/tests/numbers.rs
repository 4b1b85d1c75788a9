//! Request 7/14 by hand: which number a component has, how many there are, whose choice an entry is, and what is refused.
mod common;

use calls::Form::{Grow, Observe, Sw, Wolff};
use calls::Mode::{Cmr, Gperm, Houd, Jorg, Pair, Perm};
use calls::{Answer, Form, Mode};
use common::*;
use tsorvenk_runs::case::{Bonds, Lent, Single, Swept};

/// Sites 0 and 1 are each other's neighbours, and so are 2 and 3; site 4 is its own.
const TWO_PAIRS: &[u32] = &[1, 0, 3, 2, 4];

/// 0 and 3, 1 and 4, and 2 alone: the order of smallest sites is not that of the components' last ones.
const CROSSED: &[u32] = &[3, 4, 2, 0, 1];

/// The labels, and how many components there are.
fn numbers(case: &Single, labels: &[u32], found: u32) {
    let lent = run(case).1;
    assert_eq!(
        (lent.labels, lent.found),
        (labels.to_vec(), vec![found]),
        "{case:?}"
    );
}

#[test]
fn numbers_follow_the_smallest_sites() {
    for form in [Sw, Wolff, Observe] {
        for mode in [Houd, Pair] {
            let case = |fwd, rows: &[&str]| call(mode, form, fwd, rows);
            numbers(&case(TWO_PAIRS, &["+++++", "-----"]), &[0, 0, 1, 1, 2], 3);
            numbers(&case(CROSSED, &["+++++", "-----"]), &[0, 1, 2, 0, 1], 3);
            numbers(&case(R3, &["+++", "---"]), &[0, 0, 0], 1);
            numbers(&case(L1, &["+", "-"]), &[0], 1);
        }
    }
    // the ring closes behind its last site: all that act are one component, and 1 comes second
    let ring = call(Perm, Observe, &[1, 2, 3, 4, 0], &["+++++", "-+---"]);
    numbers(&ring, &[0, 1, 0, 0, 0], 2);
    let apart = call(Perm, Observe, &[1, 2, 3, 4, 5, 0], &["++++++", "-+--+-"]);
    numbers(&apart, &[0, 1, 2, 2, 3, 0], 4);
}

/// What does not act has a number of its own, and is found but not counted.
#[test]
fn idle_sites_are_numbered() {
    // docs/DIFFERENCES.md: the Rust's roots are 1, 1, 2
    let gap = call(Perm, Observe, &[2, 0, 1], &["+++", "--+"]);
    numbers(&gap, &[0, 0, 1], 2);
    labelled(&gap, &[0, 0, 1], &[0, 0, 1, 0], [2, 0, 0, 0]);
    let mixed = call(Pair, Observe, TWO_PAIRS, &["+++++", "++--+"]);
    labelled(&mixed, &[0, 1, 2, 2, 3], &[0, 0, 1, 0, 0, 0], [2, 0, 0, 0]);
    numbers(&mixed, &[0, 1, 2, 2, 3], 4);
    for form in [Sw, Observe] {
        let idle = call(Pair, form, R3, &["+++", "+++"]);
        answers(&idle, Answer::Idle);
        numbers(&idle, &[0, 1, 2], 3);
    }
    let seeded = call(Pair, Wolff, R3, &["+++", "+++"]);
    numbers(&seeded, &[0, 1, 2], 3);
}

/// Blue and grey components have numbers of their own.
#[test]
fn grey_ones_are_numbered_too() {
    // blue joins 0 and 1, red 2 and 3, nothing site 4
    let rows = ["+++++", "+++-+"];
    let cmr = |form: Form| {
        let case = call(Cmr, form, TWO_PAIRS, &rows);
        drawn(case, &[9, 0, 9, 0, 0], 1.0, &[0.0; 5])
    };
    for form in [Sw, Wolff] {
        let lent = run(&cmr(form)).1;
        assert_eq!((lent.labels, lent.found), (vec![0, 0, 1, 2, 3], vec![4]));
        assert_eq!(
            (lent.grey_labels, lent.grey_found),
            (vec![0, 0, 1, 1, 2], vec![3])
        );
    }
    // to observe takes no grey ones
    let mut observed = cmr(Observe);
    observed.lent.grey_found = vec![7; 3];
    let lent = run(&observed).1;
    assert_eq!((lent.found, lent.grey_found), (vec![4], vec![7; 3]));
}

#[test]
fn an_entry_is_its_numbers_choice() {
    let rows = ["+++++", "-----"];
    let pairs = |mode: Mode| call(mode, Sw, TWO_PAIRS, &rows);
    for mode in [Houd, Pair] {
        moved(&flips(pairs(mode), &[0, 1, 0, 0, 0]), &["++--+", "--++-"]);
        moved(&flips(pairs(mode), &[1, 0, 0, 0, 0]), &["--+++", "++---"]);
        // by the smallest site it would be the second pair's; number 2 is the single, which does not flip
        moved(&flips(pairs(mode), &[0, 0, 1, 1, 1]), &rows);
    }
    let turned = |row: usize| {
        let mut all = identities(10, 2);
        all[2 * row..2 * row + 2].copy_from_slice(&[1, 0]);
        perms(pairs(Perm), &all)
    };
    moved(&turned(1), &["++--+", "--++-"]);
    moved(&turned(2), &["++++-", "----+"]);
    moved(&turned(3), &rows);
    moved(&turned(4), &rows);
    // gauged by site 4, where the systems differ, 0 and 1 act: number 0. The others do not: 1, 2 and 3
    let gauged = call(Gperm, Sw, TWO_PAIRS, &["+++++", "++---"]);
    let gauged = |row: usize| {
        let mut all = identities(10, 2);
        all[2 * row..2 * row + 2].copy_from_slice(&[1, 0]);
        reference(perms(gauged.clone(), &all), 4)
    };
    moved(&gauged(0), &["--+++", "-----"]);
    for row in 1..5 {
        moved(&gauged(row), &["+++++", "++---"]);
    }
    // docs/DIFFERENCES.md: the second row is that of site 2, whose number is 1
    let behind = perms(
        call(Perm, Sw, &[1, 0, 2], &["+++", "---"]),
        &[0, 1, 1, 0, 0, 1],
    );
    let lent = moved(&behind, &["++-", "--+"]);
    assert_eq!((lent.labels, lent.found), (vec![0, 0, 1], vec![2]));
    let jorg = drawn(pairs(Jorg), &[1, 0, 1, 0, 0], 1.0, &[0.0; 5]);
    moved(&flips(jorg, &[0, 1, 0, 0, 0]), &["++--+", "--++-"]);
}

/// Blue choices are found by blue number, greys by grey number.
#[test]
fn greys_stand_at_grey_numbers() {
    // blue: 0, then 1 and 2, then 3; the red bond from 0 to 1 makes 0, 1 and 2 grey together
    let ring = &[1, 2, 0, 3];
    let case = |flip: &[u8], grey: &[u8]| {
        let case = call(Cmr, Sw, ring, &["++++", "+--+"]);
        let case = drawn(case, &[9, 9, 0, 0], 1.0, &[0.0; 4]);
        greys(flips(case, flip), grey)
    };
    let lent = moved(&case(&[0, 0, 0, 0], &[1, 0, 0, 0]), &["---+", "+--+"]);
    assert_eq!((lent.labels, lent.found), (vec![0, 1, 1, 2], vec![3]));
    assert_eq!(
        (lent.grey_labels, lent.grey_found),
        (vec![0, 0, 0, 1], vec![2])
    );
    moved(&case(&[0, 1, 0, 0], &[0, 0, 0, 0]), &["+--+", "++++"]);
    moved(&case(&[0, 1, 0, 0], &[2, 3, 3, 3]), &["+--+", "---+"]);
    // singles do not flip, and no component has the last numbers
    moved(&case(&[1, 0, 1, 1], &[0, 3, 3, 3]), &["++++", "+--+"]);
}

/// Entries that no component uses are tested all the same.
#[test]
fn unused_entries_are_tested() {
    let rows = ["+++", "---"];
    for entry in [1, 2] {
        let mut flip = [0; 3];
        flip[entry] = 2;
        refused(&flips(call(Pair, Sw, R3, &rows), &flip), 9);
        let mut all = identities(6, 2);
        all[2 * entry] = 1;
        refused(&perms(call(Perm, Sw, R3, &rows), &all), 9);
        let cmr = drawn(call(Cmr, Sw, R3, &["+++", "+++"]), &[9; 3], 1.0, &[0.0; 3]);
        assert_eq!(run(&cmr).1.found, [1]);
        refused(&flips(cmr.clone(), &flip), 9);
        let mut grey = [0; 3];
        grey[entry] = 4;
        refused(&greys(cmr, &grey), 9);
    }
}

#[test]
fn lengths_are_exact_where_they_are_taken() {
    for form in [Sw, Wolff, Observe] {
        let pair = call(Pair, form, R3, &["+++", "---"]);
        let cmr = call(Cmr, form, R3, &["+++", "---"]);
        for length in [0, 2, 3] {
            let mut case = pair.clone();
            case.lent.found = vec![9; length];
            refused(&case, 2);
            case.lent.spins[0] = 0; // the lengths come first
            refused(&case, 2);
            let mut case = cmr.clone();
            case.lent.grey_found = vec![9; length];
            match form {
                Observe => answers(&case, Answer::Moved),
                _ => refused(&case, 2),
            }
            // outside CMR nothing is grey
            let mut case = pair.clone();
            case.lent.grey_found = vec![9; length];
            assert_eq!(run(&case).1.grey_found, vec![9; length]);
        }
    }
    let mut grown = call(Pair, Grow, R3, &["+++", "---"]);
    for length in [0, 1, 4] {
        (grown.lent.found, grown.lent.grey_found) = (vec![9; length], vec![9; length]);
        let (answer, lent) = run(&grown);
        assert_eq!(answer, Answer::Moved);
        assert_eq!(
            (lent.found, lent.grey_found),
            (vec![9; length], vec![9; length])
        );
    }
}

/// Two sites apart at three temperatures, of which the second is masked; the systems differ as the rows say.
fn wide(mode: Mode, rows: &[&str]) -> Swept {
    let one = call(mode, Sw, L2, rows);
    let mut case = sweep(mode, Sw, 3, &["+", "-", "+", "-", "+", "-"]);
    let exact = tsorvenk_runs::model::lengths(mode, Sw, 2, 1, 2, 3);
    case.lent = Lent::filled(exact, one.lent.spins, 9, 9);
    case.panel = one.panel;
    case.choices.flips = vec![0; 6];
    case.choices.greys = vec![0; exact.greys.unwrap_or(0)];
    case.choices.cuts = vec![0.0; exact.cuts.unwrap_or(0)];
    case.masks = vec![0, 1, 0];
    case
}

#[test]
fn a_sweep_writes_one_number_a_task() {
    let mut case = wide(Pair, &["++", "--", "++", "--", "++", "-+"]);
    let lent = run_sweep(&case).1;
    assert_eq!(lent.labels, [0, 0, 9, 9, 0, 1]);
    assert_eq!(lent.found, [1, 9, 2]);
    for length in [0, 1, 2, 4] {
        case.lent.found = vec![9; length];
        sweep_refused(&case, 2);
    }
    // blue holds where the systems agree with themselves along the bond; in the third task red does
    let mut cmr = wide(Cmr, &["++", "++", "++", "++", "++", "+-"]);
    cmr.panel.couplings = vec![9, 0];
    let lent = run_sweep(&cmr).1;
    assert_eq!(
        (lent.found, lent.grey_found),
        (vec![1, 9, 2], vec![1, 9, 1])
    );
    for length in [0, 1, 2, 4] {
        cmr.lent.grey_found = vec![9; length];
        sweep_refused(&cmr, 2);
    }
}

#[test]
fn the_labelling_numbers_all_components() {
    let case = |holds: &[u8], counted: &[u8], found: usize| Bonds {
        n: 5,
        d: 1,
        fwd: TWO_PAIRS.to_vec(),
        holds: holds.to_vec(),
        counted: counted.to_vec(),
        lent: Lent {
            labels: vec![9; 5],
            counts: vec![9; 6],
            sizes: vec![9; 4],
            found: vec![9; found],
            ..Lent::default()
        },
    };
    let (code, lent) = run_bonds(&case(&[1, 0, 0, 1, 0], &[0, 0, 1, 0, 0], 1));
    assert_eq!((code, lent.found), (0, vec![3]));
    assert_eq!(lent.labels, [0, 0, 1, 1, 2]);
    assert_eq!(
        (lent.counts[..3].to_vec(), lent.sizes),
        (vec![0, 0, 1], vec![2, 0, 0, 0])
    );
    let (_, lent) = run_bonds(&case(&[0; 5], &[0; 5], 1));
    assert_eq!((lent.labels, lent.found), (vec![0, 1, 2, 3, 4], vec![5]));
    for length in [0, 2] {
        let wrong = case(&[1; 5], &[2; 5], length);
        assert_eq!(run_bonds(&wrong), (2, wrong.lent.clone()));
    }
}
