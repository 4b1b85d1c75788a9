//! Request 5/14 by hand: who is a member, what moves, and what is refused.
mod common;

use calls::Form::{Grow, Observe, Sw, Wolff};
use calls::Mode::{Cmr, Gperm, Houd, Jorg, Pair, Perm};
use calls::{Answer, Form, Mode};
use common::*;
use tsorvenk_runs::case::{Lent, Single};
use tsorvenk_runs::grown;
use tsorvenk_runs::model::Model;
use tsorvenk_runs::port;

const R4: &[u32] = &[1, 2, 3, 0];

/// Moves, with these members and these spins after it; Wolff's call moves alike.
fn grows(case: &Single, members: &[u8], rows: &[&str]) {
    let lent = moved(case, rows);
    assert_eq!(lent.member_sites, members, "{case:?}");
    as_wolff(case);
}

fn as_wolff(case: &Single) {
    assert_eq!(grown::single(case, &mut Model), None, "{case:?}");
    if let Some(mut port) = port::linked() {
        assert_eq!(grown::single(case, port.as_mut()), None, "{case:?}");
    }
}

#[test]
fn members_are_joined_to_the_seed() {
    for mode in [Houd, Pair] {
        let case = call(mode, Grow, R4, &["++++", "-+--"]);
        for at in [0, 2, 3] {
            grows(&seed(case.clone(), at), &[1, 0, 1, 1], &["-+--", "++++"]);
        }
        refused(&seed(case, 1), 10);
    }
    let two = perms(call(Perm, Grow, R4, &["++++", "-++-", "++++"]), &[1, 2, 0]);
    grows(&two, &[1, 0, 0, 1], &["-++-", "++++", "++++"]);
    let apart = perms(call(Perm, Grow, R4, &["++++", "-+-+", "++++"]), &[1, 2, 0]);
    grows(&apart, &[1, 0, 0, 0], &["-+++", "++-+", "++++"]);
    grows(&seed(apart, 2), &[0, 0, 1, 0], &["++-+", "-+++", "++++"]);
    // gauged by site 0, where the systems differ, the sites act where they agree
    let gperm = perms(call(Gperm, Grow, R4, &["++++", "-++-"]), &[1, 0]);
    grows(&seed(gperm, 1), &[0, 1, 1, 0], &["+--+", "----"]);
}

#[test]
fn a_site_alone_is_a_member() {
    for mode in [Houd, Pair] {
        grows(&call(mode, Grow, L1, &["+", "-"]), &[1], &["-", "+"]);
    }
    let alone = call(Pair, Grow, R3, &["+++", "+-+"]);
    grows(&seed(alone, 1), &[0, 1, 0], &["+-+", "+++"]);
}

/// The bond behind a site is judged by the coupling and the cut of its own entry.
#[test]
fn bonds_are_judged_by_their_own_entries() {
    let case = call(Jorg, Grow, R3, &["+++", "---"]);
    // bond 0 leads from site 0 to site 1, bond 2 from site 2 to site 0
    let first = drawn(case.clone(), &[1, 0, 0], 1.0, &[3.0, 0.0, 0.0]);
    grows(&first, &[1, 1, 0], &["--+", "++-"]);
    let last = drawn(case.clone(), &[0, 0, 1], 1.0, &[0.0, 0.0, 3.0]);
    grows(&last, &[1, 0, 1], &["-+-", "+-+"]);
    let equal = drawn(case, &[0, 0, 1], 1.0, &[0.0, 0.0, 4.0]);
    grows(&equal, &[1, 0, 0], &["-++", "+--"]);
}

#[test]
fn cmr_grows_blue_then_grey() {
    // a red bond: blue is site 0 alone, and both are members
    let red = drawn(
        call(Cmr, Grow, L2, &["++", "+-"]),
        &[5, 0],
        4.0,
        &[2.0, 2.0],
    );
    grows(&greys(red.clone(), &[1]), &[1, 1], &["+-", "--"]);
    grows(&greys(red.clone(), &[2]), &[1, 1], &["-+", "++"]);
    grows(&greys(red.clone(), &[3]), &[1, 1], &["+-", "++"]);
    let uncut = drawn(red, &[5, 0], 4.0, &[2.5, 2.5]);
    grows(&greys(uncut, &[1]), &[1, 0], &["++", "--"]);
    // 0 and 1 are blue; red leads on from site 1, to which the seed has no red bond, and blue from there
    let on = call(Cmr, Grow, R4, &["++++", "++--"]);
    let on = drawn(on, &[1, 1, 1, 0], 1.0, &[0.0; 4]);
    grows(&greys(on.clone(), &[2]), &[1, 1, 1, 1], &["--++", "++++"]);
    let cut = drawn(on, &[1, 1, 1, 0], 1.0, &[0.0, 2.0, 0.0, 0.0]);
    grows(&greys(cut, &[2]), &[1, 1, 0, 0], &["--++", "++--"]);
}

#[test]
fn idle_has_no_members() {
    let idle = call(Pair, Grow, R3, &["++-", "++-"]);
    for at in 0..3 {
        let (answer, lent) = run(&seed(idle.clone(), at));
        assert_eq!((answer, lent.member_sites), (Answer::Idle, vec![0; 3]));
        as_wolff(&seed(idle.clone(), at));
    }
    refused(&seed(idle, 3), 10);
}

#[test]
fn refusals_are_those_of_wolff() {
    let perm = call(Perm, Grow, R3, &["+++", "-++"]);
    refused(&perm, 9); // the identity
    let good = perms(perm.clone(), &[1, 0]);
    answers(&good, Answer::Moved);
    refused(&seed(good.clone(), 1), 10);
    refused(&seed(perms(perm, &[1, 1]), 3), 9);
    let cmr = call(Cmr, Grow, L1, &["+", "+"]);
    for (number, grey) in [(9, 0), (9, 4)] {
        refused(&greys(cmr.clone(), &[grey]), number);
    }
    refused(&greys(cmr, &[]), 2);
    let jorg = call(Jorg, Grow, L1, &["+", "-"]);
    refused(&drawn(jorg, &[1], 1.0, &[f32::NAN]), 8);
    for length in [0, 2, 4] {
        let mut case = good.clone();
        case.lent.member_sites = vec![9; length];
        refused(&case, 2);
        case.lent.spins[0] = 0; // the lengths come first
        refused(&case, 2);
        case.panel.n = 0;
        refused(&case, 1);
    }
}

/// Every output of the other forms, at lengths that they would refuse.
fn odd_outputs(case: &mut Single, length: usize) {
    case.lent.labels = vec![7; length];
    case.lent.grey_labels = vec![7; length];
    case.lent.counts = vec![7; length];
    case.lent.sizes = vec![7; length];
    case.lent.found = vec![7; length];
    case.lent.grey_found = vec![7; length];
}

#[test]
fn what_is_not_taken_is_left_alone() {
    let rows = ["+++", "-++"];
    let after = |mode: Mode, form: Form, case: Single| {
        let (answer, lent) = run(&case);
        assert_eq!(answer, Answer::Moved, "{mode:?} {form:?}");
        lent
    };
    for mode in [Houd, Pair, Perm, Jorg, Cmr] {
        let taken = |form: Form| match (mode, form) {
            (Perm, Wolff | Grow) => perms(call(mode, form, R3, &rows), &[1, 0]),
            _ => call(mode, form, R3, &rows),
        };
        for length in [0, 3, 4, 5] {
            let mut case = taken(Grow);
            odd_outputs(&mut case, length);
            let Lent {
                labels,
                counts,
                found,
                ..
            } = after(mode, Grow, case.clone());
            for output in [labels, counts, found] {
                assert_eq!(output, vec![7; length]);
            }
        }
        for form in [Sw, Wolff, Observe] {
            for length in [0, 2, 3, 4] {
                let mut case = taken(form);
                case.lent.member_sites = vec![7; length];
                // the Rust's outputs have no members: they are compared without
                let (answer, lent) = case.run(&mut Model);
                assert_eq!(answer, Answer::Moved);
                assert_eq!(lent.member_sites, vec![7; length]);
                if let Some(mut port) = port::linked() {
                    assert_eq!((answer, lent), case.run(port.as_mut()));
                }
            }
        }
    }
}

#[test]
fn a_sweep_writes_the_members_of_unmasked_tasks() {
    let mut case = sweep(Pair, Grow, 3, &["+", "-", "+", "-", "+", "+"]);
    assert_eq!(case.lent.member_sites.len(), 3);
    case.masks = vec![0, 1, 0];
    let (answer, lent) = run_sweep(&case);
    assert_eq!(answer, swept(1, 1, 0));
    assert_eq!(lent.member_sites, [1, 9, 0]);
    assert_eq!(lent.spins, spins(&["-", "+", "+", "-", "+", "+"]));
    assert_eq!(grown::swept(&case, &mut Model), None);
    for length in [2, 4] {
        case.lent.member_sites = vec![9; length];
        sweep_refused(&case, 2);
    }
    case.lent.member_sites = vec![9; 3];
    case.seeds = vec![0, 0, 1];
    sweep_refused(&case, 10);
    case.seeds = vec![0, 1, 0]; // a masked task's is not looked at
    assert_eq!(run_sweep(&case).1, lent);
}
