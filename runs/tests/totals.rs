//! Request 6/14 by hand: what becomes of a total, which calls take them, and what is refused.
mod common;

use calls::Form::{Grow, Observe, Sw, Wolff};
use calls::Mode::{Cmr, Gperm, Houd, Jorg, Pair, Perm};
use calls::{Answer, Form, Keeps, MeterAnswer, Mode, Port};
use common::*;
use tsorvenk_runs::case::{Single, Swept};
use tsorvenk_runs::model::{energies, Model};
use tsorvenk_runs::port;

const MOST: i64 = 16_384_000_000;

/// The same call, which keeps these totals on these couplings.
fn keeping(mut case: Single, couplings: &[i32], totals: &[i64]) -> Single {
    case.panel.keeps = Keeps::Totals;
    case.panel.couplings = couplings.to_vec();
    case.lent.totals = totals.to_vec();
    case
}

fn sweep_keeping(mut case: Swept, couplings: &[i32], totals: &[i64]) -> Swept {
    case.panel.keeps = Keeps::Totals;
    case.panel.couplings = couplings.to_vec();
    case.lent.totals = totals.to_vec();
    case
}

/// Moves to these rows and these totals, which are right before the move and after it.
fn brings(case: &Single, rows: &[&str], totals: &[i64]) {
    let mut right = case.clone();
    right.lent.totals = energies(&case.panel, &case.lent.spins);
    let lent = moved(&right, rows);
    assert_eq!(lent.totals, totals, "{case:?}");
    assert_eq!(lent.totals, energies(&case.panel, &lent.spins), "{case:?}");
}

/// What the model and the port answer to a hand-over, which must agree.
fn handed(case: &Single) -> u8 {
    let number = Model.hand_over(case.panel.hand_over(&case.lent));
    if let Some(mut port) = port::linked() {
        let theirs = port.hand_over(case.panel.hand_over(&case.lent));
        assert_eq!(number, theirs, "{case:?}");
    }
    number
}

#[test]
fn each_total_follows_its_system() {
    // bonds 0 to 1, 1 to 2 and 2 to 0; the systems differ at site 0
    let pair = call(Pair, Wolff, R3, &["+++", "-++"]);
    brings(&keeping(pair, &[1, 2, -3], &[]), &["-++", "+++"], &[-4, 0]);
    // both ends moved: each bond counts once
    let both = flips(call(Houd, Sw, R3, &["+++", "---"]), &[1, 1, 1]);
    brings(&keeping(both, &[1, 2, 4], &[]), &["---", "+++"], &[-7, -7]);
    let turned = perms(call(Perm, Wolff, R3, &["+++", "--+", "+++"]), &[1, 2, 0]);
    brings(
        &keeping(turned, &[1, 2, 4], &[]),
        &["--+", "+++", "+++"],
        &[5, -7, -7],
    );
    let gauged = perms(call(Gperm, Sw, I2, &["++", "-+"]), &[1, 0, 1, 0]);
    brings(&keeping(gauged, &[1, 5], &[]), &["+-", "--"], &[-6, -6]);
    // a bond that holds and its own way back: two bonds of one pair of sites
    let jorg = call(Jorg, Wolff, L2, &["++", "-+"]);
    brings(&keeping(jorg, &[3, 4], &[]), &["-+", "++"], &[7, -7]);
    let grey = greys(call(Cmr, Grow, L2, &["++", "+-"]), &[1]);
    brings(&keeping(grey, &[0, 5], &[]), &["+-", "--"], &[5, -5]);
}

/// A site that is its own neighbour has the same energy there whatever its spin.
#[test]
fn a_bond_of_a_site_to_itself_never_changes() {
    for form in [Sw, Wolff, Grow] {
        let case = flips(
            call(Houd, form, L1, &["+", "-"]),
            &[1; 1][..usize::from(form == Sw)],
        );
        let case = keeping(case, &[1_000_000], &[5, -MOST]);
        let (answer, lent) = run(&case);
        assert_eq!(answer, Answer::Moved);
        assert_eq!(lent.totals, [5, -MOST]);
    }
}

#[test]
fn a_wrong_total_stays_wrong_by_as_much() {
    let pair = call(Pair, Grow, R3, &["+++", "-++"]);
    let lent = run(&keeping(pair.clone(), &[1, 2, -3], &[100, -1000])).1;
    assert_eq!(lent.totals, [96, -996]);
    // beyond the limit after the move, and then refused
    let edge = keeping(pair, &[1, 2, -3], &[-MOST, 0]);
    let (answer, lent) = run(&edge);
    assert_eq!((answer, &lent.totals), (Answer::Moved, &vec![-MOST - 4, 4]));
    let mut again = edge;
    again.lent.totals = lent.totals;
    refused(&again, 14);
}

#[test]
fn totals_of_others_stay() {
    let mut case = keeping(
        call(Pair, Wolff, R3, &["+++", "-++", "+-+"]),
        &[1, 2, -3],
        &[7, 8, 9],
    );
    case.group = vec![1, 0];
    assert_eq!(run(&case).1.totals, [3, 12, 9]);
    let idle = keeping(call(Perm, Sw, R3, &["++-", "++-"]), &[1, 2, 4], &[7, 8]);
    let (answer, lent) = run(&idle);
    assert_eq!((answer, lent.totals), (Answer::Idle, vec![7, 8]));
}

/// To observe keeps none, and a call that keeps nothing takes none: at any length and with any content.
#[test]
fn what_is_not_kept_is_not_taken() {
    let any = |form: Form, mode: Mode, keeps: Keeps| {
        for totals in [vec![], vec![i64::MAX], vec![i64::MIN; 2], vec![1; 5]] {
            let mut case = call(mode, form, R3, &["+++", "-++"]);
            case.panel.keeps = keeps;
            case.lent.totals = totals.clone();
            if !mode.draws() {
                case.panel.couplings = vec![i32::MAX; 4];
            }
            let (answer, lent) = run(&case);
            assert_eq!((answer, lent.totals), (Answer::Moved, totals), "{case:?}");
        }
    };
    for mode in [Houd, Pair, Perm, Jorg, Cmr] {
        any(Observe, mode, Keeps::Totals);
        any(Sw, mode, Keeps::Nothing);
    }
}

#[test]
fn refusals_of_moves_that_keep() {
    let good = keeping(
        call(Pair, Sw, R3, &["+++", "-++"]),
        &[1, 2, 3],
        &[MOST, -MOST],
    );
    answers(&good, Answer::Moved);
    for totals in [vec![], vec![0], vec![0; 3]] {
        let mut case = good.clone();
        case.lent.totals = totals;
        refused(&case, 2);
    }
    for couplings in [vec![], vec![1; 2], vec![1; 4]] {
        let mut case = good.clone();
        case.panel.couplings = couplings;
        refused(&case, 2);
    }
    for total in [MOST + 1, -MOST - 1, i64::MAX, i64::MIN] {
        for at in [0, 1] {
            let mut case = good.clone();
            case.lent.totals[at] = total;
            refused(&case, 14);
        }
    }
    // of a system that the call does not name it may be anything (12/14)
    let mut other = keeping(
        call(Pair, Sw, R3, &["+++", "-++", "+++"]),
        &[1, 2, 3],
        &[0, 0, MOST + 1],
    );
    other.group = vec![0, 1];
    assert_eq!(run(&other).1.totals[2], MOST + 1);
    other.group = vec![0, 2];
    refused(&other, 14);
}

/// One fault after the other is taken out of a call, and 14 is left.
#[test]
fn fourteen_comes_last() {
    let mut case = perms(call(Perm, Wolff, R3, &["+++", "-++"]), &[0, 1]);
    case = keeping(case, &[1, 2, 1_000_001], &[0, MOST + 1, 0]);
    (
        case.seed,
        case.panel.n,
        case.panel.bwd[0],
        case.lent.spins[0],
    ) = (1, 0, 7, 0);
    case.group = vec![0, 0];
    refused(&case, 1);
    case.panel.n = 3;
    refused(&case, 2);
    case.lent.totals.pop();
    refused(&case, 3);
    case.lent.spins[0] = 1;
    refused(&case, 4);
    case.panel.bwd[0] = 2;
    refused(&case, 5);
    case.group[1] = 1;
    refused(&case, 6);
    case.panel.couplings[2] = 3;
    refused(&case, 9);
    case.choices.perms = vec![1, 0];
    refused(&case, 10);
    case.seed = 0;
    refused(&case, 14);
    case.lent.totals[1] = MOST;
    answers(&case, Answer::Moved);
}

#[test]
fn a_sweep_keeps_totals() {
    // one site: only its bond to itself, so that nothing changes
    let alone = sweep(Pair, Wolff, 2, &["+", "-", "+", "+"]);
    let case = sweep_keeping(alone, &[9], &[1, 2, 3, 4]);
    let (answer, lent) = run_sweep(&case);
    assert_eq!(answer, swept(1, 1, 0));
    assert_eq!(lent.totals, [1, 2, 3, 4]);
    let mut late = case.clone();
    late.lent.totals[3] = -MOST - 1;
    sweep_refused(&late, 14);
    // 14 comes after the tests of every task
    late.seeds = vec![0, 1];
    sweep_refused(&late, 10);
    late.masks = vec![0, 1];
    sweep_refused(&late, 14);
    late.lent.totals.pop();
    sweep_refused(&late, 2);
    // the systems of a masked temperature keep their totals, and those of the others follow
    let two = wide(&["++", "-+", "++", "-+"]);
    assert_eq!(run_sweep(&two).1.totals, [7 + 14, -7 - 14, 0, 0]);
}

/// A sweep of two temperatures on two sites, of which the second is masked; couplings 3 and 4.
fn wide(rows: &[&str]) -> Swept {
    let one = keeping(call(Pair, Grow, L2, rows), &[3, 4], &[7, -7, 0, 0]);
    let mut case = sweep(Pair, Grow, 2, &["+", "-", "+", "-"]);
    case.lent = one.lent;
    case.lent.member_sites = vec![9; 4];
    case.panel = one.panel;
    case.masks = vec![0, 1];
    case
}

#[test]
fn a_hand_over_holds_totals_to_the_meter() {
    let mut case = keeping(
        call(Pair, Observe, R3, &["+++", "-++"]),
        &[1, 2, -3],
        &[0, -4],
    );
    assert_eq!(handed(&case), 0);
    for (system, energy) in [(0, 0), (1, -4)] {
        assert_eq!(
            Model.energy(case.meter(system)),
            MeterAnswer::Energy(energy)
        );
    }
    for (at, total) in [(0, 1), (1, 4), (1, i64::MIN)] {
        let mut wrong = case.clone();
        wrong.lent.totals[at] = total;
        assert_eq!(handed(&wrong), 14);
    }
    // a group, a mode and a temperature are not handed over
    case.group = vec![];
    assert_eq!(handed(&case), 0);
    let faults: [(u8, fn(&mut Single)); 6] = [
        (14, |case| case.lent.totals[0] = 1),
        (6, |case| case.panel.couplings[2] = -1_000_001),
        (4, |case| case.panel.fwd[1] = 3),
        (3, |case| case.lent.spins[5] = 0),
        (2, |case| case.lent.totals.push(0)),
        (1, |case| case.panel.of_one_team(65)),
    ];
    for (number, fault) in faults {
        fault(&mut case);
        assert_eq!(handed(&case), number, "{case:?}");
    }
}
