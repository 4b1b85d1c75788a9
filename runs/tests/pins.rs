//! Request 9/14 by hand: what a pin holds, what is answered, and what is refused. Sweeps are in pinned_sweeps.rs.
mod common;

use calls::Form::{Grow, Observe, Sw, Wolff};
use calls::Mode::{Cmr, Gperm, Houd, Jorg, Pair, Perm};
use calls::{Answer, Form, Keeps, Mode};
use common::*;
use tsorvenk_runs::case::{Lent, Single};
use tsorvenk_runs::grown;
use tsorvenk_runs::model::{energies, Model};
use tsorvenk_runs::port;

/// Sites 0 and 1 are each other's neighbours, and so are 2 and 3; site 4 is its own.
const TWO_PAIRS: &[u32] = &[1, 0, 3, 2, 4];
const R4: &[u32] = &[1, 2, 3, 0];
const DIFFER: [&str; 2] = ["+++++", "-----"];

/// Two pairs and a single, all of which act and are chosen to move.
fn pairs(mode: Mode, form: Form) -> Single {
    let case = call(mode, form, TWO_PAIRS, &DIFFER);
    let many = |length: usize, of: &[u8]| of.repeat(if form == Sw { length } else { 1 });
    match mode {
        Perm => perms(case, &many(5, &[1, 0])),
        Jorg => drawn(case, &[1, 0, 1, 0, 0], 1.0, &[0.0; 5]),
        _ => case,
    }
}

fn all_chosen(mode: Mode) -> Single {
    match mode {
        Perm => pairs(mode, Sw),
        _ => flips(pairs(mode, Sw), &[1; 5]),
    }
}

/// Held: what the form writes is what it writes without pins, and spins and totals stay.
fn held(case: &Single) -> Lent {
    let (answer, lent) = run(case);
    assert_eq!(answer, Answer::Held, "{case:?}");
    let mut free = case.clone();
    free.panel.pins.fill(0);
    let (answer, without) = run(&free);
    assert_eq!(answer, Answer::Moved, "{case:?}");
    let (spins, totals) = (case.lent.spins.clone(), case.lent.totals.clone());
    let stays = Lent {
        spins,
        totals,
        ..without
    };
    assert_eq!(lent, stays, "{case:?}");
    lent
}

fn as_wolff(case: &Single) {
    assert_eq!(grown::single(case, &mut Model), None, "{case:?}");
    if let Some(mut port) = port::linked() {
        assert_eq!(grown::single(case, port.as_mut()), None, "{case:?}");
    }
}

#[test]
fn a_pin_holds_its_component_and_no_other() {
    for mode in [Houd, Pair, Jorg] {
        let case = all_chosen(mode);
        moved(&case, &["----+", "++++-"]);
        for pins in [[1, 0, 0, 0, 0], [0, 1, 0, 0, 0], [1, 1, 0, 0, 1]] {
            let lent = moved(&pinned(case.clone(), &pins), &["++--+", "--++-"]);
            assert_eq!((lent.labels, lent.found), (vec![0, 0, 1, 1, 2], vec![3]));
            assert_eq!(lent.counts, [0, 1, 2, 0, 0, 0]);
            assert_eq!(lent.sizes, [2, 2, 1, 0]);
        }
        moved(&pinned(case.clone(), &[0, 0, 0, 1, 0]), &["--+++", "++---"]);
        // SW is never held
        moved(&pinned(case, &[1; 5]), &DIFFER);
    }
    let perm = all_chosen(Perm);
    moved(&pinned(perm.clone(), &[0, 1, 0, 0, 0]), &["++---", "--+++"]);
    moved(&pinned(perm.clone(), &[0, 0, 0, 0, 1]), &["----+", "++++-"]);
    moved(&pinned(perm, &[1; 5]), &DIFFER);
}

/// A pinned site that does not act is a component of its own, and holds no other.
#[test]
fn what_does_not_act_holds_itself() {
    let rows = ["+++", "--+"];
    let pair = flips(call(Pair, Sw, R3, &rows), &[1; 3]);
    moved(&pinned(pair, &[0, 0, 1]), &["--+", "+++"]);
    for form in [Wolff, Grow] {
        let pair = call(Pair, form, R3, &rows);
        moved(&pinned(pair.clone(), &[0, 0, 1]), &["--+", "+++"]);
        // a pinned seed that does not act, while others do
        refused(&seed(pinned(pair, &[0, 0, 1]), 2), 10);
    }
    // gauged by site 4, where the systems differ, 0 and 1 act
    let gauged = call(Gperm, Sw, TWO_PAIRS, &["+++++", "++---"]);
    let gauged = reference(perms(gauged, &[1, 0].repeat(5)), 4);
    moved(
        &pinned(gauged.clone(), &[0, 0, 1, 1, 1]),
        &["--+++", "-----"],
    );
    moved(&pinned(gauged, &[0, 1, 0, 0, 0]), &["+++++", "++---"]);
}

#[test]
fn one_cluster_is_held_by_any_of_its_sites() {
    for mode in [Houd, Pair, Perm, Jorg] {
        for form in [Wolff, Grow] {
            for pins in [[1, 0, 0, 0, 0], [0, 1, 0, 0, 0], [1; 5]] {
                for at in [0, 1] {
                    let case = seed(pinned(pairs(mode, form), &pins), at);
                    let lent = held(&case);
                    match form {
                        Grow => assert_eq!(lent.member_sites, [1, 1, 0, 0, 0]),
                        _ => assert_eq!(lent.labels, [0, 0, 1, 1, 2]),
                    }
                    as_wolff(&case);
                }
            }
            let other = pinned(pairs(mode, form), &[0, 0, 1, 0, 1]);
            moved(&other, &["--+++", "++---"]);
            held(&seed(other.clone(), 3));
            held(&seed(other, 4));
        }
    }
}

/// A single is held like any component.
#[test]
fn one_site() {
    for mode in [Houd, Pair] {
        for form in [Wolff, Grow] {
            held(&pinned(call(mode, form, L1, &["+", "-"]), &[1]));
        }
        for form in [Sw, Observe] {
            answers(
                &pinned(call(mode, form, L1, &["+", "-"]), &[1]),
                Answer::Moved,
            );
        }
    }
}

#[test]
fn idle_comes_before_held() {
    for form in Form::ALL {
        let mut case = pinned(call(Pair, form, R3, &["++-", "++-"]), &[1; 3]);
        answers(&case, Answer::Idle);
        if form == Grow {
            assert_eq!(run(&case).1.member_sites, [0; 3]);
        }
        case.panel.pins[2] = 2;
        refused(&case, 4);
    }
}

/// To observe is never held, and pins change nothing.
#[test]
fn observed() {
    for mode in [Houd, Pair, Perm, Jorg, Cmr] {
        let case = pairs(mode, Observe);
        let case = drawn(case, &[1, 0, 1, 0, 0], 1.0, &[0.0; 5]);
        for pins in [[1; 5], [0, 1, 0, 0, 1]] {
            assert_eq!(run(&pinned(case.clone(), &pins)), run(&case));
        }
    }
}

/// Blue are 0 and 1, and 2 and 3; a red bond from 1 to 2 makes all four grey together.
fn colours(form: Form) -> Single {
    let case = call(Cmr, form, R4, &["++++", "++--"]);
    drawn(case, &[1, 1, 1, 0], 1.0, &[0.0; 4])
}

#[test]
fn cmr_where_only_the_grey_one_is_held_blue_flips() {
    let sw = greys(flips(colours(Sw), &[1, 1, 0, 0]), &[2, 0, 0, 0]);
    let lent = moved(&sw, &["----", "++--"]);
    assert_eq!(
        (lent.labels, lent.grey_labels),
        (vec![0, 0, 1, 1], vec![0; 4])
    );
    // without the grey number, of the two blue ones that is flipped which is not held
    moved(&pinned(sw.clone(), &[0, 0, 0, 1]), &["--++", "----"]);
    moved(&pinned(sw.clone(), &[0, 1, 0, 0]), &["++--", "++++"]);
    moved(&pinned(sw, &[1, 0, 0, 1]), &["++++", "++--"]);
    for form in [Wolff, Grow] {
        let one = greys(colours(form), &[2]);
        moved(&one, &["--++", "++++"]);
        for pins in [[0, 0, 1, 0], [0, 0, 0, 1], [0, 0, 1, 1]] {
            let case = pinned(one.clone(), &pins);
            let lent = moved(&case, &["--++", "----"]);
            if form == Grow {
                assert_eq!(lent.member_sites, [1; 4]);
                as_wolff(&case);
            }
            held(&seed(case, 3));
        }
        for pins in [[1, 0, 0, 0], [0, 1, 0, 0], [1; 4]] {
            let case = pinned(one.clone(), &pins);
            let lent = held(&case);
            if form == Grow {
                assert_eq!(lent.member_sites, [1; 4]);
                as_wolff(&case);
            }
        }
    }
}

/// Of two grey components, each is held for itself.
#[test]
fn cmr_grey_ones_are_held_one_by_one() {
    let case = call(Cmr, Sw, TWO_PAIRS, &["+++++", "+++++"]);
    let case = drawn(case, &[9, 0, 9, 0, 0], 1.0, &[0.0; 5]);
    let case = greys(flips(case, &[1, 0, 0, 0, 0]), &[1, 2, 0, 0, 0]);
    // the first pair flips blue, and grey negates its first replica again; the second pair's grey number is of the second replica
    moved(&case, &["+++++", "----+"]);
    moved(&pinned(case.clone(), &[0, 0, 1, 0, 0]), &["+++++", "--+++"]);
    moved(&pinned(case.clone(), &[1, 0, 0, 0, 0]), &["+++++", "++--+"]);
    moved(&pinned(case, &[0, 1, 0, 1, 0]), &["+++++"; 2]);
}

#[test]
fn choices_of_what_is_held_are_tested() {
    for mode in [Houd, Pair, Jorg] {
        let case = pinned(all_chosen(mode), &[1, 0, 0, 0, 0]);
        refused(&flips(case, &[2, 0, 0, 0, 0]), 9);
    }
    let perm = pinned(all_chosen(Perm), &[1, 0, 0, 0, 0]);
    let mut rows = perm.choices.perms.clone();
    rows[0] = 0;
    refused(&perms(perm, &rows), 9);
    for form in [Wolff, Grow] {
        let one = pinned(pairs(Perm, form), &[1; 5]);
        refused(&perms(one.clone(), &[0, 1]), 9);
        refused(&seed(one, 5), 10);
        refused(&greys(pinned(colours(form), &[1; 4]), &[0]), 9);
    }
}

#[test]
fn what_is_refused() {
    for (mode, form) in Mode::ALL.map(|m| Form::ALL.map(|f| (m, f))).concat() {
        let good = call(mode, form, R3, &["+-+", "--+"]);
        let good = match (mode.permutes(), form) {
            (true, Wolff | Grow) => seed(perms(good, &[1, 0]), usize::from(mode == Gperm)),
            _ => good,
        };
        assert!(!matches!(run(&good).0, Answer::Refused(_)), "{good:?}");
        for (at, byte) in [(0, 2), (1, 3), (2, 128), (2, 255)] {
            let mut case = good.clone();
            case.panel.pins[at] = byte;
            refused(&case, 4);
        }
        for length in [0, 1, 2, 4, 6] {
            refused(&pinned(good.clone(), &vec![0; length]), 2);
            refused(&pinned(good.clone(), &vec![2; length]), 2);
        }
    }
}

/// One fault after the other is taken out of a call.
#[test]
fn pins_in_the_order_of_refusals() {
    let mut case = drawn(
        call(Jorg, Wolff, R3, &["+++", "-++"]),
        &[1_000_001; 3],
        0.0,
        &[-1.0; 3],
    );
    (case.panel.n, case.lent.spins[0], case.seed) = (0, 0, 3);
    case.group = vec![0, 0];
    case.panel.pins = vec![0, 2, 0, 0];
    refused(&case, 1);
    case.panel.n = 3;
    refused(&case, 2);
    case.panel.pins.pop();
    refused(&case, 3);
    case.lent.spins[0] = 1;
    refused(&case, 4);
    case.panel.pins[1] = 1;
    refused(&case, 5);
    case.panel.fwd[0] = 3;
    refused(&case, 4);
    case.panel.fwd[0] = 1;
    case.group[1] = 1;
    refused(&case, 6);
    case.panel.couplings = vec![1; 3];
    refused(&case, 7);
    case.temperature = 1.0;
    refused(&case, 8);
    case.choices.cuts = vec![0.0; 3];
    refused(&case, 10);
    case.seed = 0;
    answers(&case, Answer::Moved);
    case.panel.pins[0] = 1;
    answers(&case, Answer::Held);
}

/// Totals follow the sites that moved, not the members.
#[test]
fn totals_stay_where_nothing_moves() {
    let keeping = |mut case: Single| {
        case.panel.keeps = Keeps::Totals;
        case.panel.couplings = vec![1, 2, 4, 8];
        case.lent.totals = energies(&case.panel, &case.lent.spins);
        case
    };
    for form in [Wolff, Grow] {
        for pins in [[0; 4], [0, 0, 0, 1], [0, 1, 0, 0]] {
            let case = keeping(greys(pinned(colours(form), &pins), &[1]));
            let lent = run(&case).1;
            assert_eq!(lent.totals, energies(&case.panel, &lent.spins));
        }
        held(&keeping(pinned(
            call(Pair, form, R4, &["++++", "-+--"]),
            &[0, 0, 1, 0],
        )));
    }
    for pins in [[0; 4], [0, 0, 0, 1], [1; 4]] {
        let sw = greys(flips(colours(Sw), &[1, 1, 0, 0]), &[2, 0, 0, 0]);
        let case = keeping(pinned(sw, &pins));
        let lent = run(&case).1;
        assert_eq!(lent.totals, energies(&case.panel, &lent.spins));
    }
}
