//! Request 10/14 by hand: houd moves groups of two alone and observes any, in which order it is refused, and that of two it is pair.
mod common;

use calls::Form::{Grow, Observe, Sw, Wolff};
use calls::Mode::{Houd, Jorg, Pair, Perm};
use calls::{Answer, Coding, Form, Keeps};
use common::*;
use tsorvenk_runs::case::{Choices, Lent, Panel, Single, Swept};
use tsorvenk_runs::exhaustive;
use tsorvenk_runs::model::{lengths, Model};
use tsorvenk_runs::{port, raw};

const MOVING: [Form; 3] = [Sw, Wolff, Grow];

/// So many systems on a ring of three, of which the first two differ everywhere and the others one after the other.
fn rows(members: usize) -> Vec<&'static str> {
    ["+++", "---"]
        .iter()
        .cycle()
        .take(members)
        .copied()
        .collect()
}

/// Whether sites act, as they do where the number is even, or not.
#[test]
fn moves_of_more_than_two_are_refused() {
    for form in MOVING {
        answers(&call(Houd, form, R3, &rows(2)), Answer::Moved);
        for members in 3..=8 {
            refused(&call(Houd, form, R3, &rows(members)), 15);
            // where no site acts too
            refused(&call(Houd, form, R3, &vec!["+-+"; members]), 15);
            let mut kept = call(Houd, form, R3, &rows(members));
            kept.panel.keeps = Keeps::Totals;
            kept.panel.couplings = vec![1, 2, 4];
            kept.lent.totals = vec![0; members];
            refused(&kept, 15);
            refused(&pinned(call(Houd, form, R3, &rows(members)), &[1; 3]), 15);
        }
    }
}

#[test]
fn any_number_is_observed() {
    for members in 2..=8 {
        let case = call(Houd, Observe, R3, &rows(members));
        let (answer, lent) = run(&case);
        assert_eq!(lent.spins, case.lent.spins);
        match members % 2 {
            0 => {
                assert_eq!((answer, lent.found), (Answer::Moved, vec![1]));
                assert_eq!((lent.labels, lent.counts), (vec![0; 3], vec![0, 0, 0, 1]));
            }
            _ => {
                assert_eq!((answer, lent.found), (Answer::Idle, vec![3]));
                assert_eq!((lent.labels, lent.counts), (vec![0, 1, 2], vec![0; 4]));
            }
        }
    }
}

/// Other modes that flip move any group.
#[test]
fn it_is_houd_alone() {
    for form in MOVING {
        for mode in [Pair, Jorg, Perm] {
            let case = call(mode, form, R3, &rows(4));
            let turned = match (mode, form) {
                (Perm, Wolff | Grow) => perms(case, &[1, 2, 3, 0]),
                _ => case,
            };
            answers(&turned, Answer::Moved);
        }
    }
}

/// One fault after the other is taken out of a call: 1 comes before 15, and 15 before all others.
#[test]
fn fifteen_comes_straight_after_one() {
    for form in MOVING {
        let good = call(Houd, form, R3, &rows(4));
        let ones: [fn(&mut Single); 6] = [
            |case| case.panel.n = 0,
            |case| case.panel.n = 4097,
            |case| case.panel.d = 5,
            |case| case.panel.of_one_team(65),
            |case| case.group = (0..9).collect(),
            |case| case.group = vec![0],
        ];
        for fault in ones {
            let mut case = good.clone();
            fault(&mut case);
            refused(&case, 1);
        }
        let others: [fn(&mut Single); 12] = [
            |case| case.lent.spins.truncate(1),
            |case| case.panel.fwd.push(0),
            |case| case.panel.bwd.clear(),
            |case| case.panel.pins.clear(),
            |case| case.choices.flips.push(2),
            |case| case.lent.labels.push(9),
            |case| case.lent.member_sites.push(9),
            |case| case.lent.spins[0] = 0,
            |case| case.panel.bwd[0] = 7,
            |case| case.panel.pins[0] = 2,
            |case| case.group[1] = case.group[0],
            |case| case.seed = 3,
        ];
        for fault in others {
            let mut case = good.clone();
            fault(&mut case);
            refused(&case, 15);
        }
        // the first seven, which change lengths, together
        let mut all = good.clone();
        for fault in &others[..7] {
            fault(&mut all);
            refused(&all, 15);
        }
        all.group = vec![0, 1];
        refused(&all, 2);
        all.panel.n = 0;
        refused(&all, 1);
    }
    // to observe none of it is 15
    let mut short = call(Houd, Observe, R3, &rows(4));
    short.lent.counts.pop();
    refused(&short, 2);
}

/// Two temperatures of r one-site systems each, in groups of so many.
fn sweep_of(form: Form, r: usize, members: usize) -> Swept {
    let rows: Vec<&str> = ["+", "-"].iter().cycle().take(2 * r).copied().collect();
    let groups = r.checked_div(members).unwrap_or(0);
    let exact = lengths(Houd, form, 1, 1, members, 2 * groups);
    let one = call(Houd, form, L1, &rows[..2]);
    Swept {
        panel: Panel {
            s: 2 * r,
            owners: vec![0; 2 * r],
            ..one.panel
        },
        t: 2,
        r,
        members,
        order: (0..2 * r as u32).collect(),
        masks: vec![0; 2],
        temperatures: vec![],
        references: vec![],
        seeds: vec![0; 2 * groups],
        choices: Choices {
            flips: vec![0; exact.flips.unwrap_or(0)],
            ..Choices::default()
        },
        lent: Lent::filled(exact, spins(&rows), 9, 9),
    }
}

#[test]
fn a_sweep_is_refused_whole() {
    for form in MOVING {
        assert_eq!(run_sweep(&sweep_of(form, 8, 2)).0, swept(0, 8, 0));
        for members in 3..=8 {
            let good = sweep_of(form, 8, members);
            sweep_refused(&good, 15);
            // where every temperature is masked too
            let mut masked = good.clone();
            masked.masks = vec![1; 2];
            sweep_refused(&masked, 15);
            let mut late = good.clone();
            late.masks = vec![0, 2];
            late.order[1] = 0;
            late.lent.spins[0] = 0;
            late.choices.flips.push(0);
            late.lent.found.push(9);
            sweep_refused(&late, 15);
            late.panel.of_one_team(15);
            sweep_refused(&late, 1);
        }
        // more than there are replicas, or than a group may have
        sweep_refused(&sweep_of(form, 3, 4), 1);
        sweep_refused(&sweep_of(form, 9, 9), 1);
        sweep_refused(&sweep_of(form, 8, 1), 1);
    }
}

#[test]
fn a_sweep_observes_any_number() {
    for members in 2..=8 {
        let case = sweep_of(Observe, 8, members);
        let tasks = 2 * (8 / members) as u32;
        let (answer, lent) = run_sweep(&case);
        assert_eq!(lent.spins, case.lent.spins);
        match members % 2 {
            0 => assert_eq!(answer, swept(0, tasks, 0)),
            _ => assert_eq!(answer, swept(tasks, 0, 0)),
        }
    }
}

/// The number that C gets; a buffer of counts of another length is behind 15, and numbers that are none are before it.
#[test]
fn as_c_calls() {
    for form in MOVING {
        let case = call(Houd, form, R3, &rows(4));
        for (numbers, expected) in [
            ([0, form as u8, 0, 0], 15),
            ([0, form as u8, 1, 0], 15),
            ([0, form as u8, 2, 0], 1),
            ([0, form as u8, 0, 2], 1),
            ([6, form as u8, 0, 0], 1),
        ] {
            let mut lent = case.lent.clone();
            if let Some(code) = raw::step(numbers, case.step(&mut lent)) {
                assert_eq!((code, lent), (expected, case.lent.clone()), "{numbers:?}");
            }
        }
        for length in [0, 2, 3, 4] {
            for (members, n, expected) in [(4, 1, 15), (4, 0, 1), (9, 1, 1)] {
                let mut case = sweep_of(form, 8, members);
                case.panel.n = n;
                let (mut lent, mut outcomes) = (case.lent.clone(), vec![9; length]);
                let numbers = [0, form as u8, 0, 0];
                if let Some(code) = raw::sweep(numbers, case.sweep(&mut lent), &mut outcomes) {
                    assert_eq!((code, lent), (expected, case.lent.clone()));
                    assert_eq!(outcomes, vec![9; length]);
                }
            }
        }
    }
}

/// The same call by pair: the answer, the spins and every output, on the model and on the port.
fn as_pair(case: &Single) {
    let mut pair = case.clone();
    pair.panel.mode = Pair;
    assert_eq!(case.run(&mut Model), pair.run(&mut Model), "{case:?}");
    if let Some(mut port) = port::linked() {
        let [houd, pair] = [case, &pair].map(|case| case.run(port.as_mut()));
        assert_eq!(houd, pair, "{case:?}");
    }
}

/// All calls of two on up to three sites, those whose seed does not act among them.
#[test]
fn of_two_it_is_pair() {
    for form in Form::ALL {
        let mut calls = 0;
        exhaustive::each(Houd, form, 5000, |case| {
            if case.group.len() == 2 {
                calls += 1;
                as_pair(&case);
            }
        });
        assert!(calls > 500, "{form:?} {calls}");
        // refusals too, and where the coding is ignored
        let mut case = call(Houd, form, R3, &rows(2));
        case.panel.coding = Coding::Numbers;
        as_pair(&case);
        case.panel.pins[1] = 2;
        as_pair(&case);
        case.group.pop();
        as_pair(&case);
    }
    for form in Form::ALL {
        let case = sweep_of(form, 8, 2);
        let mut pair = case.clone();
        pair.panel.mode = Pair;
        assert_eq!(run_sweep(&case), run_sweep(&pair));
    }
}
