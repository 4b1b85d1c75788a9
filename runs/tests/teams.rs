//! Two teams on one panel (12/14), worked by hand: what is tested before all else, what a foreign system is, and which rows and totals a call looks at.
mod common;

use calls::{Answer, Keeps, MeterAnswer};
use common::*;
use tsorvenk_runs::case::{Panel, Single, Swept};
use tsorvenk_runs::raw;

use calls::Form::{Grow, Observe, Sw, Wolff};
use calls::Mode::{Jorg, Pair, Perm};

const WILD: i64 = 16_384_000_001;

/// Team 0 has the systems 0, 2 and 4, team 1 the systems 1 and 3.
fn two_teams(panel: &mut Panel) {
    panel.owners = vec![0, 1, 0, 1, 0];
}

/// A move of the systems 0 and 2 of a ring of three, beside three others, which keeps totals.
fn mover() -> Single {
    let mut case = call(Pair, Wolff, R3, &["+++", "+-+", "-++", "--+", "+++"]);
    two_teams(&mut case.panel);
    (case.panel.keeps, case.panel.couplings) = (Keeps::Totals, vec![1, 2, -3]);
    (case.group, case.lent.totals) = (vec![0, 2], vec![0, -2, -4, -2, 0]);
    case
}

/// A sweep of team 0 over its three systems, of which the last is left over.
fn sweeper() -> Swept {
    let mut case = sweep(Jorg, Sw, 1, &["+", "-", "-", "+", "+"]);
    two_teams(&mut case.panel);
    (case.r, case.order) = (3, vec![4, 2, 0]);
    case.choices.cuts.truncate(1);
    case.choices.flips.truncate(1);
    case.panel.couplings = vec![1];
    case.lent.labels.truncate(1);
    case.lent.counts.truncate(2);
    case.lent.sizes.truncate(4);
    case.lent.found.truncate(1);
    case
}

fn faulty<C: Clone>(case: &C, fault: impl FnOnce(&mut C)) -> C {
    let mut case = case.clone();
    fault(&mut case);
    case
}

type Fault = fn(&mut Panel);

/// Faults among the owners, each with its number; two at once have that of the length.
const FAULTS: [(u8, Fault); 9] = [
    (2, |panel| panel.owners.clear()),
    (2, |panel| panel.owners.truncate(4)),
    (2, |panel| panel.owners.push(0)),
    (2, |panel| (panel.s, panel.owners) = (65, vec![0; 64])),
    (2, |panel| (panel.team, panel.owners) = (2, vec![2; 4])),
    (3, |panel| panel.owners[4] = 2),
    (3, |panel| panel.owners[1] = 255),
    (3, |panel| panel.team = 2),
    (3, |panel| (panel.s, panel.owners) = (65, vec![2; 65])),
];

#[test]
fn owners_are_tested_before_all_else() {
    let others: [fn(&mut Single); 5] = [
        |_| {},
        |case| case.panel.n = 0,
        |case| case.group.clear(),
        |case| case.lent.spins.clear(),
        |case| case.lent.spins.fill(0),
    ];
    for (number, fault) in FAULTS {
        for other in others {
            let mut case = faulty(&mover(), other);
            fault(&mut case.panel);
            refused(&case, number);
            let refused = MeterAnswer::Refused(number);
            assert_eq!(both(|side| side.energy(case.meter(0))), refused);
            let handed = both(|side| side.hand_over(case.panel.hand_over(&case.lent)));
            assert_eq!(handed, number);
        }
        sweep_refused(&faulty(&sweeper(), |case| fault(&mut case.panel)), number);
        let unsized_too = faulty(&sweeper(), |case| {
            fault(&mut case.panel);
            (case.t, case.r, case.panel.d) = (0, 0, 9);
        });
        sweep_refused(&unsized_too, number);
    }
    let many = |panel: &mut Panel| (panel.s, panel.owners) = (65, vec![0; 65]);
    refused(&faulty(&mover(), |case| many(&mut case.panel)), 1);
    sweep_refused(&faulty(&sweeper(), |case| many(&mut case.panel)), 1);
}

/// Numbers that are no mode, form, coding or keeps come behind the owners.
#[test]
fn owners_are_tested_before_codes() {
    let codes = [[6, 1, 0, 1], [1, 4, 0, 1], [1, 1, 2, 1], [1, 1, 0, 2]];
    let short = faulty(&mover(), |case| case.panel.owners.truncate(4));
    let none = faulty(&mover(), |case| case.panel.team = 2);
    for numbers in codes {
        for (case, number) in [(mover(), 1), (short.clone(), 2), (none.clone(), 3)] {
            let mut lent = case.lent.clone();
            if let Some(code) = raw::step(numbers, case.step(&mut lent)) {
                assert_eq!((code, lent), (number, case.lent.clone()), "{numbers:?}");
            }
            let swept = faulty(&sweeper(), |swept| swept.panel = case.panel.clone());
            let (mut lent, mut outcomes) = (swept.lent.clone(), [9; 3]);
            if let Some(code) = raw::sweep(numbers, swept.sweep(&mut lent), &mut outcomes) {
                assert_eq!((code, lent, outcomes), (number, swept.lent, [9; 3]));
            }
        }
    }
}

#[test]
fn a_foreign_system_is_none() {
    answers(&mover(), Answer::Moved);
    for group in [[0, 1], [3, 2], [1, 3], [0, 5], [0, u32::MAX], [4, 4]] {
        refused(&faulty(&mover(), |case| case.group = group.to_vec()), 5);
    }
    let other = faulty(&mover(), |case| case.panel.team = 1);
    refused(&other, 5);
    let far = (1 << 32) + 2;
    for (system, team, expected) in [
        (2, 0, Some(-4)),
        (2, 1, None),
        (3, 0, None),
        (5, 0, None),
        (far, 0, None),
    ] {
        let case = faulty(&mover(), |case| case.panel.team = team);
        let refused = MeterAnswer::Refused(5);
        let expected = expected.map_or(refused, MeterAnswer::Energy);
        assert_eq!(both(|side| side.energy(case.meter(system))), expected);
    }
}

#[test]
fn a_sweep_is_over_the_teams_systems() {
    assert_eq!(run_sweep(&sweeper()).0, swept(0, 1, 0));
    for order in [[0, 2, 1], [3, 2, 0], [0, 2, 2], [0, 2, 5]] {
        let case = faulty(&sweeper(), |case| case.order = order.to_vec());
        sweep_refused(&case, 5);
    }
    for order in [vec![0, 1, 2, 3, 4], vec![0, 2], vec![]] {
        sweep_refused(&faulty(&sweeper(), |case| case.order = order), 2);
    }
    // the number of both teams' systems, of the other's, and none
    for (t, r) in [(1, 5), (5, 1), (1, 2), (3, 1), (0, 3), (1, 0), (0, 0)] {
        let case = faulty(&sweeper(), |case| {
            (case.t, case.r) = (t, r);
            case.order = (0..5).collect();
        });
        sweep_refused(&case, 1);
    }
    for t in [0, 1] {
        let none = faulty(&sweeper(), |case| {
            case.panel.owners = vec![1; 5];
            (case.t, case.r) = (t, if t == 0 { 3 } else { 0 });
        });
        sweep_refused(&none, 1);
    }
}

/// An order that is longer than any panel is 2, whatever stands in its front, and so is one that is too short.
#[test]
fn an_order_has_as_many_entries_as_the_team_has_systems() {
    let good = sweep(Perm, Observe, 8, &["+"; 64]);
    assert_eq!(run_sweep(&good).0, swept(32, 0, 0));
    for length in [0, 1, 63, 65, 66, 128, 1000] {
        let order: Vec<u32> = (0..length).map(|k| k % 64).collect();
        let case = faulty(&good, |case| case.order = order);
        sweep_refused(&case, 2);
        let others = faulty(&case, |case| case.panel.owners[5] = 1);
        sweep_refused(&others, 1);
    }
    // all but one system, in seven temperatures of nine
    let most = faulty(&good, |case| {
        (case.t, case.r, case.panel.owners[63]) = (7, 9, 1);
        (case.order, case.masks) = ((0..63).rev().collect(), vec![0; 7]);
        case.lent.labels.truncate(28);
        case.lent.counts.truncate(56);
        case.lent.sizes.truncate(112);
        case.lent.found.truncate(28);
        case.lent.spins[63] = 0;
    });
    assert_eq!(run_sweep(&most).0, swept(28, 0, 0));
    sweep_refused(&faulty(&most, |case| case.order.push(63)), 2);
    sweep_refused(&faulty(&most, |case| case.order[62] = 63), 5);
}

/// Rubbish in a system's row, and a total that is too large.
fn spoil(case: &mut Single, system: usize) {
    case.lent.spins[3 * system..][..3].copy_from_slice(&[0, -128, 2]);
    case.lent.totals[system] = WILD;
}

#[test]
fn a_move_looks_at_its_group_alone() {
    let mut case = mover();
    for system in [1, 3, 4] {
        spoil(&mut case, system);
        let (answer, after) = run(&case);
        assert_eq!(answer, Answer::Moved, "{system}");
        assert_eq!(after.spins[9..], case.lent.spins[9..]);
        assert_eq!(after.totals[3..], case.lent.totals[3..]);
    }
    // a faulty row of its own is 3, a foreign one 5, and both 3
    refused(&faulty(&case, |case| case.group = vec![0, 4]), 3);
    refused(&faulty(&case, |case| case.group = vec![0, 1]), 5);
    refused(&faulty(&case, |case| case.group = vec![4, 1]), 3);
    refused(&faulty(&case, |case| case.group = vec![5, 4]), 3);
    // an own total
    case.lent.spins[12..].fill(1);
    refused(&faulty(&case, |case| case.group = vec![2, 4]), 14);
    for form in [Observe, Grow, Sw] {
        let mut other = call(Perm, form, R3, &["+++", "+-+", "-++", "--+", "+++"]);
        (other.panel.owners, other.group) = (case.panel.owners.clone(), vec![0, 2]);
        other.choices.perms = match form {
            Sw => vec![1, 0, 1, 0, 1, 0],
            _ => vec![1, 0],
        };
        other.lent.spins[3..6].fill(7);
        answers(&other, Answer::Moved);
    }
}

#[test]
fn a_sweep_looks_at_its_whole_order() {
    let mut case = sweeper();
    (case.panel.keeps, case.lent.totals) = (Keeps::Totals, vec![-1, WILD, -1, WILD, -1]);
    (case.lent.spins[1], case.lent.spins[3]) = (0, 5);
    let (answer, after) = run_sweep(&case);
    assert_eq!(answer, swept(0, 1, 0));
    assert_eq!((after.spins[1], after.spins[3]), (0, 5));
    assert_eq!((after.totals[1], after.totals[3]), (WILD, WILD));
    // the last of the order is left over, and a masked one is looked at too
    for masks in [0, 1] {
        let masked = faulty(&case, |case| case.masks = vec![masks]);
        sweep_refused(&faulty(&masked, |case| case.lent.spins[0] = 0), 3);
        sweep_refused(&faulty(&masked, |case| case.lent.totals[0] = WILD), 14);
    }
    // a foreign row is refused as a system, an own one before it
    let foreign = faulty(&case, |case| case.order[2] = 1);
    sweep_refused(&foreign, 5);
    sweep_refused(&faulty(&foreign, |case| case.lent.spins[4] = 0), 3);
}

#[test]
fn a_hand_over_is_of_all_that_is_the_teams() {
    let handed = |case: &Single| both(|side| side.hand_over(case.panel.hand_over(&case.lent)));
    let mut case = mover();
    assert_eq!(handed(&case), 0);
    spoil(&mut case, 1);
    spoil(&mut case, 3);
    assert_eq!(handed(&case), 0);
    case.group.clear();
    assert_eq!(handed(&faulty(&case, |case| spoil(case, 4))), 3);
    assert_eq!(handed(&faulty(&case, |case| case.lent.totals[4] = 1)), 14);
    case.panel.team = 1;
    assert_eq!(handed(&case), 3);
    case.lent.spins[3..6].fill(1);
    case.lent.spins[9..12].fill(1);
    assert_eq!(handed(&case), 14);
    // a team that has none
    case.panel.owners.fill(0);
    case.lent.spins.fill(9);
    assert_eq!(handed(&case), 0);
    case.lent.totals.push(0);
    assert_eq!(handed(&case), 2);
}
