//! Request 8/14 by hand: a call by numbers is the call by their rows, and what is refused. The numbers themselves are in orders.rs.
mod common;

use calls::Form::{Grow, Observe, Sw, Wolff};
use calls::Mode::{Cmr, Gperm, Houd, Jorg, Pair, Perm};
use calls::{Answer, Coding, Form, Keeps, Mode};
use common::*;
use tsorvenk_runs::case::{Choices, Lent, Panel, Single, Swept};
use tsorvenk_runs::coded::numbers;
use tsorvenk_runs::model::{self, lengths, Model};
use tsorvenk_runs::{port, raw};

const MOVING: [Form; 3] = [Sw, Wolff, Grow];

/// Five systems of three sites in a ring; all sites act.
const FIVE: [&str; 5] = ["+-+", "--+", "+--", "-+-", "+++"];

/// A call by numbers, all of them this one.
fn coded(mode: Mode, form: Form, number: u8) -> Single {
    let mut case = call(mode, form, R3, &FIVE);
    case.panel.coding = Coding::Numbers;
    case.choices.perms = vec![number; if form == Sw { 3 } else { 1 }];
    case
}

/// The same call by the numbers' rows.
fn by_rows(case: &Single) -> Single {
    let mut rows = case.clone();
    let row = |&number: &u8| model::orders()[usize::from(number)];
    rows.panel.coding = Coding::Rows;
    rows.choices.perms = case.choices.perms.iter().flat_map(row).collect();
    rows
}

/// The answer and all that is lent, by numbers and by rows; those of the rows are held to the Rust.
fn same(case: &Single) {
    assert_eq!(run(case), run(&by_rows(case)), "{case:?}");
}

/// 47 is 1 4 3 2 0: the first system gets what the second had, the second what the last had.
#[test]
fn a_move_by_number() {
    assert_eq!(model::orders()[47], [1, 4, 3, 2, 0]);
    let after = ["--+", "+++", "-+-", "+--", "+-+"];
    for form in MOVING {
        moved(&coded(Perm, form, 47), &after);
    }
    // each site is a component of its own, and its number stands at its place
    let mut apart = call(Perm, Sw, &[0, 1, 2], &FIVE);
    apart.panel.coding = Coding::Numbers;
    apart.choices.perms = vec![0, 47, 0];
    moved(&apart, &["+-+", "-++", "++-", "---", "+-+"]);
    apart.choices.perms = vec![47, 0, 0];
    moved(&apart, &["--+", "+-+", "---", "++-", "+++"]);
}

#[test]
fn a_call_by_numbers_is_the_call_by_rows() {
    for (mode, form) in [Perm, Gperm].map(|m| MOVING.map(|f| (m, f))).concat() {
        for number in 0..=119 {
            let mut case = reference(coded(mode, form, number), 1);
            // gperm's reference does not act
            case.seed = 2;
            same(&case);
            if form == Sw {
                case.choices.perms = [3, 7, 40]
                    .map(|k| (usize::from(number) * k % 120) as u8)
                    .to_vec();
                same(&case);
            }
            case.panel.keeps = Keeps::Totals;
            case.panel.couplings = vec![1, -2, 4];
            case.lent.totals = model::energies(&case.panel, &case.lent.spins);
            same(&case);
        }
    }
    // where no site acts the numbers are tested and nothing moves
    let mut idle = call(Perm, Wolff, R3, &["+++"; 5]);
    idle.panel.coding = Coding::Numbers;
    idle.choices.perms = vec![119];
    answers(&idle, Answer::Idle);
    idle.choices.perms = vec![120];
    refused(&idle, 9);
}

#[test]
fn what_is_refused() {
    for (mode, form) in [Perm, Gperm].map(|m| MOVING.map(|f| (m, f))).concat() {
        let good = seed(coded(mode, form, 1), 2);
        answers(&good, Answer::Moved);
        for number in [120, 128, 255] {
            refused(
                &perms(good.clone(), &vec![number; good.choices.perms.len()]),
                9,
            );
        }
        // the identity is a choice of SW alone
        match form {
            Sw => answers(&perms(good.clone(), &[0; 3]), Answer::Moved),
            _ => refused(&perms(good.clone(), &[0]), 9),
        }
        for length in [0, 2, 4, 5, 15] {
            refused(&perms(good.clone(), &vec![1; length]), 2);
        }
        // 9 comes behind 3 and before 10
        let mut both = perms(seed(good.clone(), 3), &vec![120; good.choices.perms.len()]);
        refused(&both, 9);
        both.lent.spins[0] = 0;
        refused(&both, 3);
    }
    // one component uses the first entry; the others are tested
    for unused in [1, 2] {
        let mut case = coded(Perm, Sw, 5);
        assert_eq!(run(&case).1.found, [1]);
        case.choices.perms[unused] = 120;
        refused(&case, 9);
    }
}

/// Another size is 1, before a wrong length; so is what is a good call by rows.
#[test]
fn numbers_are_those_of_five() {
    for members in [2, 3, 4, 6, 7, 8] {
        for (mode, form) in [Perm, Gperm].map(|m| MOVING.map(|f| (m, f))).concat() {
            let rows: Vec<&str> = FIVE.iter().cycle().take(members).copied().collect();
            let mut case = call(mode, form, R3, &rows);
            case.panel.coding = Coding::Numbers;
            refused(&case, 1);
            case.choices.perms = vec![1; if form == Sw { 3 } else { 1 }];
            refused(&case, 1);
            case.choices.perms.clear();
            refused(&case, 1);
        }
    }
}

/// In other modes and to observe any perms are lent, and the coding changes nothing.
#[test]
fn elsewhere_the_coding_is_ignored() {
    let mut cases: Vec<Single> = Vec::new();
    for form in Form::ALL {
        for mode in [Houd, Pair, Jorg, Cmr] {
            for rows in [&["+-+", "--+"][..], &["+++", "---"]] {
                cases.push(call(mode, form, R3, rows));
            }
        }
    }
    for (mode, members) in [Perm, Gperm].map(|m| [2, 5, 8].map(|k| (m, k))).concat() {
        let rows: Vec<&str> = FIVE.iter().cycle().take(members).copied().collect();
        cases.push(call(mode, Observe, R3, &rows));
    }
    for case in cases {
        let expected = run(&case);
        for length in [0, 1, 3, 5] {
            let mut other = perms(case.clone(), &vec![255; length]);
            other.panel.coding = Coding::Numbers;
            assert_eq!(run(&other), expected, "{other:?}");
        }
    }
}

/// A sweep of groups of five one-site systems, three groups at two temperatures; the last has one system left over.
fn sweep_of_five(mode: Mode, form: Form) -> Swept {
    let rows: Vec<&str> = "+-+--".split("").filter(|c| !c.is_empty()).collect();
    let rows: Vec<&str> = rows.iter().cycle().take(22).copied().collect();
    let base = call(mode, form, L1, &rows[..5]);
    let exact = lengths(mode, form, 1, 1, 5, 4);
    Swept {
        panel: Panel {
            coding: Coding::Numbers,
            s: 22,
            owners: vec![0; 22],
            ..base.panel
        },
        t: 2,
        r: 11,
        members: 5,
        order: (0..22).collect(),
        masks: vec![0; 2],
        temperatures: Vec::new(),
        references: vec![0; 4],
        seeds: vec![0; 4],
        choices: Choices {
            perms: vec![7, 24, 60, 119],
            ..Choices::default()
        },
        lent: Lent::filled(exact, spins(&rows), 9, 9),
    }
}

#[test]
fn sweeps() {
    for form in MOVING {
        let good = sweep_of_five(Perm, form);
        let (answer, lent) = run_sweep(&good);
        assert_eq!(answer, swept(0, 4, 0));
        let mut rows = good.clone();
        rows.panel.coding = Coding::Rows;
        let row = |&number: &u8| model::orders()[usize::from(number)];
        rows.choices.perms = good.choices.perms.iter().flat_map(row).collect();
        assert_eq!(run_sweep(&rows), (answer, lent));
        // a masked task's number is not read
        let mut masked = good.clone();
        masked.masks = vec![1, 0];
        masked.choices.perms[..2].fill(255);
        let one = swept(0, 2, 0);
        assert_eq!(run_sweep(&masked).0, one);
        masked.choices.perms[3] = 120;
        sweep_refused(&masked, 9);
        let mut faulty = good.clone();
        faulty.choices.perms[3] = 0;
        match form {
            Sw => assert_eq!(run_sweep(&faulty).0, answer),
            _ => sweep_refused(&faulty, 9),
        }
        for length in [0, 3, 5, 20] {
            faulty.choices.perms = vec![1; length];
            sweep_refused(&faulty, 2);
        }
        // another size refuses the whole sweep, though all is masked, and before a length
        for members in [2, 4, 6, 8] {
            let mut other = good.clone();
            other.members = members;
            sweep_refused(&other, 1);
            other.masks = vec![1; 2];
            sweep_refused(&other, 1);
        }
    }
}

/// A number that is no mode, form, coding or keeps is 1, and comes before all else; what is one is the call.
#[test]
fn numbers_that_are_none() {
    let numbers = |case: &Panel| {
        [
            case.mode as u8,
            case.form as u8,
            case.coding as u8,
            case.keeps as u8,
        ]
    };
    for (mode, form) in Mode::ALL.map(|m| Form::ALL.map(|f| (m, f))).concat() {
        let mut case = call(mode, form, R3, &FIVE[..if mode == Cmr { 2 } else { 4 }]);
        if mode.permutes() && form.one_cluster() {
            case.choices.perms = vec![1, 0, 3, 2];
        }
        let (answer, after) = run(&case);
        let good = numbers(&case.panel);
        let step = |lent: [u8; 4], case: &Single| {
            let mut after = case.lent.clone();
            let code = raw::step(lent, case.step(&mut after));
            code.map(|code| (code, after))
        };
        if let Some(found) = step(good, &case) {
            let code = match answer {
                Answer::Moved => 0,
                Answer::Idle => 64,
                Answer::Held => 66,
                Answer::Refused(number) => number,
            };
            assert_eq!(found, (code, after), "{case:?}");
        }
        for (place, first) in [6, 4, 2, 2].into_iter().enumerate() {
            for none in [first, first + 1, 128, 255] {
                let mut lent = good;
                lent[place] = none;
                let mut faulty = case.clone();
                faulty.lent.spins.pop();
                for case in [&case, &faulty] {
                    if let Some(found) = step(lent, case) {
                        assert_eq!(found, (1, case.lent.clone()), "{lent:?} {case:?}");
                    }
                }
            }
        }
    }
    for form in Form::ALL {
        let mut case = sweep_of_five(Perm, form);
        case.lent = Lent::filled(lengths(Perm, form, 1, 1, 5, 4), case.lent.spins, 9, 9);
        for (place, first) in [6, 4, 2, 2].into_iter().enumerate() {
            for none in [first, 128, 255] {
                let mut lent = numbers(&case.panel);
                lent[place] = none;
                let (mut after, mut outcomes) = (case.lent.clone(), [9; 3]);
                let code = raw::sweep(lent, case.sweep(&mut after), &mut outcomes);
                if let Some(code) = code {
                    assert_eq!((code, after, outcomes), (1, case.lent.clone(), [9; 3]));
                }
            }
        }
    }
}

/// What the comparison makes of rows: as many numbers, or not as many where the rows are not as wanted.
#[test]
fn rows_as_numbers() {
    let rows = [0, 1, 2, 3, 4, 4, 3, 2, 1, 0];
    assert_eq!(numbers(&rows, 2), [0, 119]);
    assert_eq!(numbers(&rows, 1), [0, 119]);
    assert_eq!(numbers(&rows[..9], 2).len(), 1);
    assert_eq!(numbers(&rows[..9], 1).len(), 2);
    assert_eq!(numbers(&rows, usize::MAX).len(), 2);
    assert!(numbers(&[255; 5], 1)[0] > 119 && numbers(&[0, 1, 2, 3, 3], 1)[0] > 119);
    // both sides refuse the same
    let mut damaged = call(Perm, Sw, R3, &FIVE);
    for faulty in [vec![], vec![0; 14], vec![0; 16], vec![0; 15]] {
        damaged.choices.perms = faulty;
        assert_eq!(damaged.run(&mut Model), damaged.by_number().run(&mut Model));
        if let Some(mut port) = port::linked() {
            let by_number = damaged.by_number().run(port.as_mut());
            assert_eq!(damaged.run(port.as_mut()), by_number);
        }
    }
}
