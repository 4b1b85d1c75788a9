//! Request 11/14 by hand: moves on a group's bytes, and what is refused. The bytes themselves are in packing.rs.
mod common;

use calls::Form::{Grow, Observe, Sw, Wolff};
use calls::Mode::{Cmr, Gperm, Houd, Jorg, Pair, Perm};
use calls::{Answer, Coding, Form, Keeps, Mode};
use common::*;
use tsorvenk_runs::case::{Lent, Packed, Single};
use tsorvenk_runs::model::energies;
use tsorvenk_runs::raw;

/// A move on bytes, which is the move on their rows.
fn run_bytes(case: &Packed) -> (Answer, Lent) {
    let answer = both(|side| case.run(side));
    assert_eq!(answer, both(|side| case.by_rows(side)), "{case:?}");
    if let Answer::Refused(_) = answer.0 {
        assert_eq!(answer.1, case.lent, "{case:?}");
    }
    answer
}

fn bytes(case: &Single) -> Packed {
    case.packed().unwrap()
}

/// The bytes before and after.
fn goes(case: &Single, before: &[u8], answer: Answer, after: &[u8]) -> Lent {
    let packed = bytes(case);
    assert_eq!(packed.lent.columns, before, "{case:?}");
    let (found, lent) = run_bytes(&packed);
    assert_eq!((found, &lent.columns[..]), (answer, after), "{case:?}");
    lent
}

fn byte_refused(case: &Packed, number: u8) {
    assert_eq!(run_bytes(case).0, Answer::Refused(number), "{case:?}");
}

#[test]
fn moves_that_flip() {
    // the odd last member is neither read nor moved
    let rows = ["++-", "--+", "-++", "+++", "++-"];
    let pair = flips(call(Pair, Sw, R3, &rows), &[1; 3]);
    let before = [0b11001, 0b11101, 0b01110];
    goes(&pair, &before, Answer::Moved, &[0b10110, 0b11110, 0b01101]);
    let (answer, lent) = run_bytes(&bytes(&flips(pair, &[0; 3])));
    assert_eq!((answer, lent.columns), (Answer::Moved, before.to_vec()));
    for form in [Wolff, Grow] {
        let houd = seed(call(Houd, form, R3, &["+++", "--+"]), 1);
        let lent = goes(&houd, &[1, 1, 3], Answer::Moved, &[2, 2, 3]);
        match form {
            Grow => assert_eq!(lent.member_sites, [1, 1, 0]),
            _ => assert_eq!((lent.labels, lent.found), (vec![0, 0, 1], vec![2])),
        }
        let jorg = drawn(
            call(Jorg, form, R3, &["+++", "---"]),
            &[1, -1, 1],
            1.0,
            &[0.0; 3],
        );
        goes(&jorg, &[1, 1, 1], Answer::Moved, &[2, 2, 2]);
        let cut = drawn(jorg, &[1, -1, 1], 1.0, &[4.0; 3]);
        goes(&cut, &[1, 1, 1], Answer::Moved, &[2, 1, 1]);
    }
}

/// Replica k gets what replica p(k) had; the bytes are never gauged.
#[test]
fn moves_that_permute() {
    let rows = ["+-+", "-++", "--+"];
    for form in [Wolff, Grow] {
        let perm = perms(call(Perm, form, R3, &rows), &[2, 0, 1]);
        goes(&perm, &[1, 2, 7], Answer::Moved, &[2, 4, 7]);
        // gauged by site 1, sites 0 and 2 act
        let gauged = seed(
            reference(perms(call(Gperm, form, R3, &rows), &[1, 0, 2]), 1),
            2,
        );
        goes(&gauged, &[1, 2, 7], Answer::Moved, &[1, 2, 4]);
    }
    let apart = perms(call(Perm, Sw, &[0, 1], &["+-", "-+"]), &[1, 0, 0, 1]);
    goes(&apart, &[1, 2], Answer::Moved, &[2, 2]);
}

/// Two sites joined by a blue bond; the grey number flips the second member.
#[test]
fn moves_of_two_colours() {
    for (form, many) in [(Sw, 2), (Wolff, 1), (Grow, 1)] {
        let cmr = call(Cmr, form, L2, &["++", "++"]);
        let cmr = drawn(cmr, &[1, 1], 1.0, &[0.0; 2]);
        let cmr = greys(
            flips(cmr, &vec![1; if form == Sw { 2 } else { 0 }]),
            &vec![2; many],
        );
        goes(&cmr, &[3, 3], Answer::Moved, &[2, 2]);
    }
}

#[test]
fn idle_held_and_observe_leave_the_bytes() {
    for form in Form::ALL {
        let idle = call(Perm, form, L2, &["+-", "+-", "+-"]);
        let idle = perms(idle, &[1, 0, 2].repeat(if form == Sw { 2 } else { 1 }));
        goes(&idle, &[7, 0], Answer::Idle, &[7, 0]);
    }
    for form in [Wolff, Grow] {
        let held = pinned(call(Pair, form, R3, &["+++", "--+"]), &[0, 1, 0]);
        let lent = goes(&held, &[1, 1, 3], Answer::Held, &[1, 1, 3]);
        match form {
            Grow => assert_eq!(lent.member_sites, [1, 1, 0]),
            _ => assert_eq!(lent.counts, [0, 0, 1, 0]),
        }
    }
    // held in SW: the other component moves
    let two = flips(call(Pair, Sw, &[1, 0, 3, 2], &["++++", "----"]), &[1; 4]);
    goes(
        &pinned(two, &[1, 0, 0, 0]),
        &[1; 4],
        Answer::Moved,
        &[1, 1, 2, 2],
    );
    for mode in Mode::ALL {
        let seen = drawn(
            call(mode, Observe, R3, &["++-", "---"]),
            &[1; 3],
            1.0,
            &[0.0; 3],
        );
        let (answer, lent) = run_bytes(&bytes(&seen));
        assert_eq!((answer, lent.columns), (Answer::Moved, vec![1, 1, 0]));
    }
}

/// A group out of its order in a panel of more systems: bit k and total k are its member k.
#[test]
fn members_are_in_their_order() {
    let mut case = perms(
        call(Perm, Wolff, R3, &["+++", "+-+", "-++", "--+"]),
        &[1, 2, 0],
    );
    case.group = vec![3, 0, 2];
    case.panel.keeps = Keeps::Totals;
    case.panel.couplings = vec![1, -2, 4];
    case.lent.totals = energies(&case.panel, &case.lent.spins);
    case.choices.perms.truncate(3);
    assert_eq!(case.lent.totals, [-3, -5, 7, 1]);
    let lent = goes(&case, &[2, 6, 7], Answer::Moved, &[1, 3, 7]);
    assert_eq!(
        (bytes(&case).lent.totals, lent.totals),
        (vec![1, -3, 7], vec![-3, 7, 1])
    );
    let (answer, on_rows) = run(&case);
    assert_eq!(answer, Answer::Moved);
    assert_eq!(both(|side| case.run_packed(side)), (answer, on_rows));
}

/// A call that every fault below can be put into.
fn jorg(form: Form) -> Packed {
    let mut case = drawn(
        call(Jorg, form, R3, &["++-", "--+"]),
        &[1, -1, 1],
        1.0,
        &[0.0; 3],
    );
    case.panel.keeps = Keeps::Totals;
    case.lent.totals = energies(&case.panel, &case.lent.spins);
    bytes(&case)
}

/// The faults come in falling order of their numbers, and each is the first then; there is no 5.
#[test]
fn refusals_in_their_order() {
    for form in [Sw, Wolff, Grow] {
        let mut case = jorg(form);
        assert_eq!(run_bytes(&case).0, Answer::Moved);
        case.lent.totals[1] = 16_384_000_001;
        byte_refused(&case, 14);
        case.seed = 3;
        byte_refused(&case, if form == Sw { 14 } else { 10 });
        if form == Sw {
            case.choices.flips[2] = 2;
            byte_refused(&case, 9);
        }
        case.choices.cuts[2] = -1.0;
        byte_refused(&case, 8);
        case.temperature = 0.0;
        byte_refused(&case, 7);
        case.panel.couplings[2] = 1_000_001;
        byte_refused(&case, 6);
        case.panel.pins[2] = 2;
        byte_refused(&case, 4);
        case.panel.pins[2] = 0;
        case.panel.fwd.swap(0, 1);
        byte_refused(&case, 4);
        case.lent.columns[2] = 0b100;
        byte_refused(&case, 3);
        case.lent.columns.pop();
        byte_refused(&case, 2);
        case.panel.mode = Houd;
        case.members = 3;
        byte_refused(&case, 15);
        case.panel.d = 5;
        byte_refused(&case, 1);
    }
}

#[test]
fn a_high_bit_is_refused() {
    for members in 2..=8 {
        let rows = [vec!["-"; members - 1], vec!["+"]].concat();
        let mut case = bytes(&call(Perm, Observe, L1, &rows));
        assert_eq!(case.lent.columns, [1 << (members - 1)]);
        assert_eq!(run_bytes(&case).0, Answer::Moved);
        for bit in members..8 {
            case.lent.columns = vec![1 | 1 << bit];
            byte_refused(&case, 3);
        }
    }
}

#[test]
fn sizes() {
    let good = jorg(Wolff);
    for members in [0, 1, 9, 64, usize::MAX] {
        byte_refused(
            &Packed {
                members,
                ..good.clone()
            },
            1,
        );
    }
    // with more members the totals are too few
    byte_refused(
        &Packed {
            members: 3,
            ..good.clone()
        },
        2,
    );
    for n in [0, 4097, usize::MAX] {
        let mut case = good.clone();
        case.panel.n = n;
        byte_refused(&case, 1);
    }
    let mut cmr = good.clone();
    (cmr.panel.mode, cmr.members) = (Cmr, 3);
    byte_refused(&cmr, 1);
}

/// Each by itself; totals that are not kept may have any length.
#[test]
fn lengths() {
    let good = jorg(Wolff);
    for length in [0, 2, 4, 6] {
        let mut case = good.clone();
        case.lent.columns.resize(length, 0);
        byte_refused(&case, 2);
    }
    for length in [0, 1, 3] {
        let mut case = good.clone();
        case.lent.totals.resize(length, 0);
        byte_refused(&case, 2);
        case.panel.keeps = Keeps::Nothing;
        assert_eq!(run_bytes(&case).0, Answer::Moved);
    }
    for length in [0, 2, 4] {
        let mut case = good.clone();
        case.panel.pins.resize(length, 0);
        byte_refused(&case, 2);
    }
}

#[test]
fn permutations_by_number() {
    let five = ["+-+", "--+", "+--", "-+-", "+++"];
    for (mode, form) in [Perm, Gperm]
        .map(|m| [Sw, Wolff, Grow].map(|f| (m, f)))
        .concat()
    {
        let mut case = seed(call(mode, form, R3, &five), 2);
        case.panel.coding = Coding::Numbers;
        case.choices.perms = vec![47; if form == Sw { 3 } else { 1 }];
        let packed = bytes(&case);
        let (answer, lent) = run_bytes(&packed);
        assert_eq!(answer, Answer::Moved);
        assert_ne!(lent.columns, packed.lent.columns);
        for number in [120, 255] {
            let wrong = vec![number; case.choices.perms.len()];
            byte_refused(&bytes(&perms(case.clone(), &wrong)), 9);
        }
        byte_refused(
            &Packed {
                members: 4,
                ..packed
            },
            1,
        );
    }
}

#[test]
fn houd_of_more_is_only_observed() {
    for form in Form::ALL {
        let (answer, _) = run_bytes(&bytes(&call(Houd, form, L1, &["+", "-", "+", "-"])));
        match form {
            Observe => assert_eq!(answer, Answer::Moved),
            _ => assert_eq!(answer, Answer::Refused(15)),
        }
    }
}

/// As C calls it: the numbers that come back, and numbers that are no mode, form, coding or keeps.
#[test]
fn numbers_that_are_none() {
    let idle = bytes(&call(Pair, Grow, L1, &["+", "+"]));
    let held = bytes(&pinned(call(Pair, Grow, L1, &["+", "-"]), &[1]));
    let moved = bytes(&call(Pair, Grow, L1, &["+", "-"]));
    let good = [1, 3, 0, 0];
    for (case, expected) in [(idle, 64), (held, 66), (moved.clone(), 0)] {
        let mut lent = case.lent.clone();
        if let Some(code) = raw::packed_step(good, case.step(&mut lent)) {
            assert_eq!(code, expected);
        }
    }
    for (place, first) in [6, 4, 2, 2].into_iter().enumerate() {
        for none in [first, 128, 255] {
            let (mut numbers, mut lent) = (good, moved.lent.clone());
            numbers[place] = none;
            if let Some(code) = raw::packed_step(numbers, moved.step(&mut lent)) {
                assert_eq!((code, &lent), (1, &moved.lent));
            }
        }
    }
}
